//! Request E1, run: random scripts of a writer's steps, answered as the judge's two writers answer, and the files that they make.

mod corrupt;
mod files;
mod listing;
mod model;
mod random;
mod read_off;
mod shrink;
mod style;
mod tally;

use crate::answers::{Answer, LENT};
use crate::compare::Stop;
use crate::extent::Extent;
use crate::field::Field;
use crate::hex::hex;
use crate::random::Random;
use crate::scribe::{made_right, Call, Desk, Scribe};
use crate::wire;
use crate::writer::Step;
use model::Model;
pub use tally::Tally;

/// Steps, and what they are made on: a new writer's buffer, or one in any state.
#[derive(Clone)]
pub struct Script {
    pub start: Desk,
    pub calls: Vec<Call>,
}

impl Script {
    /// Whether it begins with nothing written. What stands in the buffer then means nothing.
    fn is_new(&self) -> bool {
        self.start.state == [0, 0]
    }

    fn words(&self) -> String {
        let (room, [at, top]) = (self.start.file.len(), self.start.state);
        let mut words = format!("room {room}, state {at}, {top}");
        if !self.is_new() {
            let filled = self.start.file.iter().rposition(|byte| *byte != LENT);
            let shown = &self.start.file[..filled.map_or(0, |last| last + 1)];
            words += &format!(", buffer {}, then {LENT:02x}", hex(shown));
        }
        for call in &self.calls {
            words += &format!("\n  {}", call.words());
        }
        words
    }
}

/// A script that is answered otherwise than it should be, or whose file is wrong.
pub struct Unlike {
    pub script: Script,
    why: String,
}

impl Unlike {
    pub fn words(&self) -> String {
        format!("{}\n  {}", self.script.words(), self.why)
    }
}

/// What came of a script: the answer to each step, and the buffer and the state in the end.
struct Ran {
    answers: Vec<u64>,
    desk: Desk,
}

impl Ran {
    /// The first step that was refused, and its answer.
    fn refused(&self) -> Option<(usize, u64)> {
        let mut answers = self.answers.iter().copied().enumerate();
        answers.find(|(_, answer)| refusal(*answer) != 0)
    }
}

/// The number of an answer's refusal, 0 if it accepts.
fn refusal(answer: u64) -> u8 {
    answer as u8
}

/// The count or the place of an answer.
fn place(answer: u64) -> usize {
    (answer >> 8) as usize
}

fn answer_words(answer: u64) -> String {
    let place = place(answer);
    wire::answer_words(match refusal(answer) {
        0 => Answer::Accepted(place),
        number => Answer::Refused { number, place },
    })
}

/// Tries random scripts; the same seed tries the same again.
pub fn run(scribe: &mut dyn Scribe, seed: u64, extent: Extent) -> Result<Tally, Stop<Unlike>> {
    let mut tally = Tally::default();
    for number in extent.numbers() {
        let mut random = Random::new(seed, number);
        match random.below(16) {
            0..=6 => drop(judge_all(scribe, &random::script(&mut random), &mut tally)?),
            7..=11 => judge_corrupted(scribe, &mut random, &mut tally)?,
            12 | 13 => files::judge_read_off(scribe, &mut random, &mut tally)?,
            _ => files::judge_listing(scribe, &mut random, &mut tally)?,
        }
    }
    Ok(tally)
}

fn judge_corrupted(
    scribe: &mut dyn Scribe,
    random: &mut Random,
    tally: &mut Tally,
) -> Result<(), Stop<Unlike>> {
    for script in corrupt::corrupted(random) {
        judge_all(scribe, &script, tally)?;
    }
    Ok(())
}

/// Judges a script; one that fails is made small.
fn judge_all(
    scribe: &mut dyn Scribe,
    script: &Script,
    tally: &mut Tally,
) -> Result<Ran, Stop<Unlike>> {
    match judge(scribe, script) {
        Ok(ran) => {
            tally.note(script, &ran);
            Ok(ran)
        }
        Err(_) => {
            let script = shrink::smallest(script, &mut |tried| judge(scribe, tried).is_err());
            let why = judge(scribe, &script).err();
            let why = why.unwrap_or("it fails, but not each time".into());
            Err(Stop::Differs(Box::new(Unlike { script, why })))
        }
    }
}

/// The answer, the state and every byte of the buffer after each step, and the file in the end.
fn judge(scribe: &mut dyn Scribe, script: &Script) -> Result<Ran, String> {
    let mut right = Right::new(script);
    let mut desk = script.start.clone();
    let mut answers = Vec::new();
    for (index, call) in script.calls.iter().enumerate() {
        let expected = right.make(call)?;
        let said = scribe.make(&mut desk, call)?;
        differs(&right.desk, expected, &desk, said)
            .map_or(Ok(()), |why| Err(format!("at step {}: {why}", index + 1)))?;
        answers.push(said);
    }
    if let Some(tree) = right.finished(script, &answers) {
        files::judge_finished(scribe, desk.written(), tree)?;
    }
    Ok(Ran { answers, desk })
}

fn differs(right: &Desk, expected: u64, desk: &Desk, said: u64) -> Option<String> {
    if said != expected {
        let [expected, said] = [expected, said].map(answer_words);
        return Some(format!("right is {expected}, the subject said {said}"));
    }
    if desk.state != right.state {
        let (right, said) = (right.state, desk.state);
        return Some(format!("the state should be {right:?}, and is {said:?}"));
    }
    if desk.file == right.file {
        return None;
    }
    let mut bytes = right.file.iter().zip(&desk.file);
    let at = bytes.position(|(right, said)| right != said)?;
    let (right, said) = (right.file[at], desk.file[at]);
    Some(format!(
        "byte {at} of the buffer should be {right:#04x}, and is {said:#04x}"
    ))
}

/// A script of so many steps is followed by the model too, which copies all that it holds at every step.
const MOST_MODELLED: usize = 200;

/// The judge's two writers, side by side.
struct Right {
    desk: Desk,
    model: Option<Model>,
}

impl Right {
    fn new(script: &Script) -> Self {
        let modelled = script.is_new() && script.calls.len() <= MOST_MODELLED;
        Self {
            desk: script.start.clone(),
            model: modelled.then(Model::default),
        }
    }

    /// The answer to a step. That the two writers differ is the judge's own fault.
    fn make(&mut self, call: &Call) -> Result<u64, String> {
        let answer = made_right(&mut self.desk, call);
        let Some(model) = &mut self.model else {
            return Ok(answer);
        };
        let thought = match model.make(call, self.desk.file.len()) {
            Ok(at) => (0, at),
            Err(refusal) => (refusal.number, refusal.place),
        };
        let seen = model.seen();
        let same = thought == (refusal(answer), place(answer))
            && seen.state == self.desk.state
            && seen.bytes == self.desk.written();
        match same {
            true => Ok(answer),
            false => Err(format!(
                "the judge's two writers differ: {} and {thought:?}",
                answer_words(answer)
            )),
        }
    }

    /// The tree of a file that the last step finished.
    fn finished(&self, script: &Script, answers: &[u64]) -> Option<&[Field]> {
        let last = script.calls.last()?;
        let accepted = refusal(*answers.last()?) == 0;
        let finishes = last.step == Step::Finish as u8 && accepted;
        self.model.as_ref().filter(|_| finishes)?.tree()
    }
}
