//! Request E3, run: files masked into pages of every length around the need, and couples of files, most of which are no pair, read at many places.

mod couples;
mod tally;

use crate::answers::{self, Operation, Outcome, Request};
use crate::compare::Stop;
use crate::damage;
use crate::extent::Extent;
use crate::field;
use crate::generate;
use crate::masker::{Masker, Question};
use crate::pair;
use crate::random::Random;
use crate::shrink::shrink;
use crate::subject::Said;
use crate::wire;
use couples::Couple;
use std::iter;
pub use tally::Tally;

/// In a file of at most so many bytes each one is changed.
const EVERY_BYTE: usize = 24;

/// The same where a file that fails is made small: what fails is not to be missed in a smaller one.
const EVERY_BYTE_OF_SMALLER: usize = 80;

/// One file in so many is also made as long as is accepted, or longer.
const AT_THE_LIMIT: usize = 60;

/// A question that is answered otherwise than it should be.
pub struct Unlike {
    /// How many bytes its files have.
    pub bytes: usize,
    words: String,
}

impl Unlike {
    fn new(question: Question, right: &Outcome, said: &Said) -> Self {
        let said = match said {
            Ok(said) => wire::answer_line(said),
            Err(why) => why.clone(),
        };
        let (right, words) = (wire::answer_line(right), question.words());
        Self {
            bytes: question.bytes(),
            words: format!("{words}\n  right is:         {right}\n  the subject said: {said}"),
        }
    }

    pub fn words(&self) -> String {
        self.words.clone()
    }
}

/// Tries random files, accepted and damaged; the same seed tries the same again.
pub fn run(masker: &mut dyn Masker, seed: u64, extent: Extent) -> Result<Tally, Stop<Unlike>> {
    let mut tally = Tally::default();
    for number in extent.numbers() {
        let file = any_file(&mut Random::new(seed, number));
        let asked = Asked::about(seed, &file, EVERY_BYTE);
        tally.files += 1;
        for (question, right) in asked.questions() {
            let said = masker.say(question);
            if said.as_ref() != Ok(&right) {
                let unlike = Unlike::new(question, &right, &said);
                let smallest = smallest(masker, seed, file.clone());
                return Err(Stop::Differs(Box::new(smallest.unwrap_or(unlike))));
            }
            tally.note(question, right.answer);
        }
    }
    Ok(tally)
}

/// An accepted file mostly, since of a refused one no couple is a pair.
fn any_file(random: &mut Random) -> Vec<u8> {
    match random.one_in(4) {
        true => damage::file(random),
        false => field::encode(&generate::fields(random)),
    }
}

/// Of the questions about the smallest file the smallest that fails; none if it fails, but not each time.
fn smallest(masker: &mut dyn Masker, seed: u64, file: Vec<u8>) -> Option<Unlike> {
    let small = shrink(Request::check(file), &mut |tried| {
        let mut files = tried.iter().map(|request| &request.file);
        files.position(|file| {
            let asked = Asked::about(seed, file, EVERY_BYTE_OF_SMALLER);
            let mut faults = faults(masker, &asked);
            faults.next().is_some()
        })
    });
    let asked = Asked::about(seed, &small.file, EVERY_BYTE_OF_SMALLER);
    let faults = faults(masker, &asked);
    faults.min_by_key(|unlike| unlike.bytes)
}

/// The questions that the subject answers otherwise than it should.
fn faults<'a>(masker: &'a mut dyn Masker, asked: &'a Asked) -> impl Iterator<Item = Unlike> + 'a {
    asked.questions().filter_map(|(question, right)| {
        let said = masker.say(question);
        (said.as_ref() != Ok(&right)).then(|| Unlike::new(question, &right, &said))
    })
}

/// All that is asked about a file.
struct Asked {
    /// Files to be masked, each into pages of several lengths.
    masks: Vec<(Vec<u8>, Vec<usize>)>,
    couples: Vec<Couple>,
}

impl Asked {
    /// It depends on nothing but the seed and the file, so that one that fails does so again.
    fn about(seed: u64, file: &[u8], every_byte: usize) -> Self {
        let mut random = Random::new(seed, digest(file));
        // A file that is refused is masked by its loose tree, so that its couples come close to pairs.
        let mask = field::encode(&pair::masked(&field::parse(file)));
        let couples = couples::of(&mut random, file, &mask, every_byte);
        let mut files = vec![file.to_vec(), mask];
        if random.one_in(AT_THE_LIMIT) {
            let more = couples::to_the_limit(&mut random, file.len());
            files.push([file, &more].concat());
        }
        let masks = files.into_iter().map(|file| {
            let rooms = rooms(&mut random, file.len());
            (file, rooms)
        });
        Self {
            masks: masks.collect(),
            couples,
        }
    }

    /// Every question with what is right for it.
    fn questions(&self) -> impl Iterator<Item = (Question<'_>, Outcome)> {
        let masks = self.masks.iter().flat_map(|(file, rooms)| {
            let mask = pair::mask(file);
            let asked = move |room: &usize| {
                let room = *room;
                let right = answers::page_outcome(&mask, room);
                (Question::Mask { file, room }, right)
            };
            rooms.iter().map(asked)
        });
        let files = self.masks.iter().map(|(file, _)| &file[..]);
        let strict = files.flat_map(strict_questions);
        let couples = self.couples.iter().flat_map(Couple::questions);
        masks.chain(strict).chain(couples)
    }
}

/// The strict check, and the strict body of what it accepts, in just enough room.
fn strict_questions(file: &[u8]) -> impl Iterator<Item = (Question<'_>, Outcome)> {
    let check = answers::Asked::page(Operation::CheckStrict, 0, file);
    let body = answers::rendered(Operation::BodyStrict, file).ok();
    let body = body.map(|page| answers::Asked::page(Operation::BodyStrict, page.len(), file));
    let asked = iter::once(check).chain(body).map(Question::Strict);
    asked.map(|question| (question, pair::answer(question)))
}

/// No byte, a byte too few, just enough, a byte more, and more.
fn rooms(random: &mut Random, length: usize) -> Vec<usize> {
    let more = random.between(2, 80);
    let mut rooms = vec![
        0,
        length.saturating_sub(1),
        length,
        length + 1,
        length + more,
    ];
    rooms.dedup();
    rooms
}

fn digest(file: &[u8]) -> u64 {
    let digit = |sum: u64, byte: &u8| sum.wrapping_mul(257).wrapping_add(u64::from(*byte) + 1);
    file.iter().fold(0, digit)
}
