//! Random scripts: steps that mostly fit what is open, with faults of every kind between them, in rooms of every length around the need.

use super::model::Model;
use super::style;
use super::{place, refusal, Script};
use crate::generate::{styles, texts};
use crate::random::Random;
use crate::scribe::{made_right, Call, Desk, Record, UNSTYLED};
use crate::tags::*;
use crate::writer::Step;

/// A buffer that every file fits into.
const AMPLE: usize = LONGEST_FILE;

/// Of the scripts one in so many begins deep inside blocks, and one in so many near the end of the longest file.
const DEEP: usize = 12;
const LONG: usize = 60;

/// The steps that close a field or end a join.
const CLOSING: [Step; 5] = [
    Step::CloseAnchor,
    Step::CloseBlock,
    Step::CloseFragment,
    Step::EndSpace,
    Step::EndComma,
];

/// A script for a new writer.
pub fn script(random: &mut Random) -> Script {
    let mut plan = Plan::new(random);
    if plan.random.one_in(DEEP) {
        plan.go_deep();
    }
    if plan.random.one_in(LONG) {
        plan.go_far();
    }
    for _ in 0..plan.random.pick(&[2, 5, 10, 20, 30]) {
        let call = plan.call();
        plan.push(call);
    }
    if !plan.random.one_in(4) {
        plan.close_all();
    }
    plan.push(Call::bare(Step::Finish));
    let room = plan.room();
    Script {
        start: Desk::new(room),
        calls: plan.calls,
    }
}

/// A step that an open field may or may not allow, with faults.
pub fn any_call(random: &mut Random) -> Call {
    let step = match random.below(24) {
        0 => random.byte(),
        1..=8 => random.pick(&[Step::NextEntry, Step::EndSpace, Step::EndComma]) as u8,
        _ => random.pick(&Step::ALL) as u8,
    };
    brought(random, step, true)
}

/// The calls so far, and the writer after them where there is room for all; the model only knows which fields are open.
struct Plan<'a> {
    random: &'a mut Random,
    desk: Desk,
    model: Model,
    calls: Vec<Call>,
    /// How far each accepted step came.
    ends: Vec<usize>,
    faulty: bool,
}

impl<'a> Plan<'a> {
    fn new(random: &'a mut Random) -> Self {
        Self {
            faulty: !random.one_in(3),
            random,
            desk: Desk::new(AMPLE),
            model: Model::default(),
            calls: Vec::new(),
            ends: vec![0],
        }
    }

    fn push(&mut self, call: Call) {
        let answer = made_right(&mut self.desk, &call);
        if refusal(answer) == 0 {
            self.ends.push(place(answer));
            self.model.follow(&call);
        }
        self.calls.push(call);
    }

    /// A step with what it brings: now and then one that is not allowed.
    fn call(&mut self) -> Call {
        if self.faulty && self.random.one_in(8) {
            return any_call(self.random);
        }
        let step = self.allowed();
        let faulty = self.faulty && self.random.one_in(3);
        brought(self.random, step as u8, faulty)
    }

    /// A step that the open fields allow: more often one that closes or ends, and seldom the last.
    fn allowed(&mut self) -> Step {
        let wanted = match self.random.below(30) {
            0 => &[Step::Finish][..],
            1..=8 => &CLOSING,
            _ => &Step::ALL[..Step::Finish as usize],
        };
        let allowed = self.model.allowed(wanted);
        match allowed[..] {
            [] => Step::Text,
            _ => self.random.pick(&allowed),
        }
    }

    /// Opens blocks, by all steps that do, down to the innermost that is allowed or about there.
    fn go_deep(&mut self) {
        const WAYS: [(Step, Step); 4] = [
            (Step::OpenIndented, Step::OpenFragment),
            (Step::OpenInline, Step::OpenFragment),
            (Step::BeginSpace, Step::NextEntry),
            (Step::BeginComma, Step::NextEntry),
        ];
        let blocks = self.random.between(MOST_BLOCKS - 3, MOST_BLOCKS + 1);
        for _ in 0..blocks {
            let (open, inner) = self.random.pick(&WAYS);
            self.push(Call::bare(open));
            self.push(Call::bare(inner));
        }
    }

    /// Puts a text after which little is left of the longest file, or less than nothing.
    fn go_far(&mut self) {
        let at = self.ends.last().copied().unwrap_or(0);
        let limit = LONGEST_FILE + 20 - self.random.below(140);
        let length = limit.saturating_sub(at + 2 * HEADER);
        self.push(Call::with(Step::Text, UNSTYLED, &vec![b'p'; length]));
    }

    /// The steps that close what is open.
    fn close_all(&mut self) {
        while self.model.tree().is_none() {
            let step = self.model.allowed(&CLOSING)[0];
            let before = self.ends.len();
            self.push(Call::bare(step));
            if self.ends.len() == before {
                return; // no room is left for a comma join's end
            }
        }
    }

    /// Just enough for all steps or for some, a byte less or more, and ample.
    fn room(&mut self) -> usize {
        let last = self.ends.last().copied().unwrap_or(0);
        let some = self.random.pick(&self.ends);
        match self.random.below(12) {
            0..=3 => last,
            4 => last.saturating_sub(1),
            5 => some,
            6 => some.saturating_sub(1),
            7 => some + 1,
            8 => self.random.below(last + 10),
            9 if self.random.one_in(8) => AMPLE + self.random.pick(&[0, 1, 7, 100, 10_000]),
            _ => last + self.random.below(100),
        }
    }
}

/// What a step brings: a style and a text, with faults now and then. Steps that take none are mostly given none.
fn brought(random: &mut Random, step: u8, faulty: bool) -> Call {
    let known = Step::numbered(step);
    let stray = random.one_in(6);
    let takes = |what: fn(Step) -> bool| known.is_some_and(what) || stray;
    let mut call = Call {
        step,
        style: UNSTYLED,
        text: Vec::new(),
    };
    if takes(Step::takes_style) && random.one_in(2) {
        call.style = any_style(random, faulty);
    }
    if takes(Step::takes_text) {
        call.text = match takes(Step::takes_name) {
            true => texts::anchor(random),
            false => texts::text(random, 300),
        };
        if faulty && random.one_in(2) {
            spoil(random, &mut call.text);
        }
    }
    call
}

fn any_style(random: &mut Random, faulty: bool) -> Record {
    let mut record = style::record(&styles::any(random));
    for flag in [0, 1, 5, 10, 12, 14, 15, 16, 17] {
        if record[flag] != 0 && random.one_in(4) {
            record[flag] = random.between(1, 255) as u8;
        }
    }
    if !faulty {
        return record;
    }
    match random.below(6) {
        0 => record[0] = 0,
        1 => [record[12], record[13]] = [1, random.between(116, 129) as u8],
        2 => [record[14], record[15]] = [1, 1],
        3 => [record[1], record[5]] = [random.pick(&[0, 0, 1]), 1],
        4 => near_opacity(random, &mut record),
        _ => record = UNSTYLED.map(|_| random.byte()),
    }
    record
}

/// An opacity at the edge of what is allowed.
fn near_opacity(random: &mut Random, record: &mut Record) {
    let edge = random.pick(&[0, LEAST_OPACITY, FULL_OPACITY, 1 << 31]);
    let bits = edge.wrapping_sub(1).wrapping_add(random.below(3) as u32);
    [record[1], record[5]] = [1, 1];
    record[6..10].copy_from_slice(&bits.to_be_bytes());
}

/// Puts a quote or a byte that is no character into a text, or cuts a character.
fn spoil(random: &mut Random, text: &mut Vec<u8>) {
    let at = random.below(text.len() + 1);
    match random.below(4) {
        0 => text.insert(at, b'"'),
        1 => text.insert(
            at,
            random.pick(&[0x80, 0xbf, 0xc0, 0xc3, 0xe2, 0xed, 0xf0, 0xf5, 0xff]),
        ),
        2 => text.extend("\u{20ac}".bytes().take(2)),
        _ => text.extend([0xff, b'"']),
    }
}
