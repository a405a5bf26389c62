//! Writers that are wrong on purpose: `scripts` has to find each fault, in few steps.

use crate::scribe::{made_right, Call, Desk, Scribe, UNSTYLED};
use crate::subject::{Oneself, Subject};
use crate::tags::*;
use crate::writer::Step;

/// A wrong writer, and the most steps that a script may have in which its fault is told.
pub struct WrongScribe {
    pub name: &'static str,
    pub most_steps: usize,
    makes: Makes,
    printer: Oneself,
}

/// Makes a step wrongly, and answers as the C function does.
type Makes = fn(&mut Desk, &Call) -> u64;

type Row = (&'static str, usize, Makes);

#[rustfmt::skip] // one row, one line
const ALL: [Row; 17] = [
    ("a comma join's last entry ends without its 7", 4, last_comma_lost),
    ("the 5 comes before the comma", 4, space_before_comma),
    ("a comma join with no entries loses its block", 3, empty_join_lost),
    ("a join's own 5 is taken for a header", 4, own_space_as_header),
    ("10 comes before 1", 3, room_before_limit),
    ("9 comes before 7", 3, quote_before_utf8),
    ("7 comes before 8", 4, utf8_before_style),
    ("a block inside 31 others is refused", 66, depth_off_by_one),
    ("a step that fits just so is refused", 2, fit_refused),
    ("a step that does not fit is written as far as it fits", 3, written_in_part),
    ("a refused step moves the state", 3, refusal_moves),
    ("closing does not lead back to the field around", 5, link_lost),
    ("an open header tells its length", 4, header_too_soon),
    ("an empty style is left out", 4, empty_style_lost),
    ("an underline is left out", 4, underline_lost),
    ("a file is finished with a field open", 3, finished_open),
    ("a link that leads on is followed", 3, link_followed),
];

pub fn all() -> Vec<WrongScribe> {
    let new = |(name, most_steps, makes)| WrongScribe {
        name,
        most_steps,
        makes,
        printer: Oneself,
    };
    ALL.into_iter().map(new).collect()
}

impl Scribe for WrongScribe {
    fn make(&mut self, desk: &mut Desk, call: &Call) -> Result<u64, String> {
        Ok((self.makes)(desk, call))
    }

    fn printer(&mut self) -> &mut dyn Subject {
        &mut self.printer
    }
}

/// Kinds of open fields, as the codes in their headers say them.
const FRAGMENT_KIND: u8 = 0;
const SPACE_ENTRY: u8 = 1;
const COMMA_ENTRY: u8 = 2;
const SPACE_JOIN: u8 = 5;
const COMMA_JOIN: u8 = 6;
const ANCHOR_KIND: u8 = 7;

fn coded(number: u8, above: usize) -> u64 {
    (above as u64) << 8 | u64::from(number)
}

fn is_accepted(answer: u64) -> bool {
    answer & 255 == 0
}

fn is_step(call: &Call, step: Step) -> bool {
    call.step == step as u8
}

fn at(desk: &Desk) -> usize {
    desk.state[0] as usize
}

fn top(desk: &Desk) -> usize {
    desk.state[1] as usize
}

/// The code of the open field whose place and 1 is `top`, if there is one in the buffer.
fn code_at(desk: &mut Desk, top: usize) -> Option<&mut u8> {
    desk.file.get_mut(top.checked_sub(1)?)
}

fn is_open(desk: &mut Desk, kind: u8) -> bool {
    let top = top(desk);
    code_at(desk, top).is_some_and(|code| *code / 32 == kind)
}

fn set_kind(desk: &mut Desk, top: usize, kind: u8) {
    if let Some(code) = code_at(desk, top) {
        *code = *code % 32 + 32 * kind;
    }
}

/// The link of the innermost open field, 0 if none is open.
fn link(desk: &Desk) -> usize {
    match desk.file.get(top(desk)..top(desk) + 2) {
        Some(&[high, low]) if top(desk) > 0 => usize::from(u16::from_be_bytes([high, low])),
        _ => 0,
    }
}

/// The step is made right unless another is accepted in its place.
fn instead(desk: &mut Desk, call: &Call, other: impl FnOnce(&mut Desk) -> Option<u64>) -> u64 {
    let mut copy = desk.clone();
    let right = made_right(&mut copy, call);
    let mut wrong = desk.clone();
    match other(&mut wrong) {
        Some(answer) if is_accepted(right) => {
            *desk = wrong;
            answer
        }
        _ => {
            *desk = copy;
            right
        }
    }
}

/// Ends it as if it were a space join, and puts the suffix.
fn last_comma_lost(desk: &mut Desk, call: &Call) -> u64 {
    let wrong = is_step(call, Step::EndComma) && is_open(desk, COMMA_ENTRY);
    instead(desk, call, |desk| {
        let (entry, join) = (top(desk), link(desk));
        set_kind(desk, entry, SPACE_ENTRY);
        set_kind(desk, join, SPACE_JOIN);
        made_right(desk, &Call::bare(Step::EndSpace));
        let suffix = Call::with(Step::Text, call.style, &call.text);
        wrong.then(|| made_right(desk, &suffix))
    })
}

fn space_before_comma(desk: &mut Desk, call: &Call) -> u64 {
    let wrong = is_step(call, Step::NextEntry) && is_open(desk, COMMA_ENTRY);
    let said = made_right(desk, call);
    if wrong && is_accepted(said) {
        let end = at(desk) - HEADER;
        desk.file[end - 10..end].rotate_right(HEADER);
    }
    said
}

/// Takes the block's header back.
fn empty_join_lost(desk: &mut Desk, call: &Call) -> u64 {
    let wrong = is_step(call, Step::EndComma) && is_open(desk, COMMA_JOIN);
    instead(desk, call, |desk| {
        desk.state = [at(desk).checked_sub(HEADER)? as u32, link(desk) as u32];
        let suffix = Call::with(Step::Text, call.style, &call.text);
        wrong.then(|| made_right(desk, &suffix))
    })
}

/// Begins as in a fragment, where a 5 is a node.
fn own_space_as_header(desk: &mut Desk, call: &Call) -> u64 {
    let begins = is_step(call, Step::BeginSpaceBehind) || is_step(call, Step::BeginCommaBehind);
    let entry = top(desk);
    if !begins || !is_open(desk, SPACE_ENTRY) {
        return made_right(desk, call);
    }
    set_kind(desk, entry, FRAGMENT_KIND);
    let said = made_right(desk, call);
    set_kind(desk, entry, SPACE_ENTRY);
    said
}

fn room_before_limit(desk: &mut Desk, call: &Call) -> u64 {
    let said = made_right(desk, call);
    let needed = at(desk) + call.text.len() + 2 * HEADER;
    match said & 255 {
        1 if needed > desk.file.len() => coded(10, needed),
        _ => said,
    }
}

fn quote_before_utf8(desk: &mut Desk, call: &Call) -> u64 {
    let said = made_right(desk, call);
    let names = Step::numbered(call.step).is_some_and(Step::takes_name);
    match said & 255 {
        7 if names && call.text.contains(&b'"') => coded(9, at(desk)),
        _ => said,
    }
}

fn utf8_before_style(desk: &mut Desk, call: &Call) -> u64 {
    let said = made_right(desk, call);
    match said & 255 {
        8 if std::str::from_utf8(&call.text).is_err() => coded(7, at(desk)),
        _ => said,
    }
}

fn depth_off_by_one(desk: &mut Desk, call: &Call) -> u64 {
    let opens = Step::numbered(call.step).is_some_and(Step::opens_block);
    let top = top(desk);
    let blocks = code_at(desk, top).map_or(0, |code| usize::from(*code % 32) + 1);
    let before = desk.clone();
    let said = made_right(desk, call);
    if opens && blocks + 1 == MOST_BLOCKS && is_accepted(said) {
        *desk = before;
        return coded(6, at(desk));
    }
    said
}

fn fit_refused(desk: &mut Desk, call: &Call) -> u64 {
    let before = desk.clone();
    let said = made_right(desk, call);
    let room = desk.file.len();
    let wrote = at(desk) > before.state[0] as usize;
    if wrote && said == coded(0, room) {
        *desk = before;
        return coded(10, room);
    }
    said
}

fn written_in_part(desk: &mut Desk, call: &Call) -> u64 {
    let said = made_right(desk, call);
    if said & 255 == 10 {
        let at = at(desk);
        desk.file[at..].fill(TEXT);
    }
    said
}

fn refusal_moves(desk: &mut Desk, call: &Call) -> u64 {
    let said = made_right(desk, call);
    if said & 255 == 10 {
        desk.state[0] = desk.file.len() as u32;
    }
    said
}

/// Where blocks are nested the root is taken for the field around.
fn link_lost(desk: &mut Desk, call: &Call) -> u64 {
    let closes = is_step(call, Step::CloseFragment);
    let said = made_right(desk, call);
    if closes && is_accepted(said) {
        desk.state[1] = 0;
    }
    said
}

/// The fragment that was just opened has the length 0 in place of its link.
fn header_too_soon(desk: &mut Desk, call: &Call) -> u64 {
    let opens = is_step(call, Step::OpenFragment);
    let said = made_right(desk, call);
    if opens && is_accepted(said) {
        let end = at(desk);
        desk.file[end - 2..end].fill(0);
    }
    said
}

fn empty_style_lost(desk: &mut Desk, call: &Call) -> u64 {
    let flags = [1, 5, 10, 12, 14, 15, 16, 17];
    let is_empty = flags.iter().all(|flag| call.style[*flag] == 0);
    let style = if is_empty { UNSTYLED } else { call.style };
    let call = Call {
        style,
        ..call.clone()
    };
    made_right(desk, &call)
}

fn underline_lost(desk: &mut Desk, call: &Call) -> u64 {
    let mut call = call.clone();
    call.style[17] = 0;
    made_right(desk, &call)
}

fn finished_open(desk: &mut Desk, call: &Call) -> u64 {
    let said = made_right(desk, call);
    let in_anchor = is_open(desk, ANCHOR_KIND);
    match said & 255 {
        11 if is_step(call, Step::Finish) && in_anchor => coded(0, at(desk)),
        _ => said,
    }
}

/// The end of a space join whose link is no field before it closes the entry alone.
fn link_followed(desk: &mut Desk, call: &Call) -> u64 {
    let ends = is_step(call, Step::EndSpace) && is_open(desk, SPACE_ENTRY);
    let leads_on = link(desk) == 0 || link(desk) >= top(desk);
    let said = made_right(desk, call);
    if said & 255 != 11 || !ends || !leads_on || top(desk) + 2 > at(desk) {
        return said;
    }
    let entry = top(desk);
    set_kind(desk, entry, FRAGMENT_KIND);
    made_right(desk, &Call::bare(Step::CloseFragment))
}
