//! States that no writer has: numbers and open headers changed at random, in the midst of a script.

use super::random::{any_call, script};
use super::Script;
use crate::random::Random;
use crate::scribe::{made_right, Call, Desk};
use crate::tags::LONGEST_FILE;
use crate::writer::Step;

/// What a script came to is corrupted in so many ways.
const WAYS: usize = 6;

/// Scripts that begin with a corrupted state.
pub fn corrupted(random: &mut Random) -> Vec<Script> {
    let Script { mut start, calls } = script(random);
    let until = random.below(calls.len());
    for call in &calls[..until] {
        made_right(&mut start, call);
    }
    (0..WAYS).map(|_| one_way(random, start.clone())).collect()
}

fn one_way(random: &mut Random, mut start: Desk) -> Script {
    for _ in 0..random.between(1, 3) {
        corrupt(random, &mut start);
    }
    let fitting = fitting_call(random, &start);
    let others = (0..random.below(4)).map(|_| any_call(random));
    Script {
        calls: fitting.into_iter().chain(others).collect(),
        start,
    }
}

/// A step that leads out of what the innermost header says, if it is there.
fn fitting_call(random: &mut Random, desk: &Desk) -> Option<Call> {
    let code = desk.file.get((desk.state[1] as usize).checked_sub(1)?)?;
    let step = match code / 32 {
        0 => Step::CloseFragment,
        1 | 5 => random.pick(&[Step::EndSpace, Step::EndSpace, Step::NextEntry]),
        2 | 6 => random.pick(&[Step::EndComma, Step::EndComma, Step::NextEntry]),
        3 | 4 => random.pick(&[Step::CloseBlock, Step::OpenFragment]),
        _ => Step::CloseAnchor,
    };
    (!random.one_in(4)).then(|| Call::bare(step))
}

fn corrupt(random: &mut Random, desk: &mut Desk) {
    match random.below(8) {
        0 => desk.state[0] = number(random, desk),
        1 => desk.state[1] = number(random, desk),
        2 => desk.state = [number(random, desk), number(random, desk)],
        3 => scatter(random, desk),
        _ => change_header(random, desk),
    }
}

/// A number near one that means something, or any.
fn number(random: &mut Random, desk: &Desk) -> u32 {
    let [at, top] = desk.state;
    let room = desk.file.len() as u32;
    let near = match random.below(8) {
        0 => random.bits() as u32,
        1 => u32::MAX,
        2 => LONGEST_FILE as u32,
        3 => room,
        4 | 5 => random.below(desk.file.len() + 1) as u32,
        6 => at,
        _ => top,
    };
    near.wrapping_add(random.below(7) as u32).wrapping_sub(3)
}

/// Some bytes of the buffer.
fn scatter(random: &mut Random, desk: &mut Desk) {
    let length = desk.file.len();
    for _ in 0..random.below(10).min(length) {
        desk.file[random.below(length)] = random.byte();
    }
}

/// The header of an open field: its code, or the link to the field around it.
fn change_header(random: &mut Random, desk: &mut Desk) {
    let places = open_places(desk);
    if places.is_empty() {
        return scatter(random, desk);
    }
    let place = if random.one_in(2) {
        places[0]
    } else {
        random.pick(&places)
    };
    let header = &mut desk.file[place..place + 3];
    match random.below(6) {
        0 => header[0] = random.byte(),
        1 => header[0] = header[0] % 32 + 32 * random.below(8) as u8,
        2 => header[0] = header[0] / 32 * 32 + random.pick(&[0, 1, 30, 31]),
        3 => header[1] = random.byte(),
        4 => header[2] = random.byte(),
        _ => {
            let link = (place + 3).saturating_sub(random.below(7));
            header[1..].copy_from_slice(&(link as u16).to_be_bytes());
        }
    }
}

/// The places of the open fields' headers, as far as the links lead inside the buffer.
fn open_places(desk: &Desk) -> Vec<usize> {
    let mut places = Vec::new();
    let mut top = desk.state[1] as usize;
    while top > 0 && top + 2 <= desk.file.len() && !places.contains(&(top - 1)) {
        places.push(top - 1);
        top = usize::from(u16::from_be_bytes([desk.file[top], desk.file[top + 1]]));
    }
    places
}
