//! CRs and NULs in texts and in the names of anchors: what strict HTML is about.

use crate::field::{self, Field};
use crate::random::Random;
use crate::tags::*;

/// Of the files one in so many keeps its NULs in texts, and may get more: strict mode refuses it.
const WITH_NULS: usize = 5;

/// A CR alone, beside a newline, doubled, beside what HTML escapes, and what looks like one that is written already.
const RETURNS: [&[u8]; 12] = [
    b"\r", b"\r", b"\r\n", b"\n\r", b"\r\r", b"\r\r\n", b"\r&", b"&\r", b"<\r", b"&\r#13;",
    b"&#13;", b"\ra\r",
];

/// With a NUL in a text.
const NULS: [&[u8]; 4] = [b"\0", b"\0\0", b"\r\0", b"a\0\n"];

/// In a name a CR and a NUL mean nothing.
const IN_NAMES: [&[u8]; 6] = [b"\r", b"\r\n", b"\0", b"\r\r", b"&#13;", b"\0\r&"];

/// Of the files one in so many stays as it is but for its NULs, so that what it measures stays.
const AS_IT_IS: usize = 2;

/// Puts CRs into some texts and names, and NULs into few texts: in most files no text has a NUL. The file does not grow too long.
pub fn sprinkle(random: &mut Random, fields: &mut [Field]) {
    let with_nuls = random.one_in(WITH_NULS);
    if !with_nuls {
        clear(fields);
    }
    if random.one_in(AS_IT_IS) {
        return;
    }
    let mut room = LONGEST_FILE.saturating_sub(field::length(fields));
    each(fields, &mut |tag, value| {
        let more = more(random, tag, with_nuls);
        if more.len() <= room {
            room -= more.len();
            put(random, value, more);
        }
    });
}

/// Puts a CR in the place of each NUL of a text.
pub fn clear(fields: &mut [Field]) {
    each(fields, &mut |tag, value| {
        let nuls = value.iter_mut().filter(|byte| **byte == 0);
        let nuls = nuls.filter(|_| is_text(tag));
        nuls.for_each(|byte| *byte = b'\r');
    });
}

/// What is put into a text or name, mostly nothing.
fn more(random: &mut Random, tag: u8, with_nuls: bool) -> &'static [u8] {
    match random.below(4) {
        0 if !is_text(tag) => random.pick(&IN_NAMES),
        0 => random.pick(&RETURNS),
        1 if is_text(tag) && with_nuls => random.pick(&NULS),
        _ => b"",
    }
}

fn is_text(tag: u8) -> bool {
    matches!(tag, TEXT_BYTES | IF_BLOCK_LAYOUT)
}

/// Each text and each name, in file order.
fn each(fields: &mut [Field], edit: &mut dyn FnMut(u8, &mut Vec<u8>)) {
    for field in fields {
        match field {
            Field::Leaf(tag @ (TEXT_BYTES | IF_BLOCK_LAYOUT | DEFINITION | USE), value) => {
                edit(*tag, value)
            }
            Field::Inner(_, inside) => each(inside, edit),
            Field::Leaf(..) | Field::Loose(_) => {}
        }
    }
}

/// At the start, at the end, or between two characters.
fn put(random: &mut Random, value: &mut Vec<u8>, more: &[u8]) {
    let mut at = match random.below(3) {
        0 => 0,
        1 => value.len(),
        _ => random.below(value.len() + 1),
    };
    let is_inside = |at: usize| value.get(at).is_some_and(|byte| byte & 0xc0 == 0x80);
    while is_inside(at) {
        at -= 1;
    }
    value.splice(at..at, more.iter().copied());
}
