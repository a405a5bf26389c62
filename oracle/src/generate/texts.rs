//! Random texts and anchor names: valid UTF-8 with its edges, newlines and the bytes HTML cares about.

use crate::random::Random;

/// The first and last characters of each length and of each row of RFC 3629's table.
const EDGES: [char; 22] = [
    '\0',
    '\u{7f}',
    '\u{80}',
    '\u{bf}',
    '\u{c0}',
    '\u{7ff}',
    '\u{800}',
    '\u{fff}',
    '\u{1000}',
    '\u{cfff}',
    '\u{d000}',
    '\u{d7ff}',
    '\u{e000}',
    '\u{fffd}',
    '\u{ffff}',
    '\u{10000}',
    '\u{3ffff}',
    '\u{40000}',
    '\u{fffff}',
    '\u{100000}',
    '\u{10fffe}',
    '\u{10ffff}',
];

const SPECIAL: [char; 12] = [
    '\n', '\n', '\n', '\r', '\0', '&', '<', '>', '"', ' ', '\'', ';',
];

/// A text of at most about `most` bytes.
pub fn text(random: &mut Random, most: usize) -> Vec<u8> {
    let length = match random.below(50) {
        0..=5 => 0,
        6..=19 => 1,
        20..=40 => random.between(2, 8),
        41..=48 => random.between(9, 40),
        _ => random.below(most + 1),
    };
    let kind = random.below(KINDS);
    let mut text = String::with_capacity(length);
    while text.len() < length {
        text.push(letter(random, kind));
    }
    text.into_bytes()
}

/// So many kinds of texts there are.
pub const KINDS: usize = 8;

/// A character of a text of the kind.
pub fn letter(random: &mut Random, kind: usize) -> char {
    match kind {
        0..=3 => plain(random),
        4 if random.one_in(4) => '\n',
        5 if random.one_in(2) => random.pick(&SPECIAL),
        6 if random.one_in(2) => random.pick(&EDGES),
        6 => any(random),
        7 => random.pick(&SPECIAL),
        _ => plain(random),
    }
}

fn plain(random: &mut Random) -> char {
    const PLAIN: &[u8] = b"abcdefghijklmnopqrstuvwxyzxxxx_ %0123456789.,()";
    char::from(random.pick(PLAIN))
}

/// Any character at all; numbers of surrogates are none.
fn any(random: &mut Random) -> char {
    let number = match random.below(4) {
        0 => random.below(0x80),
        1 => random.below(0x800),
        2 => random.below(0x1_0000),
        _ => random.below(0x11_0000),
    };
    u32::try_from(number)
        .ok()
        .and_then(char::from_u32)
        .unwrap_or('\u{e000}')
}

/// A name as it stands in code.
pub fn name(random: &mut Random) -> Vec<u8> {
    let length = random.pick(&[1, 1, 1, 2, 3, 5, 8]);
    (0..length).map(|_| plain(random) as u8).collect()
}

/// An anchor's name: a text without a quote.
pub fn anchor(random: &mut Random) -> Vec<u8> {
    let mut name = text(random, 12);
    name.retain(|byte| *byte != b'"');
    name
}
