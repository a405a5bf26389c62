//! Masks of accepted files: other bytes in the texts, with what a mask has to keep at its places.

use crate::answers::Operation;
use crate::field::{self, Field};
use crate::generate::texts;
use crate::random::Random;
use crate::tags::{HEADER, IF_BLOCK_LAYOUT, TEXT_BYTES};
use std::ops::Range;

/// The text bytes that stay where they are, and that no mask puts in.
#[derive(Clone, Copy, Debug, PartialEq, Eq)]
pub enum Kept {
    /// Newlines: enough for the check, layout and the plain page.
    Lines,
    /// Newlines and the bytes that HTML escapes.
    LinesAndEscapes,
    /// With CR, which strict HTML escapes, and NUL, which it refuses.
    Strict,
}

impl Kept {
    /// What a page's masks have to keep.
    pub fn by(page: Operation) -> Self {
        match page {
            Operation::Plain => Self::Lines,
            Operation::Body | Operation::Document => Self::LinesAndEscapes,
            _ => Self::Strict,
        }
    }

    /// Whether its masks keep all that those of the other do: each keeps more than the one before it.
    pub fn keeps_all_of(self, other: Self) -> bool {
        self as u8 >= other as u8
    }

    fn keeps(self, byte: u8) -> bool {
        match self {
            Self::Lines => byte == b'\n',
            Self::LinesAndEscapes => matches!(byte, b'\n' | b'&' | b'<'),
            Self::Strict => matches!(byte, b'\n' | b'&' | b'<' | b'\r' | 0),
        }
    }
}

/// Where the texts of a file stand, the values of 17 and 7.
fn texts(file: &[u8]) -> Vec<Range<usize>> {
    let fields = field::parse(file);
    let text = |(place, _, field): (usize, usize, &Field)| match field {
        Field::Leaf(TEXT_BYTES | IF_BLOCK_LAYOUT, value) => {
            let start = place + HEADER;
            Some(start..start + value.len())
        }
        _ => None,
    };
    field::places(&fields)
        .into_iter()
        .filter_map(text)
        .collect()
}

/// The places of the text bytes that a mask may change, rising.
pub fn changeable(file: &[u8], kept: Kept) -> Vec<usize> {
    let places = texts(file).into_iter().flatten();
    places.filter(|place| !kept.keeps(file[*place])).collect()
}

/// Whether no text has a byte that only strict HTML looks at.
pub fn is_same_strictly(file: &[u8]) -> bool {
    let mut places = texts(file).into_iter().flatten();
    places.all(|place| !matches!(file[place], b'\r' | 0))
}

/// The mask that has an `x` for each byte.
pub fn dull(file: &[u8], kept: Kept) -> Vec<u8> {
    marked(file, kept, |_| b'x')
}

/// A mask with the letter that goes with each place.
fn marked(file: &[u8], kept: Kept, letter: impl Fn(usize) -> u8) -> Vec<u8> {
    let mut mask = file.to_vec();
    for place in changeable(file, kept) {
        mask[place] = letter(place);
    }
    mask
}

/// A mask: what stands between two kept bytes becomes something else of its length, or stays.
pub fn random(random: &mut Random, file: &[u8], kept: Kept) -> Vec<u8> {
    let mut mask = file.to_vec();
    for text in texts(file) {
        for part in mask[text].split_mut(|byte| kept.keeps(*byte)) {
            if !random.one_in(4) {
                refill(random, part, kept);
            }
        }
    }
    mask
}

/// Fills a part with whole characters.
fn refill(random: &mut Random, part: &mut [u8], kept: Kept) {
    let kind = random.below(texts::KINDS);
    let mut at = 0;
    while at < part.len() {
        let letter = texts::letter(random, kind);
        let fits = letter.len_utf8() <= part.len() - at;
        let keeps = letter.is_ascii() && kept.keeps(letter as u8);
        let letter = if fits && !keeps { letter } else { 'q' };
        letter.encode_utf8(&mut part[at..]);
        at += letter.len_utf8();
    }
}

/// So many letters serve as digits.
const BASE: usize = 26;

/// Masks that tell each byte's place: the first has the lowest digit of the
/// place as a letter, the next the digit above. The last is the first with
/// every letter moved, so that a letter which was not copied shows.
pub fn marks(file: &[u8], kept: Kept) -> Vec<Vec<u8>> {
    let digit = |place: usize, unit| b'a' + (place / unit % BASE) as u8;
    let mut marks = Vec::new();
    let mut unit = 1;
    while marks.is_empty() || unit < file.len() {
        marks.push(marked(file, kept, |place| digit(place, unit)));
        unit *= BASE;
    }
    marks.push(marked(file, kept, |place| moved(digit(place, 1))));
    marks
}

fn moved(letter: u8) -> u8 {
    b'a' + (letter - b'a' + 13) % BASE as u8
}

/// The place that the letters tell which a page has at one position, if they tell one.
pub fn place(letters: &[u8]) -> Option<usize> {
    let (last, digits) = letters.split_last()?;
    if !letters.iter().all(u8::is_ascii_lowercase) || *last != moved(*digits.first()?) {
        return None;
    }
    let digit = |letter: &u8| usize::from(letter - b'a');
    let digits = digits.iter().rev().map(digit);
    Some(digits.fold(0, |place, digit| place * BASE + digit))
}
