//! Faults put into an accepted file on purpose, with the refusal that document 01 gives for each.

pub mod of_strict;

use crate::check::Refusal;
use crate::damage::styles::{BAD_ENDS, BAD_OPACITIES};
use crate::damage::NOT_UTF8;
use crate::field::{self, Field};
use crate::hex::hex;
use crate::original::is_39;
use crate::random::Random;
use crate::tags::*;

/// A file and what the check has to answer.
pub struct Known {
    pub file: Vec<u8>,
    pub right: Result<(), Refusal>,
}

impl Known {
    /// In words, what was said instead.
    pub fn instead(&self, said: Result<(), Refusal>) -> String {
        let (file, right) = (hex(&self.file), self.right);
        format!("{said:?} in place of {right:?} for {file}")
    }
}

/// A known fault in a file that is accepted without it; none if the file has no place for it.
pub fn fault(random: &mut Random, fields: &[Field]) -> Option<Known> {
    match random.below(9) {
        0 => Some(cut(random, fields)),
        1 => Some(deep(random, fields)),
        2 => long(random, fields),
        kind => in_field(random, fields, kind),
    }
}

fn refused(file: Vec<u8>, number: u8, place: usize) -> Option<Known> {
    let right = Err(Refusal { number, place });
    Some(Known { file, right })
}

/// A cut hits the length of a field of the root, or no field at all.
fn cut(random: &mut Random, fields: &[Field]) -> Known {
    let mut file = field::encode(fields);
    file.truncate(random.below(file.len() + 1));
    let mut place = 0;
    for root in fields {
        let end = place + field::encode(std::slice::from_ref(root)).len();
        if end > file.len() {
            break;
        }
        place = end;
    }
    let right = match place == file.len() {
        true => Ok(()),
        false => Err(Refusal { number: 3, place }),
    };
    Known { file, right }
}

/// The 33rd block answers, however many are inside it.
fn deep(random: &mut Random, fields: &[Field]) -> Known {
    let tag = random.pick(&[INDENTED_BLOCK, INLINE_OR_INDENTED_BLOCK]);
    let place = field::encode(fields).len() + MOST_BLOCKS * 2 * HEADER;
    let blocks = random.between(MOST_BLOCKS + 1, MOST_BLOCKS + 4);
    let mut fields = fields.to_vec();
    fields.extend(field::nested(tag, blocks, Vec::new()));
    let file = field::encode(&fields);
    let right = match file.len() <= LONGEST_FILE {
        true => Refusal { number: 6, place },
        false => Refusal {
            number: 1,
            place: 0,
        },
    };
    Known {
        file,
        right: Err(right),
    }
}

/// Too long by a byte or a few; seldom, since such a file takes its time.
fn long(random: &mut Random, fields: &[Field]) -> Option<Known> {
    if !random.one_in(50) {
        return None;
    }
    let mut file = field::encode(fields);
    let more = random.between(1, 4);
    file.resize(LONGEST_FILE + more, 0);
    refused(file, 1, 0)
}

/// A fault at a field picked among all: everything before it is in order.
fn in_field(random: &mut Random, fields: &[Field], kind: usize) -> Option<Known> {
    let places = field::places(fields);
    if places.is_empty() {
        return None;
    }
    let number = random.below(places.len());
    let (mut place, _, found) = places[number];
    let mut fields = fields.to_vec();
    let (list, index) = field::holder(&mut fields, number)?;
    let number = match (kind, found) {
        (3, Field::Leaf(tag, _)) => value_fault(random, *tag, &mut list[index])?,
        (4, Field::Inner(tag, _)) => missing(*tag, &mut list[index])?,
        (5 | 6, _) => spoil_header(random, &mut list[index]),
        (7, Field::Leaf(tag, _)) if field_is_fixed(*tag) => {
            resize(random, &mut list[index]);
            5
        }
        (8, Field::Inner(STYLES, _)) => {
            let (number, inside) = bad_end(random, &mut list[index])?;
            place += HEADER + inside;
            number
        }
        _ => return None,
    };
    let file = field::encode(&fields);
    match file.len() <= LONGEST_FILE {
        true => refused(file, number, place),
        false => refused(file, 1, 0),
    }
}

/// Makes a value bad; the number that answers.
fn value_fault(random: &mut Random, tag: u8, field: &mut Field) -> Option<u8> {
    let Field::Leaf(_, value) = field else {
        return None;
    };
    match tag {
        SIZE => *value = vec![random.between(118, 127) as u8],
        OPACITY => *value = random.pick(&BAD_OPACITIES).to_be_bytes().to_vec(),
        DEFINITION | USE if random.one_in(2) => {
            value.insert(0, b'"');
            return Some(9);
        }
        TEXT_BYTES | IF_BLOCK_LAYOUT | DEFINITION | USE => {
            value.extend(random.pick(&NOT_UTF8));
            return Some(7);
        }
        _ => return None,
    }
    Some(8)
}

/// Ends a 16 badly; the number that answers, and how far in the value.
fn bad_end(random: &mut Random, field: &mut Field) -> Option<(u8, usize)> {
    let Field::Inner(_, inside) = field else {
        return None;
    };
    inside.retain(|field| !is_39(field));
    let end = random.pick(&BAD_ENDS);
    let before = inside.len() + end.at;
    inside.extend(end.fields());
    Some((end.number, field::length(&inside[..before])))
}

/// Takes out what a 1 or an anchor without runs has to hold.
fn missing(tag: u8, field: &mut Field) -> Option<u8> {
    let Field::Inner(_, inside) = field else {
        return None;
    };
    match (tag, inside.len()) {
        (TEXT, _) | (ANCHOR, 1) => drop(inside.pop()),
        _ => return None,
    }
    Some(5)
}

/// A tag that is allowed nowhere, or a length that no file has room for.
fn spoil_header(random: &mut Random, field: &mut Field) -> u8 {
    let mut bytes = field::encode(std::slice::from_ref(field));
    let number = if random.one_in(2) {
        bytes[0] = random.pick(&[0, 9, 15, 20, 31, 40, 99, 255]);
        4
    } else {
        bytes[1..HEADER].fill(0xff);
        3
    };
    *field = Field::Loose(bytes);
    number
}

fn field_is_fixed(tag: u8) -> bool {
    matches!(tag, BREAKING_ONLY_SPACE | FORCE_LINE_SEPARATION) || STYLE_TAGS.contains(&tag)
}

fn resize(random: &mut Random, field: &mut Field) {
    if let Field::Leaf(_, value) = field {
        if value.pop().is_none() || random.one_in(2) {
            value.extend([0, 0]);
        }
    }
}
