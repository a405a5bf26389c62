//! Damaged files: accepted ones with something wrong, and plain noise.

pub mod every;
pub mod noise;
pub mod styles;

use crate::field::{self, Field};
use crate::generate;
use crate::random::Random;
use crate::tags::*;

/// Sequences that RFC 3629 does not have: lone, overlong, surrogate, too large, cut.
pub const NOT_UTF8: [&[u8]; 22] = [
    b"\x80",
    b"\xbf",
    b"\xc0\x80",
    b"\xc1\xbf",
    b"\xc2",
    b"\xc2\x7f",
    b"\xc2\xc0",
    b"\xdf\x20",
    b"\xe0\x80\x80",
    b"\xe0\x9f\xbf",
    b"\xe2\x82",
    b"\xe2\x28\xa1",
    b"\xed\xa0\x80",
    b"\xed\xbf\xbf",
    b"\xef\xbf\x7f",
    b"\xf0\x8f\xbf\xbf",
    b"\xf0\x9f\x98",
    b"\xf1\x80\x80\xc0",
    b"\xf4\x90\x80\x80",
    b"\xf5\x80\x80\x80",
    b"\xfe",
    b"\xff",
];

/// A damaged file: one fault mostly, sometimes several, sometimes none after all.
pub fn file(random: &mut Random) -> Vec<u8> {
    if random.one_in(12) {
        return noise::file(random);
    }
    let mut fields = generate::fields(random);
    for _ in 0..random.pick(&[1, 1, 1, 2, 3]) {
        damage_fields(random, &mut fields);
    }
    if random.one_in(6) {
        nul_and_broken(random, &mut fields);
    }
    let mut file = field::encode(&fields);
    if random.one_in(3) {
        damage_bytes(random, &mut file);
    }
    if random.one_in(1_000) {
        lengthen(random, &mut file);
    }
    file
}

/// A small damaged file.
pub fn small_file(random: &mut Random) -> Vec<u8> {
    let mut fields = generate::small_fields(random);
    damage_fields(random, &mut fields);
    let mut file = field::encode(&fields);
    if random.one_in(3) {
        damage_bytes(random, &mut file);
    }
    file
}

/// One fault in the tree; the lengths around it stay right.
fn damage_fields(random: &mut Random, fields: &mut Vec<Field>) {
    match random.below(12) {
        0 | 1 => broken_text(random, fields),
        2 | 3 => styles::damage(random, fields),
        4 => too_deep(random, fields),
        5 => quote(random, fields),
        6 | 7 => edit_one(random, fields, shuffle),
        8 => edit_one(random, fields, retag),
        9 => edit_one(random, fields, resize),
        10 => edit_one(random, fields, loosen),
        // Left to the damage of bytes.
        _ => {}
    }
}

type Edit = fn(&mut Random, &mut Vec<Field>, usize);

/// Edits a field picked among all, if there is one.
fn edit_one(random: &mut Random, fields: &mut Vec<Field>, edit: Edit) {
    let count = field::count(fields);
    if count == 0 {
        return;
    }
    let number = random.below(count);
    if let Some((list, index)) = field::holder(fields, number) {
        edit(random, list, index);
    }
}

/// Edits a field picked among those with one of the tags, if there is one.
fn edit_tagged(random: &mut Random, fields: &mut Vec<Field>, tags: &[u8], edit: Edit) {
    let tagged = |(_, _, field): &(usize, usize, &Field)| match field {
        Field::Leaf(tag, _) | Field::Inner(tag, _) => tags.contains(tag),
        Field::Loose(_) => false,
    };
    let places = field::places(fields);
    let numbers: Vec<usize> = (0..places.len()).filter(|n| tagged(&places[*n])).collect();
    if numbers.is_empty() {
        return;
    }
    let number = random.pick(&numbers);
    if let Some((list, index)) = field::holder(fields, number) {
        edit(random, list, index);
    }
}

fn insert(random: &mut Random, field: &mut Field, bytes: &[u8]) {
    if let Field::Leaf(_, value) = field {
        let at = random.below(value.len() + 1);
        value.splice(at..at, bytes.iter().copied());
    }
}

fn broken_text(random: &mut Random, fields: &mut Vec<Field>) {
    let texts = [TEXT_BYTES, IF_BLOCK_LAYOUT, DEFINITION, USE];
    edit_tagged(random, fields, &texts, |random, list, index| {
        let bytes = random.pick(&NOT_UTF8);
        insert(random, &mut list[index], bytes);
    });
}

/// A NUL in a text, and mostly something that is no UTF-8 before it or behind it: strict mode has two faults at one field.
fn nul_and_broken(random: &mut Random, fields: &mut Vec<Field>) {
    let texts = [TEXT_BYTES, IF_BLOCK_LAYOUT];
    edit_tagged(random, fields, &texts, |random, list, index| {
        insert(random, &mut list[index], b"\0");
        if !random.one_in(3) {
            let bytes = random.pick(&NOT_UTF8);
            insert(random, &mut list[index], bytes);
        }
    });
}

fn quote(random: &mut Random, fields: &mut Vec<Field>) {
    edit_tagged(random, fields, &[DEFINITION, USE], |random, list, index| {
        insert(random, &mut list[index], b"\"");
    });
}

/// Wraps a part of the file, or something new, in 30 to 36 blocks.
fn too_deep(random: &mut Random, fields: &mut Vec<Field>) {
    let times = random.between(30, 36);
    let tag = random.pick(&[INDENTED_BLOCK, INLINE_OR_INDENTED_BLOCK]);
    let at = random.below(fields.len() + 1);
    let inside = fields.split_off(at);
    fields.extend(field::nested(tag, times, inside));
}

/// Repeats, removes, moves or inserts a field.
fn shuffle(random: &mut Random, list: &mut Vec<Field>, index: usize) {
    match random.below(4) {
        0 => list.insert(index, list[index].clone()),
        1 => drop(list.remove(index)),
        2 => {
            let other = random.below(list.len());
            list.swap(index, other);
        }
        _ => {
            let tag = random.pick(&noise::TAGS);
            let length = random.pick(&[0, 0, 1, 3, 4]);
            list.insert(index, field::leaf(tag, vec![0; length]));
        }
    }
}

fn retag(random: &mut Random, list: &mut Vec<Field>, index: usize) {
    let wrong = random.pick(&noise::TAGS);
    match &mut list[index] {
        Field::Leaf(tag, _) | Field::Inner(tag, _) => *tag = wrong,
        Field::Loose(_) => {}
    }
}

/// Makes a value longer or shorter, with the length said rightly.
fn resize(random: &mut Random, list: &mut Vec<Field>, index: usize) {
    let byte = random.byte();
    match &mut list[index] {
        Field::Leaf(_, value) | Field::Loose(value) => {
            if random.one_in(2) {
                value.push(byte);
            } else {
                value.pop();
            }
        }
        Field::Inner(_, inside) => {
            let length = random.between(1, 4);
            inside.push(Field::Loose(vec![byte; length]));
        }
    }
}

/// Says a wrong length for one field, the fields around it staying right.
fn loosen(random: &mut Random, list: &mut Vec<Field>, index: usize) {
    let mut bytes = field::encode(&list[index..=index]);
    if bytes.len() >= HEADER {
        wrong_length(random, &mut bytes, 0);
    }
    list[index] = Field::Loose(bytes);
}

fn wrong_length(random: &mut Random, file: &mut [u8], place: usize) {
    let right = u16::from_be_bytes([file[place + 1], file[place + 2]]);
    let wrong = match random.below(6) {
        0 | 1 => right.wrapping_add(1),
        2 | 3 => right.wrapping_sub(1),
        4 => random.pick(&[0, 0xffff, 0x8000, 0x0100]),
        _ => random.bits() as u16,
    };
    file[place + 1..place + HEADER].copy_from_slice(&wrong.to_be_bytes());
}

/// One fault in the bytes: what encloses it is left as it was.
fn damage_bytes(random: &mut Random, file: &mut Vec<u8>) {
    if file.is_empty() {
        return;
    }
    let fields = field::parse(file);
    let places = field::places(&fields);
    let place = random.pick(&places).0;
    match random.below(6) {
        0 | 1 => file.truncate(random.below(file.len())),
        2 => file[place] = random.pick(&noise::TAGS),
        3 if place + HEADER <= file.len() => wrong_length(random, file, place),
        4 => drop(file.remove(random.below(file.len()))),
        _ => {
            let at = random.below(file.len());
            file[at] = random.byte();
        }
    }
}

/// Makes a file longer than 60,000 bytes, often by just one.
fn lengthen(random: &mut Random, file: &mut Vec<u8>) {
    let more = random.pick(&[1, 1, 2, 500, 40_000]);
    let missing = (LONGEST_FILE + more).saturating_sub(file.len());
    let texts = [missing / 2, missing - missing / 2].map(|n| n.saturating_sub(2 * HEADER));
    file.extend(field::encode(
        &texts.map(|length| field::text(vec![b'l'; length])),
    ));
}
