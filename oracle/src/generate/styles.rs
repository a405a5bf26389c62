//! Random style fields: every allowed combination, with the edges of each value.

use crate::field::{leaf, Field};
use crate::random::Random;
use crate::tags::*;

/// The fields of an accepted 16 that the original has styles for, often of an empty one: all but a 39.
pub fn styles(random: &mut Random) -> Vec<Field> {
    let mut wanted = random.below(128) as u8;
    match random.below(6) {
        0 => wanted = 0,
        1 | 2 => wanted &= random.below(128) as u8,
        _ => {}
    }
    let wants = |tag: u8| wanted & 1 << (tag - COLOUR) != 0;
    let both = wants(SUBSCRIPT) && wants(SUPERSCRIPT);
    let dropped = random.pick(&[SUBSCRIPT, SUPERSCRIPT]);
    let opaque = wants(OPACITY);
    let mut fields = Vec::new();
    for tag in STYLE_TAGS.into_iter().filter(|tag| *tag != UNDERLINE) {
        let needed = tag == COLOUR && opaque;
        if (wants(tag) || needed) && !(both && tag == dropped) {
            fields.push(leaf(tag, value(random, tag)));
        }
    }
    fields
}

/// The fields of any accepted 16, often of one with a 39 alone.
pub fn any(random: &mut Random) -> Vec<Field> {
    let mut fields = styles(random);
    underline_some(random, &mut fields);
    fields
}

/// Puts a 39 behind the fields of a 16 or in their place, or leaves them.
fn underline_some(random: &mut Random, fields: &mut Vec<Field>) {
    match random.below(6) {
        0 => *fields = vec![leaf(UNDERLINE, [])],
        1 | 2 => fields.push(leaf(UNDERLINE, [])),
        _ => {}
    }
}

/// Underlines texts of an accepted tree without 39s that may grow by so many bytes: behind each style, alone, and where no style was.
pub fn underline(random: &mut Random, fields: &mut [Field], room: &mut usize) {
    const MOST: usize = 2 * HEADER;
    for field in fields {
        match field {
            Field::Inner(TEXT, parts) if *room >= MOST => {
                match &mut parts[..] {
                    [Field::Inner(STYLES, inside), _] => underline_some(random, inside),
                    _ if random.one_in(6) => {
                        parts.insert(0, Field::Inner(STYLES, vec![leaf(UNDERLINE, [])]));
                    }
                    _ => continue,
                }
                *room -= MOST;
            }
            Field::Inner(_, inside) => underline(random, inside, room),
            Field::Leaf(..) | Field::Loose(_) => {}
        }
    }
}

fn value(random: &mut Random, tag: u8) -> Vec<u8> {
    match tag {
        COLOUR => (0..3).map(|_| random.byte()).collect(),
        OPACITY => opacity(random).to_be_bytes().to_vec(),
        THICKNESS => vec![thickness(random) as u8],
        SIZE => vec![size(random) as u8],
        _ => Vec::new(),
    }
}

fn thickness(random: &mut Random) -> i8 {
    const EDGES: [i8; 8] = [-128, -127, -6, -5, -4, 0, 1, 127];
    match random.below(2) {
        0 => random.pick(&EDGES),
        _ => random.byte() as i8,
    }
}

/// A size from -128 to 117.
fn size(random: &mut Random) -> i8 {
    const EDGES: [i8; 12] = [-128, -127, -12, -11, -10, -9, -6, -2, 0, 7, 116, 117];
    match random.below(3) {
        0 => random.pick(&EDGES),
        _ => (random.below(246) as i32 - 128) as i8,
    }
}

/// The bits of an allowed opacity.
fn opacity(random: &mut Random) -> u32 {
    let bits = match random.below(6) {
        0 => 0,
        1 => random.pick(&[LEAST_OPACITY, FULL_OPACITY]),
        2 => near_power_of_two(random),
        3 => (random.between(1, 1_000) as f32 / 1_000.0).to_bits(),
        4 => (random.between(1, 4_096) as f32 / 4_096.0).to_bits(),
        _ => LEAST_OPACITY + random.below((FULL_OPACITY - LEAST_OPACITY) as usize + 1) as u32,
    };
    match bits {
        0 => 0,
        bits => bits.clamp(LEAST_OPACITY, FULL_OPACITY),
    }
}

/// A power of two or a float next to one: there the gaps to both sides differ.
fn near_power_of_two(random: &mut Random) -> u32 {
    let power = LEAST_OPACITY + ((random.below(11) as u32) << 23);
    power - 2 + random.below(5) as u32
}
