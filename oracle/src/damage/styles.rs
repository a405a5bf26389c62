//! Bad styles: order, repeats, lengths, ranges, opacity without colour, both scripts.

use super::edit_tagged;
use crate::field::{leaf, styled, Field};
use crate::generate;
use crate::original::is_39;
use crate::random::Random;
use crate::tags::*;

/// Opacities out of range: -0, subnormal, just outside, larger, infinite, negative, NaN.
pub const BAD_OPACITIES: [u32; 14] = [
    0x8000_0000,
    0x0000_0001,
    0x007f_ffff,
    0x0080_0000,
    0x3a7f_ffff,
    0x3f80_0001,
    0x4000_0000,
    0x7f7f_ffff,
    0x7f80_0000,
    0xff80_0000,
    0xbf00_0000,
    0x7fc0_0000,
    0x7f80_0001,
    0xffff_ffff,
];

/// Fields behind the others of a 16 without a 39 that are refused, and how.
#[derive(Clone, Copy)]
pub struct BadEnd {
    /// Their tags, each with the length of its value.
    ends: &'static [(u8, usize)],
    /// The number, at which of them.
    pub number: u8,
    pub at: usize,
}

/// A 39 that has a value, comes twice or before a 38, and a tag behind the last.
#[rustfmt::skip] // one row, one line
pub const BAD_ENDS: [BadEnd; 7] = [
    BadEnd { ends: &[(UNDERLINE, 1)], number: 5, at: 0 },
    BadEnd { ends: &[(UNDERLINE, 3)], number: 5, at: 0 },
    BadEnd { ends: &[(UNDERLINE, 0), (UNDERLINE, 0)], number: 4, at: 1 },
    BadEnd { ends: &[(UNDERLINE, 0), (DIM, 0)], number: 4, at: 1 },
    BadEnd { ends: &[(UNDERLINE, 0), (SUBSCRIPT, 0)], number: 4, at: 1 },
    BadEnd { ends: &[(UNDERLINE + 1, 0)], number: 4, at: 0 },
    BadEnd { ends: &[(UNDERLINE, 0), (UNDERLINE + 1, 0)], number: 4, at: 1 },
];

impl BadEnd {
    pub fn fields(self) -> impl Iterator<Item = Field> {
        let field = |(tag, length): &(u8, usize)| leaf(*tag, vec![0; *length]);
        self.ends.iter().map(field)
    }
}

/// Spoils a style of the tree, or puts a text with a bad one at its end.
pub fn damage(random: &mut Random, fields: &mut Vec<Field>) {
    if random.one_in(3) {
        let mut inside = generate::styles::any(random);
        spoil(random, &mut inside);
        fields.push(styled(inside, b"s"));
        return;
    }
    edit_tagged(random, fields, &[STYLES], |random, list, index| {
        if let Field::Inner(_, inside) = &mut list[index] {
            spoil(random, inside);
        }
    });
}

fn spoil(random: &mut Random, inside: &mut Vec<Field>) {
    match random.below(10) {
        0 => replace(inside, SIZE, &[random.between(118, 127) as u8]),
        1 | 2 => {
            let bits = random.pick(&BAD_OPACITIES);
            replace(inside, OPACITY, &bits.to_be_bytes());
        }
        3 => inside.retain(|field| !matches!(field, Field::Leaf(COLOUR, _))),
        4 => {
            replace(inside, SUBSCRIPT, &[]);
            replace(inside, SUPERSCRIPT, &[]);
        }
        5 => inside.reverse(),
        6 if !inside.is_empty() => {
            let again = inside[random.below(inside.len())].clone();
            inside.push(again);
        }
        7 | 8 => {
            inside.retain(|field| !is_39(field));
            inside.extend(random.pick(&BAD_ENDS).fields());
        }
        _ => {
            let tag = random.pick(&[0, 1, 17, 31, 32, 33, 34, 35, 36, 37, 38, 39, 40, 255]);
            let length = random.between(0, 5);
            inside.push(leaf(tag, vec![0; length]));
        }
    }
}

/// Puts a field in the place that its tag has in the rising order.
fn replace(inside: &mut Vec<Field>, tag: u8, value: &[u8]) {
    let before = |field: &Field| matches!(field, Field::Leaf(other, _) if *other < tag);
    inside.retain(|field| !matches!(field, Field::Leaf(other, _) if *other == tag));
    let at = inside.iter().take_while(|field| before(field)).count();
    inside.insert(at, leaf(tag, value));
}
