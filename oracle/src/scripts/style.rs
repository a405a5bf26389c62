//! Styles as the C function takes them, beside the fields of a 16.

use crate::field::{leaf, Field};
use crate::scribe::{Record, UNSTYLED};
use crate::tags::*;

/// Where the flag of each style field stands in a record, and how long the value behind it is.
const PARTS: [(u8, usize, usize); 8] = [
    (COLOUR, 1, 3),
    (OPACITY, 5, 4),
    (THICKNESS, 10, 1),
    (SIZE, 12, 1),
    (SUBSCRIPT, 14, 0),
    (SUPERSCRIPT, 15, 0),
    (DIM, 16, 0),
    (UNDERLINE, 17, 0),
];

/// The fields of the 16 that a record asks for; none if it asks for no 16.
pub fn fields(record: &Record) -> Option<Vec<Field>> {
    let there = PARTS.iter().filter(|(_, flag, _)| record[*flag] != 0);
    let fields = there.map(|(tag, flag, length)| leaf(*tag, &record[flag + 1..][..*length]));
    (record[0] != 0).then(|| fields.collect())
}

/// The record that asks for the fields of a 16, all of their fixed lengths.
pub fn record(fields: &[Field]) -> Record {
    let mut record = UNSTYLED;
    record[0] = 1;
    for field in fields {
        let Field::Leaf(tag, value) = field else {
            continue;
        };
        let part = PARTS.iter().find(|(of, ..)| of == tag);
        let (_, flag, length) = part.expect("a style field has one of eight tags");
        record[*flag] = 1;
        record[flag + 1..][..*length].copy_from_slice(value);
    }
    record
}
