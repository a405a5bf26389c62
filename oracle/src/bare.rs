//! What no width may change: the words of texts, pages and bodies, which are their bytes but spaces and newlines.

use crate::body::{self, Piece};
use crate::field::{self, Field};
use crate::tags::{IF_BLOCK_LAYOUT, TEXT_BYTES};

fn is_of_word(byte: u8) -> bool {
    !matches!(byte, b' ' | b'\n')
}

/// The words of a plain page.
pub fn page(page: &[u8]) -> Vec<u8> {
    let bytes = page.iter().copied();
    bytes.filter(|byte| is_of_word(*byte)).collect()
}

/// The tags of an HTML body, each whole, and the words between them.
pub fn body(body: &[u8]) -> Vec<u8> {
    let kept = |piece| match piece {
        Piece::Tag(tag) => tag.to_vec(),
        Piece::Between(text) => page(text),
    };
    body::pieces(body).into_iter().flat_map(kept).collect()
}

/// The words of all texts in file order: of the values of 17.
pub fn texts(fields: &[Field]) -> Vec<u8> {
    let text = |(_, _, field): (usize, usize, &Field)| match field {
        Field::Leaf(TEXT_BYTES, value) => page(value),
        _ => Vec::new(),
    };
    field::places(fields).into_iter().flat_map(text).collect()
}

fn is_7(field: &Field) -> bool {
    matches!(field, Field::Leaf(IF_BLOCK_LAYOUT, _))
}

/// Whether there is a 7 at any depth.
pub fn has_7(fields: &[Field]) -> bool {
    field::places(fields)
        .iter()
        .any(|(_, _, field)| is_7(field))
}

/// Drops every 7; an accepted file stays one.
pub fn drop_7s(fields: &mut Vec<Field>) {
    fields.retain(|field| !is_7(field));
    for field in fields {
        if let Field::Inner(_, inside) = field {
            drop_7s(inside);
        }
    }
}
