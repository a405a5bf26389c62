//! Request E6: strict HTML, from the original's own pages. The original knows no strict mode; it is asked for the page of the file, and for that
//! of the file with another byte for each CR in a text. Where the two pages differ, there stands a CR of a text.

use crate::field::{self, Field};
use crate::original;
use crate::tags::*;

const CR: u8 = b'\r';

/// What a CR of a text is written as.
pub const REFERENCE: &[u8] = b"&#13;";

/// What stands for a CR in the second file: any byte that the original copies from a text to a page will do, whatever else has it.
const STAND_IN: u8 = b'r';

/// The strict HTML body of a strictly accepted file.
pub fn body(file: &[u8]) -> Vec<u8> {
    page(file, original::body)
}

/// Its strict HTML document.
pub fn document(file: &[u8]) -> Vec<u8> {
    page(file, original::document)
}

/// Both, from the pages of the file that [`original::pages`] has.
pub fn pages(file: &[u8], pages: &[Vec<u8>; 3]) -> [Vec<u8>; 2] {
    let [_, body, document] = pages;
    match stood_in(file) {
        None => [body.clone(), document.clone()],
        Some(other) => {
            let [_, other_body, other_document] = original::pages(&other);
            [
                with_references(body, &other_body),
                with_references(document, &other_document),
            ]
        }
    }
}

fn page(file: &[u8], page: fn(&[u8]) -> Vec<u8>) -> Vec<u8> {
    match stood_in(file) {
        None => page(file),
        Some(other) => with_references(&page(file), &page(&other)),
    }
}

/// The file with a stand-in for each CR in a text; none if no text has one.
fn stood_in(file: &[u8]) -> Option<Vec<u8>> {
    let mut other = file.to_vec();
    for (place, _, field) in field::places(&field::parse(file)) {
        if let Field::Leaf(TEXT_BYTES | IF_BLOCK_LAYOUT, value) = field {
            let text = other[place + HEADER..][..value.len()].iter_mut();
            text.filter(|byte| **byte == CR)
                .for_each(|byte| *byte = STAND_IN);
        }
    }
    (other != file).then_some(other)
}

/// A page with a reference where the page with stand-ins has another byte.
fn with_references(page: &[u8], other: &[u8]) -> Vec<u8> {
    assert_eq!(page.len(), other.len(), "a CR is shown as one byte");
    let mut out = Vec::with_capacity(page.len() + 64);
    for (byte, other) in page.iter().zip(other) {
        match (*byte, *other) {
            (CR, STAND_IN) => out.extend(REFERENCE),
            (byte, other) => {
                assert_eq!(byte, other, "nothing but CRs stood for");
                out.push(byte);
            }
        }
    }
    out
}
