//! Subjects whose words are not the same at every width, or whose plain pages are too long.

use super::{replaced, Row};
use crate::answers::{answer, page_outcome, rendered, Answer, Operation, Outcome, Request};
use crate::check::check;
use crate::field::{self, Field};
use crate::tags::*;

#[rustfmt::skip] // one row, one line
pub const ROWS: [Row; 5] = [
    ("a layout at an odd width blots a text out", Operation::Layout, 7, text_blotted),
    ("a text of one byte is lost where a block is broken", Operation::Plain, 20, text_lost),
    ("a space break is shown as a letter", Operation::Plain, 3, break_shown),
    ("styles are not pushed where a block is broken", Operation::Body, 30, styles_lost),
    ("an indent is four times as wide", Operation::Plain, 500, indent_widened),
];

/// The first text becomes spaces.
fn text_blotted(request: &Request) -> Outcome {
    let mut said = answer(request);
    let wrong = request.operation == Operation::Layout && request.width % 2 == 1;
    if let (Answer::Accepted(_), true) = (said.answer, wrong) {
        let fields = field::parse(&request.file);
        let mut places = field::places(&fields).into_iter();
        let text = places.find_map(|(place, _, field)| match field {
            Field::Leaf(TEXT_BYTES, value) => Some((place + HEADER, value.len())),
            _ => None,
        });
        let (start, length) = text.unwrap_or_default();
        said.lent[start..start + length].fill(b' ');
    }
    said
}

/// Shows other fields than those of the file, if it is this page that is asked for. A file that is refused, or would grow
/// too long, is answered right: what then differed would be another fault.
pub fn shows(request: &Request, page: Operation, by: fn(&Field) -> Option<Field>) -> Outcome {
    let shown = field::encode(&replaced(&field::parse(&request.file), by));
    let other = check(&request.file).is_ok() && shown.len() <= LONGEST_FILE;
    if request.operation != page || !other {
        return answer(request);
    }
    page_outcome(&rendered(page, &shown), request.room)
}

fn has_broken_block(file: &[u8]) -> bool {
    let fields = field::parse(file);
    let places = field::places(&fields);
    let broken = |field: &Field| matches!(field, Field::Inner(INDENTED_BLOCK, _));
    places.iter().any(|(_, _, field)| broken(field))
}

fn text_lost(request: &Request) -> Outcome {
    if !has_broken_block(&request.file) {
        return answer(request);
    }
    shows(request, Operation::Plain, |field| match field {
        Field::Leaf(TEXT_BYTES, value) if value.len() == 1 => Some(field::leaf(TEXT_BYTES, [])),
        _ => None,
    })
}

fn break_shown(request: &Request) -> Outcome {
    shows(request, Operation::Plain, |field| match field {
        Field::Leaf(BREAKING_ONLY_SPACE, _) => Some(field::text(b"s")),
        _ => None,
    })
}

fn styles_lost(request: &Request) -> Outcome {
    if !has_broken_block(&request.file) {
        return answer(request);
    }
    shows(request, Operation::Body, |field| match field {
        Field::Inner(TEXT, inside) => Some(Field::Inner(TEXT, vec![inside.last()?.clone()])),
        _ => None,
    })
}

/// The spaces in front of each line three times more.
fn indent_widened(request: &Request) -> Outcome {
    if request.operation != Operation::Plain {
        return answer(request);
    }
    let widened = |line: &[u8]| {
        let spaces = line.iter().take_while(|byte| **byte == b' ').count();
        [line[..spaces].repeat(3), line.to_vec()].concat()
    };
    let page = rendered(Operation::Plain, &request.file).map(|page| {
        let lines: Vec<Vec<u8>> = page.split(|byte| *byte == b'\n').map(widened).collect();
        lines.join(&b'\n')
    });
    page_outcome(&page, request.room)
}
