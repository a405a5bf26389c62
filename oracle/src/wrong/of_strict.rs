//! Subjects that are wrong about strict HTML and nothing else, or that take one mode for the other.

use super::{replaced, Row};
use crate::answers::{answer, page_outcome, rendered, Operation, Outcome, Request};
use crate::body::{self, Piece};
use crate::check::{check, strict_check, Refusal};
use crate::field::{self, Field};
use crate::tags::*;

#[rustfmt::skip] // one row, one line
pub const ROWS: [Row; 14] = [
    ("14 comes before 7", Operation::CheckStrict, 30, nul_before_utf8),
    ("14 comes when the walk is over", Operation::CheckStrict, 30, nul_behind_walk),
    ("14 is placed at the NUL", Operation::CheckStrict, 30, nul_misplaced),
    ("14 is placed at the text around a 17", Operation::CheckStrict, 30, at_text_around),
    ("a NUL in a name is refused by 14", Operation::CheckStrict, 30, nul_in_name),
    ("a NUL in a 7 is let through", Operation::CheckStrict, 30, nul_in_7),
    ("the strict check is the loose one", Operation::CheckStrict, 30, |request| as_if(Operation::Check, request)),
    ("the loose check is the strict one", Operation::Check, 30, |request| as_if(Operation::CheckStrict, request)),
    ("a CR is written as &#10;", Operation::BodyStrict, 30, other_reference),
    ("a CR before a newline is not escaped", Operation::BodyStrict, 30, before_newline),
    ("a CR in a name is escaped", Operation::BodyStrict, 30, in_name),
    ("a CR in a 7 is not escaped", Operation::BodyStrict, 30, only_in_17s),
    ("the strict document is the loose one", Operation::DocumentStrict, 30, |request| as_if(Operation::Document, request)),
    ("the loose body is the strict one", Operation::Body, 30, |request| as_if(Operation::BodyStrict, request)),
];

/// For `masks`: right but for the letter a in texts, or for a file without CRs.
#[rustfmt::skip] // one row, one line
pub const OF_MASKS: [Row; 3] = [
    ("a CR is not escaped where there is an a", Operation::BodyStrict, 40, loose_by_letter),
    ("14 comes where there is an a", Operation::CheckStrict, 40, nul_by_letter),
    ("a strict document has another frame", Operation::DocumentStrict, 40, other_frame),
];

/// The answer of another operation in the place of this one.
fn as_if(operation: Operation, request: &Request) -> Outcome {
    answer(&Request {
        operation,
        ..request.clone()
    })
}

fn refused(request: &Request, refusal: Refusal) -> Outcome {
    Outcome {
        answer: refusal.into(),
        ..answer(request)
    }
}

/// The place of the first field with one of the tags that has a NUL.
fn nul_in(file: &[u8], tags: &[u8]) -> Option<usize> {
    let fields = field::parse(file);
    let mut places = field::places(&fields).into_iter();
    let found = places.find(|(_, _, field)| match field {
        Field::Leaf(tag, value) => tags.contains(tag) && value.contains(&0),
        _ => false,
    });
    found.map(|(place, ..)| place)
}

fn nul_before_utf8(request: &Request) -> Outcome {
    let nul = nul_in(&request.file, &[TEXT_BYTES, IF_BLOCK_LAYOUT]);
    match (strict_check(&request.file), nul) {
        (Err(Refusal { number: 7, place }), Some(nul)) if nul == place => {
            refused(request, Refusal { number: 14, place })
        }
        _ => answer(request),
    }
}

fn nul_behind_walk(request: &Request) -> Outcome {
    match check(&request.file) {
        Err(refusal) => refused(request, refusal),
        Ok(()) => answer(request),
    }
}

/// The refusal by 14 at another place, if it is refused by 14.
fn placed(request: &Request, otherwise: fn(&[u8], usize) -> usize) -> Outcome {
    match strict_check(&request.file) {
        Err(Refusal { number: 14, place }) => {
            let place = otherwise(&request.file, place);
            refused(request, Refusal { number: 14, place })
        }
        _ => answer(request),
    }
}

fn nul_misplaced(request: &Request) -> Outcome {
    placed(request, |file, place| {
        let value = &file[place + HEADER..];
        let nul = value.iter().position(|byte| *byte == 0);
        place + HEADER + nul.unwrap_or(0)
    })
}

/// Of an unstyled text, whose field begins just before its 17.
fn at_text_around(request: &Request) -> Outcome {
    placed(request, |file, place| match file[place] {
        TEXT_BYTES => place.saturating_sub(HEADER),
        _ => place,
    })
}

fn nul_in_name(request: &Request) -> Outcome {
    match (
        strict_check(&request.file),
        nul_in(&request.file, &[DEFINITION, USE]),
    ) {
        (Ok(()), Some(place)) => refused(request, Refusal { number: 14, place }),
        _ => answer(request),
    }
}

fn nul_in_7(request: &Request) -> Outcome {
    let by = |field: &Field| match field {
        Field::Leaf(IF_BLOCK_LAYOUT, value) => {
            Some(field::leaf(IF_BLOCK_LAYOUT, vec![b'a'; value.len()]))
        }
        _ => None,
    };
    let other = field::encode(&replaced(&field::parse(&request.file), by));
    match check(&request.file) {
        Ok(()) => answer(&Request {
            file: other,
            ..request.clone()
        }),
        Err(_) => answer(request),
    }
}

/// The page with what stands between its tags, and the tags, written otherwise.
fn page_but(
    request: &Request,
    between: fn(&[u8]) -> Vec<u8>,
    tag: fn(&[u8]) -> Vec<u8>,
) -> Outcome {
    let page = rendered(request.operation, &request.file).map(|page| {
        let pieces = body::pieces(&page).into_iter();
        let written = pieces.flat_map(|piece| match piece {
            Piece::Tag(bytes) => tag(bytes),
            Piece::Between(bytes) => between(bytes),
        });
        written.collect()
    });
    page_outcome(&page, request.room)
}

/// Bytes that are UTF-8, with one text in the place of another.
fn with(bytes: &[u8], from: &str, to: &str) -> Vec<u8> {
    let text = std::str::from_utf8(bytes).expect("an HTML body is UTF-8");
    text.replace(from, to).into_bytes()
}

fn other_reference(request: &Request) -> Outcome {
    page_but(request, |text| with(text, "&#13;", "&#10;"), <[u8]>::to_vec)
}

fn before_newline(request: &Request) -> Outcome {
    page_but(
        request,
        |text| with(text, "&#13;\n", "\r\n"),
        <[u8]>::to_vec,
    )
}

fn in_name(request: &Request) -> Outcome {
    page_but(request, <[u8]>::to_vec, |tag| with(tag, "\r", "&#13;"))
}

/// A CR of a 7 is told by the place that it has in the page of the file whose 7s have none.
fn only_in_17s(request: &Request) -> Outcome {
    let by = |field: &Field| match field {
        Field::Leaf(IF_BLOCK_LAYOUT, value) => {
            let value = String::from_utf8_lossy(value).replace('\r', "\u{7f}");
            Some(field::leaf(IF_BLOCK_LAYOUT, value))
        }
        _ => None,
    };
    let has_mark = request.file.contains(&0x7f);
    if has_mark || strict_check(&request.file).is_err() {
        return answer(request);
    }
    let other = field::encode(&replaced(&field::parse(&request.file), by));
    let page = rendered(request.operation, &other).map(|page| with(&page, "\u{7f}", "\r"));
    page_outcome(&page, request.room)
}

fn has_a(request: &Request, operation: Operation) -> bool {
    request.operation == operation && request.file.contains(&b'a')
}

fn loose_by_letter(request: &Request) -> Outcome {
    match has_a(request, Operation::BodyStrict) {
        true => as_if(Operation::Body, request),
        false => answer(request),
    }
}

fn nul_by_letter(request: &Request) -> Outcome {
    let (number, place) = (14, 0);
    match has_a(request, Operation::CheckStrict) {
        true => refused(request, Refusal { number, place }),
        false => answer(request),
    }
}

fn other_frame(request: &Request) -> Outcome {
    match request.operation {
        Operation::DocumentStrict => {
            page_but(request, <[u8]>::to_vec, |tag| with(tag, "<html", "<HTML"))
        }
        _ => answer(request),
    }
}
