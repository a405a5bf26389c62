//! Subjects that are wrong about underlines and nothing else.

use super::of_words::shows;
use super::{laid_out_as, replaced, Row};
use crate::answers::{answer, page_outcome, rendered, Answer, Operation, Outcome, Request};
use crate::body::{self, Piece};
use crate::check::check;
use crate::field::{self, Field};
use crate::original::{is_39, ITEM};
use crate::tags::*;

#[rustfmt::skip] // one row, one line
pub const ROWS: [Row; 9] = [
    ("a 38 behind a 39 is accepted", Operation::Check, 20, dim_behind),
    ("a 39 with a value is accepted", Operation::Check, 20, with_value),
    ("a tag 40 is accepted in a style", Operation::Check, 20, next_tag),
    ("an underlined text is wider", Operation::Layout, 40, text_widened),
    ("a style that is underlined and nothing else is none", Operation::Plain, 30, alone_is_none),
    ("an underline comes before vertical-align", Operation::Body, 20, before_alignment),
    ("an underline comes behind the class", Operation::Body, 20, behind_class),
    ("an underlined span is another tag", Operation::Body, 20, another_tag),
    ("a run of an anchor is not underlined", Operation::Body, 30, runs_forgotten),
];

/// Checks other fields than those of the file, and accepts it where they are accepted.
fn accepts(request: &Request, by: fn(&Field) -> Option<Field>) -> Outcome {
    let mut said = answer(request);
    let mended = field::encode(&replaced(&field::parse(&request.file), by));
    if check(&mended).is_ok() {
        said.answer = Answer::Accepted(0);
    }
    said
}

fn dim_behind(request: &Request) -> Outcome {
    accepts(request, |field| match field {
        Field::Inner(STYLES, inside) => match &inside[..] {
            [before @ .., underline @ Field::Leaf(UNDERLINE, _), dim @ Field::Leaf(DIM, _)] => {
                let rising = [before, &[dim.clone(), underline.clone()]];
                Some(Field::Inner(STYLES, rising.concat()))
            }
            _ => None,
        },
        _ => None,
    })
}

fn with_value(request: &Request) -> Outcome {
    accepts(request, |field| {
        is_39(field).then(|| field::leaf(UNDERLINE, []))
    })
}

fn next_tag(request: &Request) -> Outcome {
    const NEXT: u8 = UNDERLINE + 1;
    accepts(request, |field| match field {
        Field::Inner(STYLES, inside) => match &inside[..] {
            [before @ .., Field::Leaf(NEXT, _)] => Some(Field::Inner(STYLES, before.to_vec())),
            _ => None,
        },
        _ => None,
    })
}

/// The style and the bytes of an underlined text.
fn underlined(text: &Field) -> Option<(&[Field], &[u8])> {
    match text {
        Field::Inner(TEXT, parts) => match &parts[..] {
            [Field::Inner(STYLES, style), Field::Leaf(TEXT_BYTES, bytes)] => {
                let found = style.iter().any(is_39);
                found.then_some((style, bytes))
            }
            _ => None,
        },
        _ => None,
    }
}

fn text_widened(request: &Request) -> Outcome {
    laid_out_as(request, |field| {
        let (style, bytes) = underlined(field)?;
        Some(field::styled(style.to_vec(), [b"w", bytes].concat()))
    })
}

fn alone_is_none(request: &Request) -> Outcome {
    shows(request, Operation::Plain, |field| {
        match underlined(field)? {
            ([_], bytes) => Some(field::text(bytes)),
            _ => None,
        }
    })
}

fn runs_forgotten(request: &Request) -> Outcome {
    shows(request, Operation::Body, |field| match field {
        Field::Inner(ANCHOR, _) => Some(without_39s(field)),
        _ => None,
    })
}

fn without_39s(field: &Field) -> Field {
    match field {
        Field::Inner(tag, inside) => {
            let inside = inside.iter().filter(|field| !is_39(field));
            Field::Inner(*tag, inside.map(without_39s).collect())
        }
        other => other.clone(),
    }
}

/// The body with each tag made otherwise; the tags before it are given too.
fn body_but(request: &Request, tag: fn(&[u8], &[&[u8]]) -> Vec<u8>) -> Outcome {
    let page = rendered(Operation::Body, &request.file).map(|page| {
        let (mut out, mut before) = (Vec::new(), Vec::new());
        for piece in body::pieces(&page) {
            match piece {
                Piece::Tag(found) => {
                    out.extend(tag(found, &before));
                    before.push(found);
                }
                Piece::Between(text) => out.extend(text),
            }
        }
        out
    });
    page_outcome(&page, request.room)
}

fn is_underlined(tag: &[u8]) -> bool {
    body::opens_style(tag) && tag.windows(ITEM.len()).any(|part| part == ITEM)
}

/// A style tag with another text in place of one that it has.
fn edited(tag: &[u8], from: &str, to: &str) -> Vec<u8> {
    match is_underlined(tag) {
        true => String::from_utf8_lossy(tag).replacen(from, to, 1).into(),
        false => tag.to_vec(),
    }
}

fn before_alignment(request: &Request) -> Outcome {
    body_but(request, |tag, _| {
        let right = "vertical-align:middle;text-decoration:underline;";
        let wrong = "text-decoration:underline;vertical-align:middle;";
        edited(tag, right, wrong)
    })
}

fn behind_class(request: &Request) -> Outcome {
    body_but(request, |tag, _| {
        let right = " style=\"text-decoration:underline;\" class=\"unchanged\"";
        let wrong = " class=\"unchanged\" style=\"text-decoration:underline;\"";
        edited(tag, right, wrong)
    })
}

/// The closing tag of a style follows its opening one.
fn another_tag(request: &Request) -> Outcome {
    body_but(request, |tag, before| match (tag, before.last()) {
        (b"</span>", Some(open)) if is_underlined(open) => b"</u>".to_vec(),
        _ => edited(tag, "<span", "<u"),
    })
}
