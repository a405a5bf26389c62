//! What has to hold of strict mode: it is told by other ways than those of the judge.

use super::{ensure, page, pages_refused, replaced, without_tags, Held};
use crate::answers::Operation;
use crate::body::{self, Piece};
use crate::check::{check, strict_check, Refusal};
use crate::field::{self, Field};
use crate::strict::REFERENCE;
use crate::tags::*;

/// By the fields in file order, not by the walk.
pub fn first_nul(file: &[u8], _: u16) -> Held {
    let fields = field::parse(file);
    let mut places = field::places(&fields).into_iter();
    let nul = places.find_map(|(place, _, field)| has_nul(field).then_some(place));
    let right = match nul {
        Some(place) => Err(Refusal { number: 14, place }),
        None => Ok(()),
    };
    let said = strict_check(file);
    ensure(said == right, || format!("{said:?} in place of {right:?}"))
}

fn has_nul(field: &Field) -> bool {
    match field {
        Field::Leaf(TEXT_BYTES | IF_BLOCK_LAYOUT, value) => value.contains(&0),
        _ => false,
    }
}

/// By reading the page: a CR that is in no tag is one of a text, since the frame has none.
pub fn written_out(file: &[u8], _: u16) -> Held {
    if strict_check(file).is_err() {
        return Ok(());
    }
    let loose = [Operation::Body, Operation::Document];
    for (loose, strict) in loose.into_iter().zip(Operation::STRICT_PAGES) {
        let written = written(&page(loose, file)?);
        ensure(page(strict, file)? == written, || {
            format!("{strict:?} differs")
        })?;
        let most = strict.most_bytes(file.len());
        ensure(written.len() <= most, || {
            format!("{strict:?} has {} bytes", written.len())
        })?;
    }
    Ok(())
}

fn written(page: &[u8]) -> Vec<u8> {
    let pieces = body::pieces(page).into_iter();
    let piece = |piece| match piece {
        Piece::Tag(tag) => tag.to_vec(),
        Piece::Between(text) => replaced(text, b"\r", REFERENCE),
    };
    pieces.flat_map(piece).collect()
}

pub fn body_is_plain(file: &[u8], _: u16) -> Held {
    if strict_check(file).is_err() {
        return Ok(());
    }
    let (plain, body) = (
        page(Operation::Plain, file)?,
        page(Operation::BodyStrict, file)?,
    );
    ensure(without_tags(&body) == plain, || "another text".into())
}

/// Without the NULs of its texts any file gets the check's answer in strict mode, and strict pages are refused as the strict check refuses.
pub fn by_nuls_alone(file: &[u8], _: u16) -> Held {
    let mut clear = file.to_vec();
    for (place, _, field) in field::places(&field::parse(file)) {
        if let Field::Leaf(TEXT_BYTES | IF_BLOCK_LAYOUT, value) = field {
            let text = clear[place + HEADER..][..value.len()].iter_mut();
            text.filter(|byte| **byte == 0)
                .for_each(|byte| *byte = b'a');
        }
    }
    let (strict, right) = (strict_check(&clear), check(file));
    ensure(strict == right, || {
        format!("{strict:?} in place of {right:?}")
    })?;
    match strict_check(file) {
        Err(refusal) => pages_refused(file, refusal, &Operation::STRICT_PAGES),
        Ok(()) => Ok(()),
    }
}
