//! Request E3, from its words: the mask of a file, and the texts of a pair, by the judge's own check and its tree of fields.

use crate::answers::{self, page_outcome, Answer, Outcome};
use crate::check::{check, Refusal};
use crate::field::{self, Field};
use crate::masker::Question;
use crate::tags::*;

/// What is right for a question.
pub fn answer(question: Question) -> Outcome {
    match question {
        Question::Mask { file, room } => page_outcome(&mask(file), room),
        Question::Strict(asked) => answers::answer(&asked.to_request()),
        Question::Pair {
            original,
            second,
            place,
        } => answer_at(&texts(original, second), place),
    }
}

/// The mask of a file, or why there is none.
pub fn mask(file: &[u8]) -> Result<Vec<u8>, Refusal> {
    check(file)?;
    Ok(field::encode(&masked(&field::parse(file))))
}

/// Every byte of every 17 and 7 but newline becomes `x`.
pub fn masked(fields: &[Field]) -> Vec<Field> {
    let mask = |byte: &u8| if *byte == b'\n' { b'\n' } else { b'x' };
    let field = |field: &Field| match field {
        Field::Leaf(tag @ (TEXT_BYTES | IF_BLOCK_LAYOUT), value) => {
            Field::Leaf(*tag, value.iter().map(mask).collect())
        }
        Field::Inner(tag, inside) => Field::Inner(*tag, masked(inside)),
        other => other.clone(),
    };
    fields.iter().map(field).collect()
}

/// The texts of a pair: the place of each one's field, and its length.
pub type Texts = Vec<(usize, usize)>;

/// The texts of a file and its mask, or why they are no pair.
pub fn texts(original: &[u8], second: &[u8]) -> Result<Texts, Refusal> {
    let right = mask(original)?;
    check(second)?;
    match first_difference(&right, second) {
        Some(place) => Err(Refusal { number: 12, place }),
        None => Ok(texts_of(&field::parse(original))),
    }
}

pub fn texts_of(fields: &[Field]) -> Texts {
    let text = |(place, _, field): (usize, usize, &Field)| match field {
        Field::Leaf(TEXT_BYTES | IF_BLOCK_LAYOUT, value) => Some((place, value.len())),
        _ => None,
    };
    let fields = field::places(fields).into_iter();
    fields.filter_map(text).collect()
}

/// The first byte that differs, or the shorter length where all before it agree.
fn first_difference(right: &[u8], second: &[u8]) -> Option<usize> {
    let mut bytes = right.iter().zip(second);
    let byte = bytes.position(|(right, second)| right != second);
    let shorter = right.len().min(second.len());
    byte.or_else(|| (right.len() != second.len()).then_some(shorter))
}

/// What is right for a place.
pub fn answer_at(texts: &Result<Texts, Refusal>, place: u32) -> Outcome {
    let place = place as usize;
    let answer = match texts {
        Err(refusal) => (*refusal).into(),
        Ok(texts) => match texts.iter().find(|(begins, _)| *begins == place) {
            Some((_, length)) => Answer::Accepted(*length),
            None => Answer::Refused { number: 13, place },
        },
    };
    let lent = Vec::new();
    Outcome { answer, lent }
}
