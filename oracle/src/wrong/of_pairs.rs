//! Maskers and readers of pairs that are wrong on purpose: `pairs` has to find each fault, in small files.

use crate::answers::{answer, page_outcome, Answer, Asked, Outcome, LENT};
use crate::check::{check, Refusal};
use crate::field::{self, Field};
use crate::masker::{Masker, Question};
use crate::pair;
use crate::subject::Said;
use crate::tags::*;
use std::slice;

/// A wrong subject, and the most bytes that the files may have in which its fault is told.
pub struct WrongMasker {
    pub name: &'static str,
    pub longest: usize,
    says: Says,
}

enum Says {
    /// Of the file's bytes and the room.
    Mask(fn(&[u8], usize) -> Outcome),
    /// Of the two files and the place.
    Pair(fn(&[u8], &[u8], u32) -> Answer),
    /// Of what strict mode is asked.
    Strict(fn(Asked) -> Outcome),
}

type Row = (&'static str, usize, Says);

#[rustfmt::skip] // one row, one line
const ALL: [Row; 20] = [
    ("a newline is masked", 12, Says::Mask(newline_masked)),
    ("a 7 is not masked", 12, Says::Mask(conditional_kept)),
    ("an anchor's name is masked", 12, Says::Mask(name_masked)),
    ("a mask is written as far as it fits", 12, Says::Mask(written_in_part)),
    ("later bytes of the mask's page are cleared", 0, Says::Mask(tail_cleared)),
    ("10 comes before the walk", 4, Says::Mask(room_before_walk)),
    ("only lengths and tags are compared", 40, Says::Pair(texts_not_compared)),
    ("only the texts are compared", 100, Says::Pair(only_texts_compared)),
    ("a newline of the original may be masked", 40, Says::Pair(newline_passes)),
    ("a longer mask is let through", 20, Says::Pair(longer_passes)),
    ("12 is placed a byte too far", 20, Says::Pair(difference_misplaced)),
    ("12 is placed at the last difference", 100, Says::Pair(last_difference)),
    ("13 comes before 12", 20, Says::Pair(place_before_mask)),
    ("12 comes before the second file's refusal", 4, Says::Pair(mask_before_walk)),
    ("a place inside a text is taken for its field", 40, Says::Pair(inside_accepted)),
    ("a byte 7 or 17 inside a value is taken for a text", 200, Says::Pair(byte_as_tag)),
    ("of a place only the low bytes count", 40, Says::Pair(place_wrapped)),
    ("the header is counted with the text", 40, Says::Pair(header_counted)),
    ("the second file's refusal comes before the first's", 20, Says::Pair(second_first)),
    ("strict mode refuses an x in a 7", 12, Says::Strict(mask_refused)),
];

pub fn all() -> Vec<WrongMasker> {
    let new = |(name, longest, says)| WrongMasker {
        name,
        longest,
        says,
    };
    ALL.into_iter().map(new).collect()
}

impl Masker for WrongMasker {
    fn say(&mut self, question: Question) -> Said {
        Ok(match (&self.says, question) {
            (Says::Mask(says), Question::Mask { file, room }) => says(file, room),
            (Says::Strict(says), Question::Strict(asked)) => says(asked),
            (
                Says::Pair(says),
                Question::Pair {
                    original,
                    second,
                    place,
                },
            ) => Outcome {
                answer: says(original, second, place),
                lent: Vec::new(),
            },
            _ => pair::answer(question),
        })
    }
}

fn right(original: &[u8], second: &[u8], place: u32) -> Answer {
    pair::answer_at(&pair::texts(original, second), place).answer
}

/// The answer to a place where the two files count as a pair.
fn as_pair(original: &[u8], place: u32) -> Answer {
    pair::answer_at(&Ok(pair::texts_of(&field::parse(original))), place).answer
}

fn is_12(answer: Answer) -> bool {
    matches!(answer, Answer::Refused { number: 12, .. })
}

/// The mask with the leaves that are meant made otherwise, from those of the file.
fn mask_but(file: &[u8], room: usize, otherwise: fn(&Field) -> Option<Field>) -> Outcome {
    let page = check(file).map(|()| field::encode(&masked_but(&field::parse(file), otherwise)));
    page_outcome(&page, room)
}

fn masked_but(fields: &[Field], otherwise: fn(&Field) -> Option<Field>) -> Vec<Field> {
    let one = |field: &Field| match field {
        Field::Inner(tag, inside) => Field::Inner(*tag, masked_but(inside, otherwise)),
        leaf => otherwise(leaf).unwrap_or_else(|| pair::masked(slice::from_ref(leaf)).remove(0)),
    };
    fields.iter().map(one).collect()
}

fn newline_masked(file: &[u8], room: usize) -> Outcome {
    mask_but(file, room, |leaf| match leaf {
        Field::Leaf(tag @ (TEXT_BYTES | IF_BLOCK_LAYOUT), value) => {
            Some(field::leaf(*tag, vec![b'x'; value.len()]))
        }
        _ => None,
    })
}

fn conditional_kept(file: &[u8], room: usize) -> Outcome {
    mask_but(file, room, |leaf| {
        matches!(leaf, Field::Leaf(IF_BLOCK_LAYOUT, _)).then(|| leaf.clone())
    })
}

fn name_masked(file: &[u8], room: usize) -> Outcome {
    mask_but(file, room, |leaf| match leaf {
        Field::Leaf(tag @ (DEFINITION | USE), value) => {
            Some(field::leaf(*tag, vec![b'x'; value.len()]))
        }
        _ => None,
    })
}

fn written_in_part(file: &[u8], room: usize) -> Outcome {
    let mut said = page_outcome(&pair::mask(file), room);
    if let (Answer::Refused { number: 10, .. }, Ok(mask)) = (said.answer, pair::mask(file)) {
        said.lent.copy_from_slice(&mask[..room]);
    }
    said
}

fn tail_cleared(file: &[u8], room: usize) -> Outcome {
    let mut said = page_outcome(&pair::mask(file), room);
    if let Answer::Accepted(length) = said.answer {
        said.lent[length..].fill(0);
    }
    said
}

fn room_before_walk(file: &[u8], room: usize) -> Outcome {
    let (number, place) = (10, file.len());
    match place > room && place <= LONGEST_FILE {
        true => Outcome {
            answer: Answer::Refused { number, place },
            lent: vec![LENT; room],
        },
        false => page_outcome(&pair::mask(file), room),
    }
}

/// The fields with every value but fields dulled, so that tags and lengths are left.
fn dulled(fields: &[Field]) -> Vec<Field> {
    let one = |field: &Field| match field {
        Field::Inner(tag, inside) => Field::Inner(*tag, dulled(inside)),
        Field::Leaf(tag, value) => field::leaf(*tag, vec![0; value.len()]),
        loose => loose.clone(),
    };
    fields.iter().map(one).collect()
}

/// The bytes of all texts, masked.
fn words(file: &[u8]) -> Vec<u8> {
    let mask = field::encode(&pair::masked(&field::parse(file)));
    let texts = pair::texts_of(&field::parse(file)).into_iter();
    let text = |(place, length): (usize, usize)| mask[place + HEADER..][..length].to_vec();
    texts.flat_map(text).collect()
}

fn texts_not_compared(original: &[u8], second: &[u8], place: u32) -> Answer {
    let said = right(original, second, place);
    let [one, other] = [original, second].map(|file| dulled(&field::parse(file)));
    match is_12(said) && one == other {
        true => as_pair(original, place),
        false => said,
    }
}

fn only_texts_compared(original: &[u8], second: &[u8], place: u32) -> Answer {
    let said = right(original, second, place);
    let alike = original.len() == second.len() && words(original) == words(second);
    match is_12(said) && alike && is_masked(second) {
        true => as_pair(original, place),
        false => said,
    }
}

fn is_masked(file: &[u8]) -> bool {
    pair::mask(file).is_ok_and(|mask| mask == file)
}

fn newline_passes(original: &[u8], second: &[u8], place: u32) -> Answer {
    let said = right(original, second, place);
    let masked = newline_masked(original, original.len());
    match is_12(said) && masked.lent == second {
        true => as_pair(original, place),
        false => said,
    }
}

fn longer_passes(original: &[u8], second: &[u8], place: u32) -> Answer {
    let front = second.get(..original.len()).unwrap_or(second);
    match is_12(right(original, second, place)) {
        true => right(original, front, place),
        false => right(original, second, place),
    }
}

fn difference_misplaced(original: &[u8], second: &[u8], place: u32) -> Answer {
    match right(original, second, place) {
        Answer::Refused { number: 12, place } => Answer::Refused {
            number: 12,
            place: place + 1,
        },
        other => other,
    }
}

fn last_difference(original: &[u8], second: &[u8], place: u32) -> Answer {
    let said = right(original, second, place);
    let Ok(mask) = pair::mask(original) else {
        return said;
    };
    let last = mask
        .iter()
        .zip(second)
        .rposition(|(right, second)| right != second);
    match last.filter(|_| is_12(said) && mask.len() == second.len()) {
        Some(place) => Answer::Refused { number: 12, place },
        None => said,
    }
}

fn place_before_mask(original: &[u8], second: &[u8], place: u32) -> Answer {
    let said = right(original, second, place);
    match (is_12(said), as_pair(original, place)) {
        (true, no_text @ Answer::Refused { .. }) => no_text,
        _ => said,
    }
}

fn mask_before_walk(original: &[u8], second: &[u8], place: u32) -> Answer {
    let (first, walked) = (pair::mask(original), check(second));
    match (first, walked) {
        (Ok(mask), Err(_)) if mask.len() != second.len() => Answer::Refused {
            number: 12,
            place: mask.len().min(second.len()),
        },
        _ => right(original, second, place),
    }
}

fn inside_accepted(original: &[u8], second: &[u8], place: u32) -> Answer {
    let said = right(original, second, place);
    let texts = pair::texts(original, second).unwrap_or_default();
    let around = |(begins, length): &&(usize, usize)| {
        (*begins..begins + HEADER + length).contains(&(place as usize))
    };
    let found = texts.iter().find(around);
    found.map_or(said, |(_, length)| Answer::Accepted(*length))
}

fn byte_as_tag(original: &[u8], second: &[u8], place: u32) -> Answer {
    let said = right(original, second, place);
    let read = original.get(place as usize..).and_then(<[u8]>::first_chunk);
    match (said, read) {
        (Answer::Refused { number: 13, .. }, Some(&[TEXT_BYTES | IF_BLOCK_LAYOUT, high, low])) => {
            Answer::Accepted(u16::from_be_bytes([high, low]).into())
        }
        _ => said,
    }
}

fn place_wrapped(original: &[u8], second: &[u8], place: u32) -> Answer {
    match right(original, second, place & 0xffff) {
        accepted @ Answer::Accepted(_) => accepted,
        _ => right(original, second, place),
    }
}

fn header_counted(original: &[u8], second: &[u8], place: u32) -> Answer {
    match right(original, second, place) {
        Answer::Accepted(length) => Answer::Accepted(length + HEADER),
        refused => refused,
    }
}

fn second_first(original: &[u8], second: &[u8], place: u32) -> Answer {
    match check(second) {
        Err(Refusal { number, place }) => Answer::Refused { number, place },
        Ok(()) => right(original, second, place),
    }
}

fn mask_refused(asked: Asked) -> Outcome {
    let mut said = answer(&asked.to_request());
    let texts = pair::texts_of(&field::parse(asked.file)).into_iter();
    let mut of_x = texts.filter(|(place, length)| {
        let text = &asked.file[place + HEADER..][..*length];
        asked.file[*place] == IF_BLOCK_LAYOUT && text.contains(&b'x')
    });
    if let (Answer::Accepted(_), Some((place, _))) = (said.answer, of_x.next()) {
        said.answer = Answer::Refused { number: 14, place };
    }
    said
}
