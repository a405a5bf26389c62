//! Subjects that are wrong on purpose: the comparison has to find each fault and make it small.

mod of_pairs;
mod of_scripts;
mod of_strict;
mod of_underlines;
mod of_words;

use crate::answers::{answer, page_outcome, rendered, Answer, Operation, Outcome, Request, LENT};
use crate::field::{self, Field};
use crate::numbers::Number;
use crate::subject::{Said, Subject};
use crate::tags::*;
pub use of_pairs::WrongMasker;
pub use of_scripts::WrongScribe;

/// A wrong subject, and the longest file that its fault may shrink to.
pub struct Wrong {
    pub name: &'static str,
    pub part: [Operation; 1],
    pub longest: usize,
    says: Says,
}

impl Subject for Wrong {
    fn parts(&self) -> &[Operation] {
        &self.part
    }

    fn answer(&mut self, requests: &[Request]) -> Result<Vec<Said>, String> {
        Ok(requests
            .iter()
            .map(|request| Ok((self.says)(request)))
            .collect())
    }
}

type Says = fn(&Request) -> Outcome;

/// What is wrong, in which operation, the longest file for it, and the saying itself.
type Row = (&'static str, Operation, usize, Says);

#[rustfmt::skip] // one row, one line
const ALL: [Row; 9] = [
    ("a bad style is placed a byte too far", Operation::Check, 13, style_misplaced),
    ("a missing 17 is refused at the end", Operation::Check, 6, missing_misplaced),
    ("the excess of tag 7 is forgotten", Operation::Layout, 10, excess_forgotten),
    ("the count of changed tags stops at 1", Operation::Layout, 26, count_stops),
    ("a refused layout changes a byte", Operation::Layout, 4, refusal_writes),
    ("a waiting break is kept at the end", Operation::Plain, 18, break_kept),
    ("later bytes of the page are cleared", Operation::Plain, 0, tail_cleared),
    ("an em size is rounded", Operation::Body, 16, em_rounded),
    ("a page that fits just so is refused", Operation::Document, 0, fit_refused),
];

/// Right but for a letter in texts, so that masks are not answered alike.
#[rustfmt::skip] // one row, one line
const OF_MASKS: [Row; 4] = [
    ("all lines break where there is an a", Operation::Layout, 30, broken_lines),
    ("a line moves where there is an x", Operation::Plain, 30, moved_line),
    ("a body is longer where there is an a", Operation::Body, 20, longer_body),
    ("an a is shown as a b", Operation::Document, 20, changed_letter),
];

pub fn all() -> Vec<Wrong> {
    let rows = ALL.into_iter().chain(of_underlines::ROWS);
    let rows = rows.chain(of_strict::ROWS);
    rows.map(Wrong::new).collect()
}

pub fn of_masks() -> Vec<Wrong> {
    let rows = OF_MASKS.into_iter().chain(of_strict::OF_MASKS);
    rows.map(Wrong::new).collect()
}

pub fn of_pairs() -> Vec<WrongMasker> {
    of_pairs::all()
}

pub fn of_scripts() -> Vec<WrongScribe> {
    of_scripts::all()
}

pub fn of_words() -> Vec<Wrong> {
    of_words::ROWS.into_iter().map(Wrong::new).collect()
}

impl Wrong {
    fn new((name, part, longest, says): Row) -> Self {
        Self {
            name,
            part: [part],
            longest,
            says,
        }
    }
}

fn style_misplaced(request: &Request) -> Outcome {
    let mut said = answer(request);
    if let Answer::Refused { number: 8, place } = &mut said.answer {
        *place += 1;
    }
    said
}

fn missing_misplaced(request: &Request) -> Outcome {
    let mut said = answer(request);
    if let Answer::Refused { number: 5, place } = &mut said.answer {
        if request.file[*place] == TEXT {
            *place += HEADER;
        }
    }
    said
}

/// Each conditional text is replaced by a plain one, which has no excess.
fn excess_forgotten(request: &Request) -> Outcome {
    laid_out_as(request, |field| match field {
        Field::Leaf(IF_BLOCK_LAYOUT, value) if !value.contains(&b'\n') => {
            Some(field::text(&value[..]))
        }
        _ => None,
    })
}

/// Lays out other fields than those of the file, in which the blocks are the same, and changes its tags accordingly.
fn laid_out_as(request: &Request, by: fn(&Field) -> Option<Field>) -> Outcome {
    let mut right = answer(request);
    let Answer::Accepted(count) = &mut right.answer else {
        return right;
    };
    let other = Request {
        file: field::encode(&replaced(&field::parse(&request.file), by)),
        ..request.clone()
    };
    let said = answer(&other);
    let Answer::Accepted(changed) = said.answer else {
        return right;
    };
    *count = changed;
    let blocks = block_places(&right.lent).into_iter();
    for (place, from) in blocks.zip(block_places(&said.lent)) {
        right.lent[place] = said.lent[from];
    }
    right
}

/// The fields with another in place of each, at any depth, for which there is one.
fn replaced(fields: &[Field], by: fn(&Field) -> Option<Field>) -> Vec<Field> {
    let unchanged = |field: &Field| match field {
        Field::Inner(tag, inside) => Field::Inner(*tag, replaced(inside, by)),
        other => other.clone(),
    };
    let new = |field| by(field).unwrap_or_else(|| unchanged(field));
    fields.iter().map(new).collect()
}

fn block_places(file: &[u8]) -> Vec<usize> {
    let fields = field::parse(file);
    let places = field::places(&fields).into_iter();
    let block = |field: &Field| matches!(field, Field::Inner(tag, _) if field::is_block(*tag));
    places
        .filter(|(_, _, f)| block(f))
        .map(|(place, ..)| place)
        .collect()
}

fn count_stops(request: &Request) -> Outcome {
    let mut said = answer(request);
    if let Answer::Accepted(count) = &mut said.answer {
        *count = (*count).min(1);
    }
    said
}

fn refusal_writes(request: &Request) -> Outcome {
    let mut said = answer(request);
    if let (Answer::Refused { .. }, Some(byte)) = (said.answer, said.lent.first_mut()) {
        if *byte == INLINE_OR_INDENTED_BLOCK {
            *byte = INDENTED_BLOCK;
        }
    }
    said
}

/// An empty styled text at the end releases what waits.
fn break_kept(request: &Request) -> Outcome {
    let mut longer = request.clone();
    longer
        .file
        .extend(field::encode(&[field::styled(Vec::new(), b"")]));
    let right = answer(request);
    match right.answer {
        Answer::Accepted(_) if longer.file.len() <= LONGEST_FILE => answer(&longer),
        _ => right,
    }
}

fn tail_cleared(request: &Request) -> Outcome {
    let mut said = answer(request);
    if let Answer::Accepted(length) = said.answer {
        said.lent[length..].fill(0);
    }
    said
}

fn em_rounded(request: &Request) -> Outcome {
    let mut said = answer(request);
    let wrong = b"0000002em";
    for at in 0..said.lent.len().saturating_sub(wrong.len()) {
        if said.lent[at..].starts_with(wrong) {
            said.lent[at..at + 7].copy_from_slice(b"0000000");
        }
    }
    said
}

fn fit_refused(request: &Request) -> Outcome {
    let mut said = answer(request);
    if said.answer == Answer::Accepted(request.room) {
        said.answer = Answer::Refused {
            number: 10,
            place: request.room,
        };
        said.lent.fill(LENT);
    }
    said
}

fn broken_lines(request: &Request) -> Outcome {
    let wrong = request.operation == Operation::Layout
        && request.width <= LARGEST_WIDTH
        && request.file.contains(&b'a');
    let narrow = Request {
        width: 0,
        ..request.clone()
    };
    answer(if wrong { &narrow } else { request })
}

/// The first newline and the byte behind it change places. The dull mask has an x for each byte.
fn moved_line(request: &Request) -> Outcome {
    let mut said = answer(request);
    let wrong = request.operation == Operation::Plain && request.file.contains(&b'x');
    if let (Answer::Accepted(length), true) = (said.answer, wrong) {
        let page = &mut said.lent[..length];
        let line = page.iter().position(|byte| *byte == b'\n');
        if let Some(at) = line.filter(|at| at + 1 < length) {
            page.swap(at, at + 1);
        }
    }
    said
}

fn longer_body(request: &Request) -> Outcome {
    let wrong = request.operation == Operation::Body && request.file.contains(&b'a');
    if !wrong {
        return answer(request);
    }
    let mut page = rendered(Operation::Body, &request.file);
    if let Ok(page) = &mut page {
        page.push(b'\n');
    }
    page_outcome(&page, request.room)
}

fn changed_letter(request: &Request) -> Outcome {
    let mut said = answer(request);
    if request.operation == Operation::Document {
        let letters = said.lent.iter_mut().filter(|byte| **byte == b'a');
        letters.for_each(|byte| *byte = b'b');
    }
    said
}

/// A subject that is right but for one number of an HTML body.
pub struct Misprinter {
    pub number: Number,
    pub right: &'static str,
    pub wrong: &'static str,
}

/// The number, what the original prints with what stands around it, and what is printed instead.
#[rustfmt::skip] // one row, one line
const MISPRINTS: [(Number, &str, &str); 8] = [
    (Number::Opacity(0x3e81_0000), ",0.25195313)", ",0.25195312)"),
    (Number::Opacity(LEAST_OPACITY), ",0.0009765625)", ",0.000976563)"),
    (Number::Opacity(FULL_OPACITY), ",1)", ",1.0)"),
    (Number::Opacity(0), ",0)", ",-0)"),
    (Number::Size(-128), ":-11.8em", ":-11.9em"),
    (Number::Size(117), ":12.700000000000001em", ":12.7em"),
    (Number::Thickness(-128), ":-12300;", ":12300;"),
    (Number::Thickness(127), ":13200;", ":13100;"),
];

pub fn misprinters() -> Vec<Misprinter> {
    let misprinters = MISPRINTS.map(|(number, right, wrong)| Misprinter {
        number,
        right,
        wrong,
    });
    misprinters.into()
}

impl Subject for Misprinter {
    fn parts(&self) -> &[Operation] {
        &[Operation::Body]
    }

    /// A longer number makes a longer page, which needs more room.
    fn answer(&mut self, requests: &[Request]) -> Result<Vec<Said>, String> {
        let misprinted = |page: Vec<u8>| {
            let page = String::from_utf8(page).expect("an HTML body is UTF-8");
            page.replace(self.right, self.wrong).into_bytes()
        };
        let says = |request: &Request| {
            let page = rendered(request.operation, &request.file).map(misprinted);
            Ok(page_outcome(&page, request.room))
        };
        Ok(requests.iter().map(says).collect())
    }
}
