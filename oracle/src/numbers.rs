//! Compares how a subject prints opacities, sizes and weights with how the original prints them.

use crate::answers::{page_outcome, rendered, Answer, Operation, Outcome, Request};
use crate::compare::{first_difference, Case, Stop};
use crate::field::{self, leaf, Field};
use crate::subject::{Said, Subject};
use crate::tags::*;
use crate::wire;
use std::iter;
use std::num::NonZeroUsize;

/// The longest text is that of an opacity: a 1, a 16, a 32, a 33 and a 17.
const LONGEST_TEXT: usize = 5 * HEADER + 3 + 4;

/// So many numbers stand in one file.
const MOST_NUMBERS: usize = LONGEST_FILE / LONGEST_TEXT;

/// So many files are asked at once. With their pages they have some 8 megabytes:
/// few enough to hold, and enough that starting a command costs little.
const MOST_FILES: usize = 40;

/// A number that is printed longer is shown if this is room enough for it.
const MORE_ROOM: usize = 1_000;

/// A number of a style that the HTML body prints.
#[derive(Clone, Copy, Debug, PartialEq, Eq)]
pub enum Number {
    Opacity(u32),
    Size(i8),
    Thickness(i8),
}

impl Number {
    /// An empty text with the number as its style.
    fn text(self) -> Field {
        let styles = match self {
            Self::Opacity(bits) => {
                let opacity = leaf(OPACITY, bits.to_be_bytes());
                vec![leaf(COLOUR, [0; 3]), opacity]
            }
            Self::Size(size) => vec![leaf(SIZE, size.to_be_bytes())],
            Self::Thickness(thickness) => vec![leaf(THICKNESS, thickness.to_be_bytes())],
        };
        field::styled(styles, b"")
    }

    /// The bits and the value. An opacity is written as a double: more digits
    /// than the page has, so that a tie between two decimals is seen.
    pub fn words(self) -> String {
        match self {
            Self::Opacity(bits) => {
                let value = f64::from(f32::from_bits(bits));
                format!("opacity 0x{bits:08x}, that is {value}")
            }
            Self::Size(size) => format!("size 0x{size:02x}, that is {size}"),
            Self::Thickness(thickness) => {
                format!("thickness 0x{thickness:02x}, that is {thickness}")
            }
        }
    }
}

/// The opacities from 1/1024 to 1, each of so many, beginning with the one numbered `from`.
pub fn opacities(every: NonZeroUsize, from: usize) -> impl Iterator<Item = u32> {
    let all = LEAST_OPACITY..=FULL_OPACITY;
    all.skip(from).step_by(every.get())
}

/// All sizes, all thicknesses, the opacity 0 and those given.
fn all(opacities: impl Iterator<Item = u32>) -> impl Iterator<Item = Number> {
    let sizes = (i8::MIN..=LARGEST_SIZE).map(Number::Size);
    let thicknesses = (i8::MIN..=i8::MAX).map(Number::Thickness);
    let opacities = iter::once(0).chain(opacities);
    sizes
        .chain(thicknesses)
        .chain(opacities.map(Number::Opacity))
}

/// The items in lists of so many; the last may be shorter.
fn lists<T>(mut items: impl Iterator<Item = T>, most: usize) -> impl Iterator<Item = Vec<T>> {
    iter::from_fn(move || {
        let list: Vec<T> = items.by_ref().take(most).collect();
        (!list.is_empty()).then_some(list)
    })
}

/// How many numbers of each kind were compared.
#[derive(Debug, Default, PartialEq, Eq)]
pub struct Tally {
    pub opacities: u64,
    pub sizes: u64,
    pub weights: u64,
}

impl Tally {
    fn note(&mut self, number: Number) {
        *match number {
            Number::Opacity(_) => &mut self.opacities,
            Number::Size(_) => &mut self.sizes,
            Number::Thickness(_) => &mut self.weights,
        } += 1;
    }
}

/// Numbers of one file, mostly a single one, that subject and judge print differently.
pub struct Misprint {
    pub numbers: Vec<Number>,
    right: Outcome,
    said: Said,
}

/// Asks for all numbers; an opacity beside 0 only if it is given.
pub fn run(
    subject: &mut dyn Subject,
    opacities: impl Iterator<Item = u32>,
) -> Result<Tally, Stop<Misprint>> {
    let mut tally = Tally::default();
    for files in lists(lists(all(opacities), MOST_NUMBERS), MOST_FILES) {
        if let Some(found) = ask(subject, &files, 0).map_err(Stop::CannotAsk)? {
            let found = smallest(subject, found).map_err(Stop::CannotAsk)?;
            return Err(Stop::Differs(Box::new(found)));
        }
        for number in files.into_iter().flatten() {
            tally.note(number);
        }
    }
    Ok(tally)
}

/// Asks for the numbers of each file in so much more room than they need; the first misprint.
fn ask(
    subject: &mut dyn Subject,
    files: &[Vec<Number>],
    more: usize,
) -> Result<Option<Misprint>, String> {
    let mut cases: Vec<Case> = files.iter().map(|numbers| case(numbers, more)).collect();
    let found = first_difference(subject, &cases)?;
    Ok(found.map(|(index, said)| Misprint {
        numbers: files[index].clone(),
        right: cases.swap_remove(index).right,
        said,
    }))
}

fn case(numbers: &[Number], more: usize) -> Case {
    let texts: Vec<Field> = numbers.iter().map(|number| number.text()).collect();
    let file = field::encode(&texts);
    let page = rendered(Operation::Body, &file);
    let length = page.as_ref().expect("every number is allowed").len();
    let room = length + more;
    Case {
        right: page_outcome(&page, room),
        request: Request::page(Operation::Body, room, file),
    }
}

/// Halves the numbers as long as a half is still misprinted.
fn smallest(subject: &mut dyn Subject, mut found: Misprint) -> Result<Misprint, String> {
    while found.numbers.len() > 1 {
        let half = found.numbers.len().div_ceil(2);
        let halves: Vec<Vec<Number>> = found.numbers.chunks(half).map(<[_]>::to_vec).collect();
        match ask(subject, &halves, 0)? {
            Some(smaller) => found = smaller,
            None => break,
        }
    }
    // A longer number is only refused where there is no room for it.
    let roomy = ask(subject, std::slice::from_ref(&found.numbers), MORE_ROOM)?;
    Ok(roomy.unwrap_or(found))
}

impl Misprint {
    pub fn words(&self) -> String {
        let numbers: Vec<String> = self.numbers.iter().map(|number| number.words()).collect();
        let said = match &self.said {
            Ok(outcome) => printed(outcome),
            Err(why) => why.clone(),
        };
        format!(
            "{}\n  the Rust prints:    {}\n  the subject prints: {said}",
            numbers.join("; "),
            printed(&self.right)
        )
    }
}

/// The page on one line, or the refusal.
fn printed(outcome: &Outcome) -> String {
    match outcome.answer {
        Answer::Accepted(length) => {
            let page = outcome.lent.get(..length).unwrap_or(&outcome.lent);
            String::from_utf8_lossy(page).replace('\n', "¶")
        }
        refused => wire::answer_words(refused),
    }
}
