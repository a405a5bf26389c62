//! Why an entry, a pair or a writer refused, by number and place.

use std::error::Error;
use std::fmt;

/// A refusal: its number and the place that goes with it. `docs/FORMAT.md` lists them.
///
/// A refusal changes no byte of what was lent. A [`Writer`](crate::Writer) refuses with 1 and 6 to 11: what it wrote before stays, and the next
/// step may be another, or the same once more.
#[derive(Clone, Copy, Debug, PartialEq, Eq, Hash)]
pub struct Refusal {
    /// 1 to 14.
    pub number: u8,
    /// The byte of the file where the fault stands. Of a writer's step it is where the step would have begun to write; for
    /// [`Refusal::PAGE_TOO_SHORT`] it is the bytes that the page needs, or the file with the step in it; for [`Refusal::NO_TEXT`] it is the place
    /// that was asked for.
    pub place: usize,
}

impl Refusal {
    /// The number of the one refusal that is about the buffer alone: it is shorter than the page, or than a writer's file with the step in it.
    pub const PAGE_TOO_SHORT: u8 = 10;

    /// The number of a writer's refusal of a step that is not allowed where it stands, such as the end of a block while an anchor is open.
    pub const OUT_OF_PLACE: u8 = 11;

    /// The number of a pair's refusal of a second file that is not the mask of the first. The place is the first byte that is not the mask's, or
    /// the length of the shorter file where there is none before it.
    pub const NOT_THE_MASK: u8 = 12;

    /// The number of a pair's refusal of a place where no text's field begins.
    pub const NO_TEXT: u8 = 13;

    /// The number of strict HTML's refusal of a text with a NUL, which a browser would drop.
    pub const NUL_IN_TEXT: u8 = 14;

    /// What the number means. Of a writer's step it speaks of the file as it would be with the step in it.
    pub fn meaning(&self) -> &'static str {
        match self.number {
            1 => "the file is longer than 60,000 bytes",
            2 => "the width is over 6,553",
            3 => "a field passes the end of what encloses it",
            4 => "a tag that is not allowed there",
            5 => "a wrong length, or a part that is missing",
            6 => "a block inside 32 others",
            7 => "not UTF-8",
            8 => "a style that is not allowed",
            9 => "quote in an anchor's name",
            Self::PAGE_TOO_SHORT => "the buffer needs so many bytes",
            Self::OUT_OF_PLACE => "a step that is not allowed there",
            Self::NOT_THE_MASK => "the second file is not the mask of the first",
            Self::NO_TEXT => "no text begins there",
            Self::NUL_IN_TEXT => "NUL in a text",
            _ => "no refusal of this library",
        }
    }

    /// The bytes that the page needs, or a writer's file with the step in it, where that is why it was refused.
    pub fn bytes_needed(&self) -> Option<usize> {
        (self.number == Self::PAGE_TOO_SHORT).then_some(self.place)
    }
}

impl fmt::Display for Refusal {
    fn fmt(&self, f: &mut fmt::Formatter<'_>) -> fmt::Result {
        let Self { number, place } = self;
        write!(f, "refused {number} at {place}: {}", self.meaning())
    }
}

impl Error for Refusal {}
