//! The proved library in this very program, as a subject: what it is lent stands between guards.

mod pairing;
mod strict;
mod writing;

use crate::answers::{Answer, Asked, Operation, Outcome, Request, Right, LENT};
use crate::subject::{Said, Subject};
use hazomeny::Refusal;

/// So many bytes stand before what is lent, and as many behind it.
const GUARD: usize = 64;

static PATTERN: [u8; 1 << 12] = [LENT; 1 << 12];

/// Bytes that are lent, between their guards; behind the second guard all is as the guards are.
struct Lent {
    bytes: Vec<u8>,
    length: usize,
}

impl Lent {
    fn new() -> Self {
        let (bytes, length) = (vec![LENT; 2 * GUARD], 0);
        Self { bytes, length }
    }

    /// Lends so many bytes, all of them as the guards are.
    fn lend(&mut self, length: usize) {
        // An emulator copies much quicker than it fills.
        for part in self.lent_mut().chunks_mut(PATTERN.len()) {
            part.copy_from_slice(&PATTERN[..part.len()]);
        }
        self.length = length;
        let needed = self.bytes.len().max(length + 2 * GUARD);
        self.bytes.resize(needed, LENT);
    }

    fn lend_copy(&mut self, of: &[u8]) {
        self.lend(of.len());
        self.lent_mut().copy_from_slice(of);
    }

    fn lent(&self) -> &[u8] {
        &self.bytes[GUARD..][..self.length]
    }

    fn lent_mut(&mut self) -> &mut [u8] {
        &mut self.bytes[GUARD..][..self.length]
    }

    /// Whether the lent bytes begin with these, and the others and both guards are untouched.
    fn holds(&self, written: &[u8]) -> bool {
        let (before, from) = self.bytes.split_at(GUARD);
        let behind = from[..self.length + GUARD].strip_prefix(written);
        *before == [LENT; GUARD] && behind.is_some_and(is_untouched)
    }
}

/// Compares all but the first with their neighbours, which is quicker than byte by byte.
fn is_untouched(bytes: &[u8]) -> bool {
    match bytes {
        [] => true,
        [first, rest @ ..] => *first == LENT && *rest == bytes[..rest.len()],
    }
}

/// The file and the page that are lent.
pub struct Library {
    file: Lent,
    page: Lent,
}

impl Library {
    pub fn new() -> Self {
        let (file, page) = (Lent::new(), Lent::new());
        Self { file, page }
    }

    /// What it answers; what it was lent is left to be seen.
    fn call(&mut self, asked: Asked) -> Answer {
        self.file.lend_copy(asked.file);
        self.page.lend(asked.room);
        let (file, page) = (self.file.lent_mut(), self.page.lent_mut());
        let said = match asked.operation {
            Operation::Check => hazomeny::check_file(file),
            Operation::Layout => hazomeny::layout_file(file, asked.width.into()),
            Operation::Plain => hazomeny::plain_page(file, page),
            Operation::Body => hazomeny::html_body(file, page),
            Operation::Document => hazomeny::html_document(file, page),
            Operation::CheckStrict => return strict::check(file),
            Operation::BodyStrict => return strict::body(file, page),
            Operation::DocumentStrict => return strict::document(file, page),
        };
        match said {
            Ok(count) => Answer::Accepted(count),
            Err(Refusal { number, place }) => Answer::Refused { number, place },
        }
    }

    fn outcome(&mut self, asked: Asked) -> Said {
        let answer = self.call(asked);
        let (file, page) = (self.file.lent(), self.page.lent());
        let (file, lent) = match asked.operation {
            Operation::Check | Operation::CheckStrict => (asked.file, &[][..]),
            Operation::Layout => (file, file),
            _ => (asked.file, page),
        };
        if self.file.holds(file) && self.page.holds(page) {
            let lent = lent.to_vec();
            return Ok(Outcome { answer, lent });
        }
        // The next call begins with guards that stand.
        *self = Self::new();
        Err("it wrote where it was lent nothing to write".into())
    }
}

/// The answer that a C function's number stands for.
fn decoded(said: u64) -> Answer {
    let above = (said >> 8) as usize;
    match said as u8 {
        0 => Answer::Accepted(above),
        number => Answer::Refused {
            number,
            place: above,
        },
    }
}

impl Subject for Library {
    fn parts(&self) -> &[Operation] {
        &Operation::ALL
    }

    fn answer(&mut self, requests: &[Request]) -> Result<Vec<Said>, String> {
        let says = requests.iter().map(|request| self.outcome(request.asked()));
        Ok(says.collect())
    }

    fn agrees(&mut self, asked: Asked, right: Right) -> Option<bool> {
        let answer = self.call(asked);
        let (file, page) = match asked.operation {
            Operation::Layout => (right.written, &[][..]),
            _ => (asked.file, right.written),
        };
        let agrees = answer == right.answer && self.file.holds(file) && self.page.holds(page);
        if !agrees {
            *self = Self::new();
        }
        Some(agrees)
    }
}
