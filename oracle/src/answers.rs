//! What is right: the answer to a request and each lent byte afterwards.

use crate::check::{check, strict_check, Refusal};
use crate::original;
use crate::strict;
use crate::tags::LARGEST_WIDTH;
use crate::words::MOST_TIMES;

/// The page buffer is lent filled with this byte.
pub const LENT: u8 = 0xa5;

/// An HTML page has at most so many bytes for each byte of its file, and so many around them.
const HTML_TIMES: usize = 236;
const HTML_FRAME: usize = 1_072;

#[derive(Clone, Copy, Debug, PartialEq, Eq)]
pub enum Operation {
    Check,
    Layout,
    Plain,
    Body,
    Document,
    CheckStrict,
    BodyStrict,
    DocumentStrict,
}

impl Operation {
    pub const ALL: [Self; 8] = [
        Self::Check,
        Self::Layout,
        Self::Plain,
        Self::Body,
        Self::Document,
        Self::CheckStrict,
        Self::BodyStrict,
        Self::DocumentStrict,
    ];

    pub fn name(self) -> &'static str {
        match self {
            Self::Check => "check",
            Self::Layout => "layout",
            Self::Plain => "plain",
            Self::Body => "body",
            Self::Document => "document",
            Self::CheckStrict => "check-strict",
            Self::BodyStrict => "body-strict",
            Self::DocumentStrict => "document-strict",
        }
    }

    pub fn named(name: &str) -> Option<Self> {
        Self::ALL.into_iter().find(|op| op.name() == name)
    }

    /// In the order of [`original::pages`].
    pub const PAGES: [Self; 3] = [Self::Plain, Self::Body, Self::Document];

    /// In the order of [`strict::pages`].
    pub const STRICT_PAGES: [Self; 2] = [Self::BodyStrict, Self::DocumentStrict];

    pub fn is_page(self) -> bool {
        Self::PAGES.contains(&self) || Self::STRICT_PAGES.contains(&self)
    }

    /// The same in strict mode, of a page that has it.
    pub fn made_strict(self) -> Option<Self> {
        match self {
            Self::Body => Some(Self::BodyStrict),
            Self::Document => Some(Self::DocumentStrict),
            _ => None,
        }
    }

    pub fn is_check(self) -> bool {
        matches!(self, Self::Check | Self::CheckStrict)
    }

    /// What the operation's walk says of a file.
    pub fn walk(self, file: &[u8]) -> Result<(), Refusal> {
        match self {
            Self::CheckStrict | Self::BodyStrict | Self::DocumentStrict => strict_check(file),
            _ => check(file),
        }
    }

    /// The most bytes that such a page of a file of so many bytes can have.
    pub fn most_bytes(self, length: usize) -> usize {
        match self {
            Self::Check | Self::Layout | Self::CheckStrict => 0,
            Self::Plain => MOST_TIMES * length,
            _ => HTML_TIMES * length + HTML_FRAME,
        }
    }
}

/// One question. Only a layout looks at `width`, only pages at `room`, the
/// length of the lent page buffer.
#[derive(Clone, Debug, PartialEq, Eq)]
pub struct Request {
    pub operation: Operation,
    pub width: u16,
    pub room: usize,
    pub file: Vec<u8>,
}

impl Request {
    pub fn check(file: Vec<u8>) -> Self {
        Self::page(Operation::Check, 0, file)
    }

    pub fn layout(width: u16, file: Vec<u8>) -> Self {
        Self {
            operation: Operation::Layout,
            width,
            room: 0,
            file,
        }
    }

    pub fn page(operation: Operation, room: usize, file: Vec<u8>) -> Self {
        Self {
            operation,
            width: 0,
            room,
            file,
        }
    }

    pub fn asked(&self) -> Asked<'_> {
        Asked {
            operation: self.operation,
            width: self.width,
            room: self.room,
            file: &self.file,
        }
    }
}

/// The count is that of changed tag bytes for a layout, the page's length for
/// a page and 0 for a check.
#[derive(Clone, Copy, Debug, PartialEq, Eq)]
pub enum Answer {
    Accepted(usize),
    Refused { number: u8, place: usize },
}

impl From<Refusal> for Answer {
    fn from(Refusal { number, place }: Refusal) -> Self {
        Self::Refused { number, place }
    }
}

/// The answer and the lent bytes afterwards: the file for a layout, the page
/// buffer for a page, none for a check.
#[derive(Clone, Debug, PartialEq, Eq)]
pub struct Outcome {
    pub answer: Answer,
    pub lent: Vec<u8>,
}

impl Outcome {
    /// What is right, where this is, and every lent byte counts as written.
    pub fn right(&self) -> Right<'_> {
        Right {
            answer: self.answer,
            written: &self.lent,
        }
    }
}

/// A request whose file is only borrowed.
#[derive(Clone, Copy)]
pub struct Asked<'a> {
    pub operation: Operation,
    pub width: u16,
    pub room: usize,
    pub file: &'a [u8],
}

impl<'a> Asked<'a> {
    pub fn check(file: &'a [u8]) -> Self {
        Self::page(Operation::Check, 0, file)
    }

    pub fn layout(width: u16, file: &'a [u8]) -> Self {
        Self {
            operation: Operation::Layout,
            width,
            room: 0,
            file,
        }
    }

    pub fn page(operation: Operation, room: usize, file: &'a [u8]) -> Self {
        Self {
            operation,
            width: 0,
            room,
            file,
        }
    }

    /// How many bytes are lent to be written.
    pub fn lent(self) -> usize {
        match self.operation {
            Operation::Check | Operation::CheckStrict => 0,
            Operation::Layout => self.file.len(),
            _ => self.room,
        }
    }

    pub fn to_request(self) -> Request {
        Request {
            operation: self.operation,
            width: self.width,
            room: self.room,
            file: self.file.to_vec(),
        }
    }
}

/// An outcome whose bytes are only borrowed: of the lent bytes those that were
/// written, in front; behind them a page is as it was lent.
#[derive(Clone, Copy)]
pub struct Right<'a> {
    pub answer: Answer,
    pub written: &'a [u8],
}

impl Right<'_> {
    /// With all lent bytes, so many of them.
    pub fn to_outcome(self, lent: usize) -> Outcome {
        let mut bytes = self.written.to_vec();
        bytes.resize(lent, LENT);
        Outcome {
            answer: self.answer,
            lent: bytes,
        }
    }
}

/// What the check said of a file.
type Checked = Result<(), Refusal>;

/// What is right for a request.
pub fn answer(request: &Request) -> Outcome {
    let (file, operation) = (&request.file, request.operation);
    match operation {
        Operation::Check | Operation::CheckStrict => {
            check_right(operation.walk(file)).to_outcome(0)
        }
        Operation::Layout => layout_outcome(file, check(file), request.width),
        page => page_outcome(&rendered(page, file), request.room),
    }
}

pub fn check_right(checked: Checked) -> Right<'static> {
    let answer = match checked {
        Ok(()) => Answer::Accepted(0),
        Err(refusal) => refusal.into(),
    };
    Right {
        answer,
        written: &[],
    }
}

pub fn layout_outcome(file: &[u8], checked: Checked, width: u16) -> Outcome {
    if let Err(refusal) = layout_check(checked, width) {
        return Outcome {
            answer: refusal.into(),
            lent: file.to_vec(),
        };
    }
    let lent = original::laid_out(file, width);
    let changed = file.iter().zip(&lent).filter(|(a, b)| a != b).count();
    Outcome {
        answer: Answer::Accepted(changed),
        lent,
    }
}

/// The refusals of a layout in their order: 1, then 2, then the walk.
fn layout_check(walked: Checked, width: u16) -> Checked {
    if width <= LARGEST_WIDTH || matches!(walked, Err(Refusal { number: 1, .. })) {
        return walked;
    }
    Err(Refusal {
        number: 2,
        place: 0,
    })
}

/// The whole page of a file, or why there is none.
pub fn rendered(page: Operation, file: &[u8]) -> Result<Vec<u8>, Refusal> {
    page.walk(file)?;
    Ok(match page {
        Operation::Plain => original::plain(file),
        Operation::Body => original::body(file),
        Operation::Document => original::document(file),
        Operation::BodyStrict => strict::body(file),
        Operation::DocumentStrict => strict::document(file),
        Operation::Check | Operation::Layout | Operation::CheckStrict => {
            unreachable!("{page:?} has no page")
        }
    })
}

/// What becomes of a page in a lent buffer of `room` bytes.
pub fn page_right(page: Result<&[u8], Refusal>, room: usize) -> Right<'_> {
    let (answer, written) = match page {
        Err(refusal) => (refusal.into(), &[][..]),
        Ok(page) if page.len() > room => {
            let (number, place) = (10, page.len());
            (Answer::Refused { number, place }, &[][..])
        }
        Ok(page) => (Answer::Accepted(page.len()), page),
    };
    Right { answer, written }
}

/// The same with all lent bytes.
pub fn page_outcome(page: &Result<Vec<u8>, Refusal>, room: usize) -> Outcome {
    let page = page.as_deref().map_err(|refusal| *refusal);
    page_right(page, room).to_outcome(room)
}
