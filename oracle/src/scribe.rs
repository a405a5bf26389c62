//! A writer under test, and what it is asked: one step over a lent buffer and a state.

use crate::answers::LENT;
use crate::check::Refusal;
use crate::hex::hex;
use crate::subject::{Oneself, Subject};
use crate::writer::{self, Step};
pub use crate::writer::{Style as Record, UNSTYLED};

/// Of a longer text only the front is shown.
const MOST_SHOWN: usize = 100;

/// A step with what it brings.
#[derive(Clone, Debug, PartialEq, Eq)]
pub struct Call {
    pub step: u8,
    pub style: Record,
    pub text: Vec<u8>,
}

impl Call {
    /// A step that takes neither style nor text.
    pub fn bare(step: Step) -> Self {
        Self::with(step, UNSTYLED, b"")
    }

    pub fn with(step: Step, style: Record, text: &[u8]) -> Self {
        Self {
            step: step as u8,
            style,
            text: text.to_vec(),
        }
    }

    pub fn words(&self) -> String {
        let mut words = match Step::numbered(self.step) {
            Some(step) => format!("step {} ({step:?})", self.step),
            None => format!("step {}", self.step),
        };
        if self.style != UNSTYLED {
            words += &format!(", style {}", hex(&self.style));
        }
        match self.text.get(..MOST_SHOWN) {
            Some(front) => words += &format!(", text {}.., bytes {}", hex(front), self.text.len()),
            None if self.text.is_empty() => {}
            None => words += &format!(", text {}", hex(&self.text)),
        }
        words
    }
}

/// What a writer stands over: the caller's buffer and the two numbers of the state.
#[derive(Clone, PartialEq, Eq)]
pub struct Desk {
    pub file: Vec<u8>,
    pub state: [u32; 2],
}

impl Desk {
    /// A new writer over a buffer of so many bytes.
    pub fn new(room: usize) -> Self {
        Self {
            file: vec![LENT; room],
            state: [0, 0],
        }
    }

    /// What is written so far.
    pub fn written(&self) -> &[u8] {
        &self.file[..self.state[0] as usize]
    }
}

pub trait Scribe {
    /// Makes a step, and answers as the C function does. An error tells of something that it touched beside the desk.
    fn make(&mut self, desk: &mut Desk, call: &Call) -> Result<u64, String>;

    /// What checks, lays out and prints the files that it writes.
    fn printer(&mut self) -> &mut dyn Subject;

    /// What the lister writes of the original's tree of an accepted file, into so many bytes; none where it is not linked.
    fn list(&mut self, _file: &[u8], _room: usize) -> Option<Result<Vec<u8>, Refusal>> {
        None
    }
}

/// The second writer, beside the judge.
pub struct Second(pub Oneself);

impl Scribe for Second {
    fn make(&mut self, desk: &mut Desk, call: &Call) -> Result<u64, String> {
        Ok(made_right(desk, call))
    }

    fn printer(&mut self) -> &mut dyn Subject {
        &mut self.0
    }
}

/// The step as the second writer makes it.
pub fn made_right(desk: &mut Desk, call: &Call) -> u64 {
    let Call { step, style, text } = call;
    writer::write(&mut desk.file, &mut desk.state, *step, style, text)
}
