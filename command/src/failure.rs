//! Why the command could not do what it was asked for: what it says, and the status that it exits with.

use crate::place;
use hazomeny::Refusal;
use std::io::{self, Write};
use std::process::ExitCode;

/// What the command exits with; where several apply, the largest.
#[derive(Clone, Copy, Debug, PartialEq, Eq, PartialOrd, Ord)]
pub enum Status {
    Done = 0,
    Refused = 1,
    Usage = 2,
    System = 3,
}

impl From<Status> for ExitCode {
    fn from(status: Status) -> Self {
        ExitCode::from(status as u8)
    }
}

/// A line for standard error. It is bytes, since the names of files are.
pub struct Failure {
    pub status: Status,
    line: Vec<u8>,
}

impl Failure {
    /// `NAME: refused 9 at 3: ..`, as compilers tell it.
    pub fn refused(name: &[u8], refusal: Refusal, file: &[u8]) -> Self {
        let words = match place::described(refusal, file) {
            Some(there) => format!("{refusal} ({there})"),
            None => refusal.to_string(),
        };
        Self::new(Status::Refused, &[name, b": ", words.as_bytes()])
    }

    /// What the system says of a file, without the number behind it.
    pub fn system(name: &[u8], why: &io::Error) -> Self {
        let why = why.to_string();
        let words = why.split(" (os error").next().unwrap_or_default();
        Self::new(
            Status::System,
            &[b"hazomeny: ", name, b": ", words.as_bytes()],
        )
    }

    pub fn usage(name: &[u8], words: &str) -> Self {
        let line = [b"hazomeny: ", name, b": ", words.as_bytes()];
        Self::new(Status::Usage, &line)
    }

    /// What the argument parser says.
    pub fn of_arguments(said: &str) -> Self {
        Self::new(Status::Usage, &[said.trim_end().as_bytes()])
    }

    fn new(status: Status, parts: &[&[u8]]) -> Self {
        let line = parts.concat();
        Self { status, line }
    }

    /// Tells it on standard error. Where that cannot be written nothing is left to tell it to.
    pub fn tell(&self) -> Status {
        let _ = io::stderr().write_all(&[&self.line[..], b"\n"].concat());
        self.status
    }
}
