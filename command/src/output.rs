//! Where a page goes: to standard output, or to a file.

use crate::failure::{Failure, Status};
use crate::input::shown;
use crate::{signals, whole};
use std::io::{self, ErrorKind, Write};
use std::path::Path;

/// Writes to the path; `-` or nothing is standard output.
pub fn write(to: Option<&Path>, bytes: &[u8]) -> Result<Status, Failure> {
    match to {
        Some(path) if path.as_os_str() != "-" => ended(whole::write(path, bytes), || shown(path)),
        _ => standard(bytes),
    }
}

pub fn standard(bytes: &[u8]) -> Result<Status, Failure> {
    let mut out = io::stdout().lock();
    let written = out.write_all(bytes).and_then(|()| out.flush());
    ended(written, || b"standard output".to_vec())
}

/// A reader that has gone away ends the command without a word, by the signal that ends other commands.
fn ended(written: io::Result<()>, name: impl FnOnce() -> Vec<u8>) -> Result<Status, Failure> {
    match written {
        Ok(()) => Ok(Status::Done),
        Err(why) => {
            if why.kind() == ErrorKind::BrokenPipe {
                signals::end_by_closed_pipe();
            }
            Err(Failure::system(&name(), &why))
        }
    }
}
