//! Where a fragment file comes from: a path, or standard input.

use crate::failure::Failure;
use std::fs::File;
use std::io::{self, Read};
use std::os::fd::AsFd;
use std::os::unix::ffi::OsStrExt;
use std::path::{Path, PathBuf};

/// A longer file is refused whatever it holds, so that one byte more than it may have is enough of it.
const ENOUGH: usize = hazomeny::MOST_BYTES + 1;

pub enum Source {
    Standard,
    File(PathBuf),
}

impl Source {
    /// `-` or nothing is standard input.
    pub fn of(path: Option<PathBuf>) -> Self {
        match path {
            Some(path) if path.as_os_str() != "-" => Self::File(path),
            _ => Self::Standard,
        }
    }

    /// What messages call it.
    pub fn name(&self) -> Vec<u8> {
        match self {
            Self::Standard => b"standard input".to_vec(),
            Self::File(path) => shown(path),
        }
    }

    pub fn read(&self) -> Result<Vec<u8>, Failure> {
        let read = match self {
            Self::Standard => standard().and_then(enough),
            Self::File(path) => File::open(path).and_then(enough),
        };
        read.map_err(|why| Failure::system(&self.name(), &why))
    }
}

/// Standard input without a buffer of its own, which would take more from a pipe than is needed.
fn standard() -> io::Result<File> {
    Ok(io::stdin().as_fd().try_clone_to_owned()?.into())
}

fn enough(from: File) -> io::Result<Vec<u8>> {
    let mut file = Vec::with_capacity(ENOUGH);
    from.take(ENOUGH as u64).read_to_end(&mut file)?;
    Ok(file)
}

/// A path for a message: its bytes, which need not be UTF-8, but for those that would move a terminal's cursor.
pub fn shown(path: &Path) -> Vec<u8> {
    let harmless = |byte: &u8| match byte.is_ascii_control() {
        true => b'?',
        false => *byte,
    };
    path.as_os_str().as_bytes().iter().map(harmless).collect()
}
