//! Writing a file whole or not at all: to a temporary file beside it, which then takes its place.

use crate::signals;
use std::fs::{self, File, Metadata, OpenOptions, Permissions};
use std::io::{self, ErrorKind, Write};
use std::os::unix::fs::{fchown, MetadataExt, PermissionsExt};
use std::path::Path;
use std::sync::OnceLock;
use tempfile::Builder;

/// A file that may not be written is not replaced either. What is no regular file, such as `/dev/null` or a pipe, is written to as it is.
pub fn write(path: &Path, bytes: &[u8]) -> io::Result<()> {
    match OpenOptions::new().write(true).open(path) {
        Ok(mut there) => {
            let old = there.metadata()?;
            match old.is_file() {
                true => replace(&fs::canonicalize(path)?, Some(&old), bytes),
                false => there.write_all(bytes),
            }
        }
        Err(why) if why.kind() == ErrorKind::NotFound => replace(path, None, bytes),
        Err(why) => Err(why),
    }
}

fn replace(path: &Path, old: Option<&Metadata>, bytes: &[u8]) -> io::Result<()> {
    let folder = path.parent().filter(|folder| *folder != Path::new(""));
    let _held = signals::hold();
    let mut new = Builder::new()
        .prefix(".hazomeny-")
        .tempfile_in(folder.unwrap_or(Path::new(".")))?;
    new.write_all(bytes)?;
    permit(new.as_file(), old)?;
    new.persist(path)?;
    Ok(())
}

/// The new file may be used as the one that it replaces, or as any that is made anew; a temporary file is its owner's alone.
fn permit(new: &File, old: Option<&Metadata>) -> io::Result<()> {
    match old {
        Some(old) => {
            // only root can hand a file on; it stays with whoever runs this otherwise
            let _ = fchown(new, Some(old.uid()), Some(old.gid()));
            new.set_permissions(old.permissions())
        }
        None => new.set_permissions(Permissions::from_mode(0o666 & !mask())),
    }
}

/// The permissions that whoever runs this takes from every new file. The call that tells them changes them, for other threads too, so they are
/// read; where that cannot be, a new file is its owner's alone.
fn mask() -> u32 {
    static MASK: OnceLock<u32> = OnceLock::new();
    *MASK.get_or_init(|| {
        let status = fs::read_to_string("/proc/self/status").unwrap_or_default();
        let mut lines = status.lines();
        let mask = lines.find_map(|line| line.strip_prefix("Umask:"));
        let octal = |mask: &str| u32::from_str_radix(mask.trim(), 8).ok();
        mask.and_then(octal).unwrap_or(0o077)
    })
}
