//! Every `*.fragment` file below a folder printed by the Rust original, one after the other: what `hazomeny print` is timed beside.

use crate::check::check;
use crate::original;
use std::ffi::OsStr;
use std::fs;
use std::path::Path;

/// Prints to the same names in another folder, refused files left out, and says how many there were.
pub fn print(folder: &Path, out: &Path, width: u16) -> Result<usize, String> {
    fs::create_dir_all(out).map_err(|why| told(out, &why))?;
    let mut printed = 0;
    for entry in fs::read_dir(folder).map_err(|why| told(folder, &why))? {
        let entry = entry.map_err(|why| told(folder, &why))?;
        let (path, page) = (entry.path(), out.join(entry.file_name()));
        if path.is_dir() {
            printed += print(&path, &page, width)?;
        } else if path.extension() == Some(OsStr::new("fragment")) {
            printed += one(&path, &page.with_extension("txt"), width)?;
        }
    }
    Ok(printed)
}

fn one(path: &Path, page: &Path, width: u16) -> Result<usize, String> {
    let file = fs::read(path).map_err(|why| told(path, &why))?;
    if check(&file).is_err() {
        return Ok(0);
    }
    let written = fs::write(page, original::laid_out_plain(&file, width));
    written.map_err(|why| told(page, &why)).map(|()| 1)
}

fn told(path: &Path, why: &std::io::Error) -> String {
    format!("{}: {why}", path.display())
}
