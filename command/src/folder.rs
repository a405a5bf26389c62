//! Every `*.fragment` file below a folder, printed or masked to files of another folder, several at a time.

use crate::arguments::Files;
use crate::failure::{Failure, Status};
use crate::input::{shown, Source};
use crate::product::Product;
use crate::{make as making, output};
use indicatif::{ProgressBar, ProgressStyle};
use std::ffi::OsStr;
use std::io::{self, IsTerminal};
use std::num::NonZeroUsize;
use std::path::{Path, PathBuf};
use std::sync::atomic::{AtomicUsize, Ordering};
use std::{fs, thread};
use walkdir::{DirEntry, WalkDir};

struct Work<'a> {
    product: Product,
    folder: &'a Path,
    out: &'a Path,
}

/// Makes what can be made, tells the failures in the order of the files' names, and ends with one line on standard output.
pub fn make(product: Product, folder: &Path, asked: &Files) -> Result<Status, Failure> {
    let work = Work {
        product,
        folder,
        out: written_to(product, folder, asked)?,
    };
    let (files, unread) = found(folder);
    let failures = work.all(&files, workers(asked.jobs));
    let told = unread.iter().chain(&failures).map(Failure::tell).max();
    output::standard(work.summary(files.len(), &unread, &failures).as_bytes())?;
    Ok(told.unwrap_or(Status::Done))
}

/// The folder that is written to. A mask has its file's name, and among the files that are masked it could take the place of one.
fn written_to<'a>(product: Product, folder: &Path, asked: &'a Files) -> Result<&'a Path, Failure> {
    let named = asked.output.as_deref();
    let Some(out) = named.filter(|out| *out != Path::new("-")) else {
        let name = product.name();
        let words = format!("it is a folder, so -o has to name the folder that gets the {name}");
        return Err(Failure::usage(&shown(folder), &words));
    };
    if matches!(product, Product::Mask) && overlap(folder, out) {
        let words = "a mask has its file's name, so neither folder may lie in the other";
        return Err(Failure::usage(&shown(out), words));
    }
    Ok(out)
}

/// Whether one of the folders is the other, or lies in it. The one that is written to need not be there yet.
fn overlap(folder: &Path, out: &Path) -> bool {
    let (Some(folder), Some(above)) = (real(folder), out.ancestors().find_map(real)) else {
        return false;
    };
    above.starts_with(&folder) || real(out).is_some_and(|out| folder.starts_with(out))
}

/// The path without links, where it leads to something.
fn real(path: &Path) -> Option<PathBuf> {
    fs::canonicalize(Path::new(".").join(path)).ok()
}

fn workers(asked: Option<NonZeroUsize>) -> usize {
    let processors = || thread::available_parallelism().ok();
    asked.or_else(processors).map_or(1, NonZeroUsize::get)
}

/// The files below a folder by name, and the folders that cannot be read.
fn found(folder: &Path) -> (Vec<PathBuf>, Vec<Failure>) {
    let (mut files, mut unread) = (Vec::new(), Vec::new());
    for entry in WalkDir::new(folder).sort_by_file_name() {
        match entry {
            Ok(entry) if is_fragment(&entry) => files.push(entry.into_path()),
            Ok(_) => {}
            Err(why) => unread.push(unreadable(folder, why)),
        }
    }
    (files, unread)
}

/// A link counts as what it leads to, but a folder is not entered by a link.
fn is_fragment(entry: &DirEntry) -> bool {
    let kind = entry.file_type();
    let is_file = kind.is_file() || kind.is_symlink() && !entry.path().is_dir();
    is_file && entry.path().extension() == Some(OsStr::new("fragment"))
}

fn unreadable(folder: &Path, why: walkdir::Error) -> Failure {
    let name = shown(why.path().unwrap_or(folder));
    Failure::system(
        &name,
        &why.into_io_error().unwrap_or(io::ErrorKind::Other.into()),
    )
}

impl Work<'_> {
    fn summary(&self, files: usize, unread: &[Failure], failures: &[Failure]) -> String {
        let is_refusal = |failure: &&Failure| failure.status == Status::Refused;
        let refused = failures.iter().filter(is_refusal).count();
        let (made, done) = (files - failures.len(), self.product.done());
        let failed = unread.len() + failures.len() - refused;
        format!("{made} of {files} files {done}, {refused} refused, {failed} could not be read or written\n")
    }

    /// Each worker takes the next file until none is left. The failures come in the order of the files.
    fn all(&self, files: &[PathBuf], workers: usize) -> Vec<Failure> {
        let (next, bar) = (AtomicUsize::new(0), progress(files.len()));
        let worker = || {
            let mut failures = Vec::new();
            loop {
                let at = next.fetch_add(1, Ordering::Relaxed);
                let Some(path) = files.get(at) else { break };
                failures.extend(self.one(path).err().map(|failure| (at, failure)));
                bar.inc(1);
            }
            failures
        };
        let mut failures = together(&worker, workers.min(files.len()));
        bar.finish_and_clear();
        failures.sort_by_key(|(at, _)| *at);
        failures.into_iter().map(|(_, failure)| failure).collect()
    }

    fn one(&self, path: &Path) -> Result<Status, Failure> {
        let inside = path.strip_prefix(self.folder).unwrap_or(path);
        let made = self.out.join(inside);
        let made = made.with_extension(self.product.extension());
        if let Some(folder) = made.parent() {
            let there = fs::create_dir_all(folder);
            there.map_err(|why| Failure::system(&shown(folder), &why))?;
        }
        making::one(self.product, &Source::File(path.into()), Some(&made))
    }
}

/// Runs so many of the worker, this thread's included, and gathers what they answer. A thread that cannot be had is done without.
fn together<T: Send>(worker: &(impl Fn() -> Vec<T> + Sync), count: usize) -> Vec<T> {
    thread::scope(|scope| {
        let start = |_| thread::Builder::new().spawn_scoped(scope, worker).ok();
        let others: Vec<_> = (1..count).map_while(start).collect();
        let mut answers = worker();
        for other in others {
            answers.extend(other.join().expect("a worker does not panic"));
        }
        answers
    })
}

/// It is shown where standard error is a terminal.
fn progress(files: usize) -> ProgressBar {
    if !io::stderr().is_terminal() {
        return ProgressBar::hidden();
    }
    let looks = ProgressStyle::with_template("{bar:40} {pos} of {len} files, {eta} left");
    ProgressBar::new(files as u64).with_style(looks.expect("the template is sound"))
}
