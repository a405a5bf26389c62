//! The command about masks of files and pairs.

use super::{extent, per_minute, seed, stopped, Mistake};
use crate::masker::Masker;
use crate::options::Options;
use crate::pairs;
use crate::subject::Oneself;
use std::process::ExitCode;
use std::time::Instant;

pub fn run_pairs(options: &Options) -> Result<ExitCode, Mistake> {
    let [] = options.words()?;
    let seed = seed(options)?;
    let extent = extent(options)?;
    let mut masker = masker(options)?;
    println!("seed {seed}");
    let start = Instant::now();
    match pairs::run(&mut *masker, seed, extent) {
        Ok(tally) => {
            let (words, rate) = (tally.words(), per_minute(tally.files, start));
            println!("no disagreement: {words}; {rate}");
            Ok(ExitCode::SUCCESS)
        }
        Err(stop) => stopped(stop, pairs::Unlike::words),
    }
}

#[cfg(feature = "linked")]
fn masking_library() -> Result<Box<dyn Masker>, Mistake> {
    Ok(Box::new(crate::library::Library::new()))
}

#[cfg(not(feature = "linked"))]
fn masking_library() -> Result<Box<dyn Masker>, Mistake> {
    Err(super::WITHOUT_LIBRARY.into())
}

/// The subject asked for.
fn masker(options: &Options) -> Result<Box<dyn Masker>, Mistake> {
    match options.text("subject") {
        Some("self") => Ok(Box::new(Oneself)),
        Some("library") => masking_library(),
        _ => Err("a --subject is needed, `self` or `library`".into()),
    }
}
