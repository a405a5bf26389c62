//! The commands about writing files: scripts of steps, and a lister that switched over.

use super::{extent, seed, stopped, Mistake};
use crate::options::Options;
use crate::scribe::{Scribe, Second};
use crate::scripts;
use crate::subject::Oneself;
use std::process::ExitCode;
use std::time::Instant;

pub fn run_scripts(options: &Options) -> Result<ExitCode, Mistake> {
    let [] = options.words()?;
    let seed = seed(options)?;
    let extent = extent(options)?;
    let mut scribe = scribe(options)?;
    println!("seed {seed}");
    let start = Instant::now();
    match scripts::run(&mut *scribe, seed, extent) {
        Ok(tally) => {
            let per_minute = tally.scripts as f64 * 60.0 / start.elapsed().as_secs_f64();
            println!(
                "no disagreement: {}; {per_minute:.0} scripts per minute",
                tally.words()
            );
            Ok(ExitCode::SUCCESS)
        }
        Err(stop) => stopped(stop, scripts::Unlike::words),
    }
}

#[cfg(feature = "linked")]
fn writing_library() -> Result<Box<dyn Scribe>, Mistake> {
    Ok(Box::new(crate::library::Library::new()))
}

#[cfg(not(feature = "linked"))]
fn writing_library() -> Result<Box<dyn Scribe>, Mistake> {
    Err(super::WITHOUT_LIBRARY.into())
}

/// The writer asked for.
fn scribe(options: &Options) -> Result<Box<dyn Scribe>, Mistake> {
    match options.text("subject") {
        Some("self") => Ok(Box::new(Second(Oneself))),
        Some("library") => writing_library(),
        _ => Err("a --subject is needed, `self` or `library`".into()),
    }
}

#[cfg(feature = "linked")]
pub fn run_lister(options: &Options) -> Result<ExitCode, Mistake> {
    let [] = options.words()?;
    let width = options.number("width")?.unwrap_or(24);
    match crate::switched::pages(width) {
        Ok(pages) => {
            println!("the original:\n{}\n", pages.original);
            println!("the library:\n{}", pages.library);
            Ok(ExitCode::from(u8::from(pages.original != pages.library)))
        }
        Err(refusal) => {
            println!("{refusal}");
            Ok(ExitCode::FAILURE)
        }
    }
}

#[cfg(not(feature = "linked"))]
pub fn run_lister(_: &Options) -> Result<ExitCode, Mistake> {
    Err(super::WITHOUT_LIBRARY.into())
}
