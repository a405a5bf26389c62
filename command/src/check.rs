//! `hazomeny check`: a line for each file.

use crate::arguments::Check;
use crate::failure::{Failure, Status};
use crate::input::Source;
use crate::output;
use hazomeny::{check_file, check_file_strict};

pub fn check(asked: Check) -> Result<Status, Failure> {
    let mut sources: Vec<_> = asked
        .files
        .into_iter()
        .map(|path| Source::of(Some(path)))
        .collect();
    if sources.is_empty() {
        sources.push(Source::Standard);
    }
    let mut worst = Status::Done;
    for source in sources {
        if let Err(failure) = one(&source, asked.strict) {
            worst = worst.max(failure.tell());
        } else {
            output::standard(&[&source.name()[..], b": accepted\n"].concat())?;
        }
    }
    Ok(worst)
}

fn one(source: &Source, strict: bool) -> Result<(), Failure> {
    let file = source.read()?;
    let checked = match strict {
        true => check_file_strict(&file),
        false => check_file(&file),
    };
    match checked {
        Ok(_) => Ok(()),
        Err(refusal) => Err(Failure::refused(&source.name(), refusal, &file)),
    }
}
