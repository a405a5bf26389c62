//! `hazomeny layout`: the file laid out at a width.

use crate::arguments::Layout;
use crate::failure::{Failure, Status};
use crate::input::Source;
use crate::output;

pub fn layout(asked: Layout) -> Result<Status, Failure> {
    let source = Source::of(asked.file);
    let mut file = source.read()?;
    match hazomeny::layout_file(&mut file, asked.width.columns) {
        Ok(_) => output::write(Some(&asked.output), &file),
        Err(refusal) => Err(Failure::refused(&source.name(), refusal, &file)),
    }
}
