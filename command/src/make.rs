//! `hazomeny print`, `html` and `mask`: what is made of a file, or of every file of a folder.

use crate::arguments::Files;
use crate::failure::{Failure, Status};
use crate::input::Source;
use crate::product::Product;
use crate::{folder, output};
use std::path::Path;

pub fn make(product: Product, asked: &Files) -> Result<Status, Failure> {
    match Source::of(asked.file.clone()) {
        Source::File(path) if path.is_dir() => folder::make(product, &path, asked),
        source => one(product, &source, asked.output.as_deref()),
    }
}

/// Makes it of one file, which is read into memory, and laid out there for a page.
pub fn one(product: Product, from: &Source, to: Option<&Path>) -> Result<Status, Failure> {
    let mut file = from.read()?;
    match product.of(&mut file) {
        Ok(made) => output::write(to, &made),
        Err(refusal) => Err(Failure::refused(&from.name(), refusal, &file)),
    }
}
