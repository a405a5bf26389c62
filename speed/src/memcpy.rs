//! One long text beside one copy of its page, which is the least that a printer can do.

use crate::inputs::{self, Input, LONG_TEXT};
use crate::quartiles::Quartiles;
use crate::timing::{Bench, Job};
use std::hint::black_box;
use std::time::Instant;

/// One copy of a small page takes less than reading the clock does, so many are timed at once.
const COPIES: u32 = 1_000;

/// A file with the length of its page.
pub struct Row {
    pub length: usize,
    pub page: usize,
    /// The time of layout and page over that of one copy of the page.
    pub over_copy: Quartiles,
}

/// The long text in all sizes.
pub fn rows(rounds: usize) -> Vec<Row> {
    let texts = inputs::all().filter(|input| input.kind == LONG_TEXT);
    texts.map(|input| row(input, rounds)).collect()
}

fn row(input: Input, rounds: usize) -> Row {
    let length = input.file.len();
    let mut bench = Bench::new(input.file);
    let page = bench.plain_page();
    let mut copy = page.clone();
    let rounds = (0..rounds).map(|_| {
        let ours = bench.time(Job::OursPlain).as_nanos() as f64;
        ours / nanoseconds_of_copy(&page, &mut copy)
    });
    Row {
        length,
        page: page.len(),
        over_copy: Quartiles::of(rounds),
    }
}

/// The mean of `COPIES` in a row; `black_box` keeps the compiler from leaving any out.
fn nanoseconds_of_copy(page: &[u8], copy: &mut [u8]) -> f64 {
    let start = Instant::now();
    for _ in 0..COPIES {
        copy.copy_from_slice(black_box(page));
        black_box(&mut *copy);
    }
    start.elapsed().as_nanos() as f64 / f64::from(COPIES)
}
