//! How long a random run goes on.

use std::time::{Duration, Instant};

#[derive(Clone, Copy)]
pub enum Extent {
    /// So many files.
    Files(u64),
    /// Files for so long.
    For(Duration),
}

impl Extent {
    /// The numbers of the files, from 0; the time begins now.
    pub fn numbers(self) -> impl Iterator<Item = u64> {
        let start = Instant::now();
        (0..).take_while(move |number| match self {
            Self::Files(files) => *number < files,
            Self::For(time) => start.elapsed() < time,
        })
    }
}
