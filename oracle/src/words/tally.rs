//! What a run went through, and the longest plain page that it saw.

use super::MOST_TIMES;

#[derive(Default)]
pub struct Tally {
    pub files: u64,
    pub without_7s: u64,
    /// Of those without 7s: at the two widths other blocks are broken.
    pub laid_out_unlike: u64,
    pub plain_pages: u64,
    pub bodies: u64,
    pub longest: Longest,
}

impl Tally {
    pub fn words(&self) -> String {
        let (files, without_7s, unlike) = (self.files, self.without_7s, self.laid_out_unlike);
        let (plain, bodies, times) = (self.plain_pages, self.bodies, self.longest.times());
        format!(
            "{files} files, of them without 7s {without_7s}, \
             of these laid out unlike at their two widths {unlike}; \
             plain pages {plain}, the longest {times:.2} times its file, allowed {MOST_TIMES}; \
             HTML bodies {bodies}"
        )
    }
}

/// The longest page for the length of its file.
pub struct Longest {
    page: usize,
    file: usize,
}

impl Default for Longest {
    fn default() -> Self {
        Self { page: 0, file: 1 }
    }
}

impl Longest {
    pub fn note(&mut self, page: usize, file: usize) {
        if page * self.file > self.page * file {
            *self = Self { page, file };
        }
    }

    /// How many times the file.
    fn times(&self) -> f64 {
        self.page as f64 / self.file as f64
    }
}
