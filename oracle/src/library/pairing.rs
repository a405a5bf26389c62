//! The library's masks and pairs: both files and the page are lent between guards, and the files are looked at again after each call.

use super::{decoded, Library};
use crate::answers::Outcome;
use crate::masker::{Masker, Question};
use crate::subject::Said;

extern "C" {
    fn hazomeny_mask(file: *const u8, length: usize, page: *mut u8, room: usize) -> u64;

    fn hazomeny_pair(
        original: *const u8,
        length: usize,
        mask: *const u8,
        mask_length: usize,
        place: u32,
    ) -> u64;
}

impl Masker for Library {
    fn say(&mut self, question: Question) -> Said {
        let said = match question {
            Question::Mask { file, room } => self.mask(file, room),
            Question::Strict(asked) => return self.outcome(asked),
            Question::Pair {
                original,
                second,
                place,
            } => self.pair(original, second, place),
        };
        if said.is_none() {
            // The next call begins with guards that stand.
            *self = Self::new();
        }
        said.ok_or("it wrote where it was lent nothing to write".into())
    }
}

impl Library {
    /// None if it wrote beside the page.
    fn mask(&mut self, file: &[u8], room: usize) -> Option<Outcome> {
        self.file.lend_copy(file);
        self.page.lend(room);
        let (lent, page) = (self.file.lent(), self.page.lent_mut());
        // SAFETY: each pointer and length are those of one slice, and the two do not overlap.
        let said =
            unsafe { hazomeny_mask(lent.as_ptr(), lent.len(), page.as_mut_ptr(), page.len()) };
        let page = self.page.lent();
        let guarded = self.file.holds(file) && self.page.holds(page);
        guarded.then(|| Outcome {
            answer: decoded(said),
            lent: page.to_vec(),
        })
    }

    /// None if it wrote at all.
    fn pair(&mut self, original: &[u8], second: &[u8], place: u32) -> Option<Outcome> {
        self.file.lend_copy(original);
        self.page.lend_copy(second);
        let (lent, mask) = (self.file.lent(), self.page.lent());
        // SAFETY: each pointer and length are those of one slice.
        let said =
            unsafe { hazomeny_pair(lent.as_ptr(), lent.len(), mask.as_ptr(), mask.len(), place) };
        let guarded = self.file.holds(original) && self.page.holds(second);
        guarded.then(|| Outcome {
            answer: decoded(said),
            lent: Vec::new(),
        })
    }
}
