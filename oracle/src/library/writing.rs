//! The library's writer: buffer, text and state are lent between guards, and a style is looked at again after each step.

use super::Library;
use crate::check::Refusal;
use crate::lister;
use crate::scribe::{Call, Desk, Scribe};
use crate::subject::Subject;
use crate::tree;

extern "C" {
    fn hazomeny_write(
        file: *mut u8,
        room: usize,
        state: *mut u32,
        step: u8,
        style: *const u8,
        text: *const u8,
        length: usize,
    ) -> u64;
}

/// What stands before and behind the state.
const BESIDE: [u32; 2] = [0x5a5a_5a5a, 0xa5a5_a5a5];

impl Scribe for Library {
    fn make(&mut self, desk: &mut Desk, call: &Call) -> Result<u64, String> {
        self.file.lend_copy(&desk.file);
        self.page.lend_copy(&call.text);
        let (file, text, style) = (self.file.lent_mut(), self.page.lent(), call.style);
        let [at, top] = desk.state;
        let mut state = [BESIDE[0], at, top, BESIDE[1]];
        // SAFETY: each pointer and length are those of one slice, and of two numbers of the state; none overlap.
        let said = unsafe {
            hazomeny_write(
                file.as_mut_ptr(),
                file.len(),
                state[1..].as_mut_ptr(),
                call.step,
                style.as_ptr(),
                text.as_ptr(),
                text.len(),
            )
        };
        let [before, at, top, behind] = state;
        let guarded = self.file.holds(self.file.lent()) && self.page.holds(&call.text);
        if !guarded || [before, behind] != BESIDE || style != call.style {
            // The next call begins with guards that stand.
            *self = Self::new();
            return Err("it wrote where it was lent nothing to write".into());
        }
        desk.file.copy_from_slice(self.file.lent());
        desk.state = [at, top];
        Ok(said)
    }

    fn printer(&mut self) -> &mut dyn Subject {
        self
    }

    fn list(&mut self, file: &[u8], room: usize) -> Option<Result<Vec<u8>, Refusal>> {
        let listed = tree::with_tree(file, room, |tree, room| {
            lister::list(&tree, &mut vec![0; room]).map(|file| file.to_vec())
        });
        let refused = |hazomeny::Refusal { number, place }| Refusal { number, place };
        Some(listed.map_err(refused))
    }
}
