//! What a run went through: every refusal of a writer has to come up in a long one.

use super::{refusal, Ran, Script};
use crate::writer::Step;

#[derive(Default)]
pub struct Tally {
    pub scripts: u64,
    /// Of the scripts those that begin in a corrupted state, and their steps.
    corrupted: u64,
    corrupted_steps: u64,
    pub read_off: u64,
    pub listings: u64,
    finished: u64,
    /// How often each refusal was answered to a step of a new writer's script; 0 counts accepted steps.
    answers: [u64; 12],
}

/// The refusals that a writer has.
const REFUSALS: [u8; 7] = [1, 6, 7, 8, 9, 10, 11];

impl Tally {
    pub(super) fn note(&mut self, script: &Script, ran: &Ran) {
        self.scripts += 1;
        if !script.is_new() {
            self.corrupted += 1;
            self.corrupted_steps += ran.answers.len() as u64;
            return;
        }
        for (call, answer) in script.calls.iter().zip(&ran.answers) {
            let number = refusal(*answer);
            self.answers[usize::from(number)] += 1;
            self.finished += u64::from(number == 0 && call.step == Step::Finish as u8);
        }
    }

    /// A refusal that no step got.
    pub fn missing(&self) -> Option<u8> {
        let mut refusals = REFUSALS.into_iter();
        refusals.find(|number| self.answers[usize::from(*number)] == 0)
    }

    pub fn words(&self) -> String {
        let refused = REFUSALS.map(|n| format!("{n}: {}", self.answers[usize::from(n)]));
        let (scripts, corrupted, finished) = (self.scripts, self.corrupted, self.finished);
        let (read_off, listings, steps) = (self.read_off, self.listings, self.corrupted_steps);
        format!(
            "{scripts} scripts, of them from corrupted states {corrupted}, with {steps} steps; \
             steps of the others: accepted {}, refused by {}; \
             {finished} files finished, of them read off files {read_off}, \
             from trees of the original {listings}",
            self.answers[0],
            refused.join(", ")
        )
    }
}
