//! What the files of a self-test had to show: every refusal, and an underline in every choice of styles.

use crate::check::Refusal;
use crate::field::{self, Field};
use crate::original::is_39;
use crate::tags::*;
use std::collections::HashSet;

/// The refusals of the check, and the one that strict mode has beside them.
const REFUSALS: [u8; 9] = [1, 3, 4, 5, 6, 7, 8, 9, 14];

/// A 39 may stand alone, and behind so many choices of other fields: three of colour and opacity, three of scripts, and any of the others.
const CHOICES: usize = 3 * 3 * 8;

/// So many files show every refusal, and so many every choice.
const ENOUGH: u64 = 10_000;
const ENOUGH_FOR_CHOICES: u64 = 50_000;

#[derive(Default)]
pub struct Seen {
    /// How often each refusal was seen; 0 counts accepted files.
    refusals: [u64; 15],
    /// The tags of the 16s that had a 39, in texts and in runs of anchors.
    in_texts: HashSet<Vec<u8>>,
    in_runs: HashSet<Vec<u8>>,
}

impl Seen {
    pub fn note(&mut self, checked: Result<(), Refusal>) {
        let number = checked.map_or_else(|refusal| refusal.number, |()| 0);
        self.refusals[usize::from(number)] += 1;
    }

    /// Notes the 16s of an accepted file.
    pub fn note_styles(&mut self, fields: &[Field]) {
        for field in fields {
            match field {
                Field::Inner(TEXT, parts) => self.in_texts.extend(underlined(parts)),
                Field::Inner(ANCHOR, runs) => {
                    let runs = runs.iter().map(field::inside);
                    self.in_runs.extend(runs.filter_map(underlined));
                }
                other => self.note_styles(field::inside(other)),
            }
        }
    }

    /// What did not come up in so many files, though it should have.
    pub fn missing(&self, files: u64) -> Option<String> {
        let never = |number: &u8| self.refusals[usize::from(*number)] == 0;
        let refusal = REFUSALS.into_iter().find(never);
        let few = self.choices().into_iter().find(|seen| *seen < CHOICES);
        match (refusal, few) {
            (Some(number), _) if files >= ENOUGH => {
                Some(format!("no file was refused by {number}"))
            }
            (_, Some(seen)) if files >= ENOUGH_FOR_CHOICES => Some(format!(
                "of {CHOICES} choices of styles only {seen} were underlined"
            )),
            _ => None,
        }
    }

    fn choices(&self) -> [usize; 2] {
        [&self.in_texts, &self.in_runs].map(HashSet::len)
    }

    pub fn words(&self) -> String {
        let numbers = REFUSALS.map(|n| format!("{n}: {}", self.refusals[usize::from(n)]));
        let [texts, runs] = self.choices();
        format!(
            "accepted {}, refused by {}; {texts} choices of styles underlined in texts, {runs} in anchors",
            self.refusals[0],
            numbers.join(", ")
        )
    }
}

/// The tags of an underlined text's style.
fn underlined(parts: &[Field]) -> Option<Vec<u8>> {
    let style = field::inside(parts.first()?);
    let tag = |field: &Field| match field {
        Field::Leaf(tag, _) => Some(*tag),
        Field::Inner(..) | Field::Loose(_) => None,
    };
    let has_39 = style.iter().any(is_39);
    has_39.then(|| style.iter().filter_map(tag).collect())
}
