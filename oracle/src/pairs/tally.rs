//! What a run went through: every refusal of both names has to come up in a long one.

use crate::answers::Answer;
use crate::masker::Question;

/// How often each refusal was answered; 0 counts what was accepted.
#[derive(Default)]
struct Answers([u64; 15]);

/// The refusals that a mask has, those that a pair has, and those of the strict check.
const OF_MASKS: [usize; 9] = [1, 3, 4, 5, 6, 7, 8, 9, 10];
const OF_PAIRS: [usize; 10] = [1, 3, 4, 5, 6, 7, 8, 9, 12, 13];
const OF_STRICT: [usize; 9] = [1, 3, 4, 5, 6, 7, 8, 9, 14];

#[derive(Default)]
pub struct Tally {
    pub files: u64,
    masks: Answers,
    pairs: Answers,
    strict: Answers,
}

impl Answers {
    fn note(&mut self, answer: Answer) {
        let number = match answer {
            Answer::Accepted(_) => 0,
            Answer::Refused { number, .. } => number,
        };
        self.0[usize::from(number)] += 1;
    }

    fn words(&self, refusals: &[usize]) -> String {
        let refused: Vec<String> = refusals
            .iter()
            .map(|number| format!("{number}: {}", self.0[*number]))
            .collect();
        let (all, accepted) = (self.0.iter().sum::<u64>(), self.0[0]);
        format!(
            "{all}, accepted {accepted}, refused by {}",
            refused.join(", ")
        )
    }
}

impl Tally {
    pub fn note(&mut self, question: Question, answer: Answer) {
        match question {
            Question::Mask { .. } => self.masks.note(answer),
            Question::Pair { .. } => self.pairs.note(answer),
            Question::Strict(_) => self.strict.note(answer),
        }
    }

    /// A refusal that was never right.
    pub fn missing(&self) -> Option<usize> {
        let never = |answers: &Answers, numbers: &[usize]| {
            let mut numbers = numbers.iter().copied();
            numbers.find(|number| answers.0[*number] == 0)
        };
        never(&self.masks, &OF_MASKS)
            .or_else(|| never(&self.pairs, &OF_PAIRS))
            .or_else(|| never(&self.strict, &OF_STRICT))
    }

    pub fn words(&self) -> String {
        let (files, masks, pairs, strict) = (
            self.files,
            self.masks.words(&OF_MASKS),
            self.pairs.words(&OF_PAIRS),
            self.strict.words(&OF_STRICT),
        );
        format!(
            "{files} files; masks asked for {masks}; pairs asked for {pairs}; \
             strict checks and bodies asked for {strict}"
        )
    }
}
