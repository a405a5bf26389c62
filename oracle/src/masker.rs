//! What masks files and reads pairs, under test, and what it is asked.

use crate::answers::Asked;
use crate::hex::hex;
use crate::pair;
use crate::subject::{Oneself, Said};
use crate::wire;

#[derive(Clone, Copy)]
pub enum Question<'a> {
    /// The mask of a file, into a page of so many bytes.
    Mask { file: &'a [u8], room: usize },
    /// What strict mode says of a file, or of a mask, which has no NUL and no CR in a text.
    Strict(Asked<'a>),
    /// The length of the text whose field begins at the place, if the second file is the mask of the original.
    Pair {
        original: &'a [u8],
        second: &'a [u8],
        place: u32,
    },
}

impl Question<'_> {
    /// How many bytes the files have.
    pub fn bytes(self) -> usize {
        match self {
            Self::Mask { file, .. } | Self::Strict(Asked { file, .. }) => file.len(),
            Self::Pair {
                original, second, ..
            } => original.len() + second.len(),
        }
    }

    pub fn words(self) -> String {
        match self {
            Self::Mask { file, room } => {
                format!("mask into {room} bytes, file {}", file_words(file))
            }
            Self::Strict(asked) => wire::request_words(&asked.to_request()),
            Self::Pair {
                original,
                second,
                place,
            } => {
                let [original, second] = [original, second].map(file_words);
                format!("pair at place {place}, original {original}, second file {second}")
            }
        }
    }
}

fn file_words(file: &[u8]) -> String {
    format!("of {} bytes:\n  {}", file.len(), hex(file))
}

pub trait Masker {
    /// What it says, with every byte of the page that it was lent for a mask. An error tells of something that it touched beside the page.
    fn say(&mut self, question: Question) -> Said;
}

/// The judge itself.
impl Masker for Oneself {
    fn say(&mut self, question: Question) -> Said {
        Ok(pair::answer(question))
    }
}
