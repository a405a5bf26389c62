//! What the command makes of a fragment file, by the proved library: a page at a width, or its mask.

use crate::page::Kind;
use hazomeny::{append_mask, Refusal};

#[derive(Clone, Copy)]
pub enum Product {
    /// The width is in columns.
    Page(Kind, usize),
    Mask,
}

impl Product {
    /// Has it made of the file, which is laid out for a page.
    pub fn of(self, file: &mut [u8]) -> Result<Vec<u8>, Refusal> {
        match self {
            Self::Page(kind, width) => kind.of(file, width),
            Self::Mask => {
                let mut mask = Vec::new();
                append_mask(file, &mut mask)?;
                Ok(mask)
            }
        }
    }

    /// What the names of such files end in.
    pub fn extension(self) -> &'static str {
        match self {
            Self::Page(kind, _) => kind.extension(),
            Self::Mask => "fragment",
        }
    }

    /// What they are called.
    pub fn name(self) -> &'static str {
        match self {
            Self::Page(..) => "pages",
            Self::Mask => "masks",
        }
    }

    /// What is done to a file that gives one.
    pub fn done(self) -> &'static str {
        match self {
            Self::Page(..) => "printed",
            Self::Mask => "masked",
        }
    }
}
