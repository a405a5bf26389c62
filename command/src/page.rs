//! A page of a fragment file at a width, by the proved library.

use hazomeny::{append_html_body, append_html_document, append_page_at};
use hazomeny::{append_html_body_strict, append_html_document_strict};
use hazomeny::{check_file_strict, layout_file, Refusal};
use hazomeny::{HTML_FRAME, HTML_PER_BYTE, PLAIN_PER_BYTE};

/// An entry of the library that appends a page of a file.
type Append = fn(&[u8], &mut Vec<u8>) -> Result<usize, Refusal>;

#[derive(Clone, Copy)]
pub enum Kind {
    Plain,
    Body,
    Document,
    StrictBody,
    StrictDocument,
}

impl Kind {
    /// What the names of such pages end in.
    pub fn extension(self) -> &'static str {
        match self {
            Self::Plain => "txt",
            _ => "html",
        }
    }

    /// Room for every page of a file of so many bytes: there a page need not be measured first.
    fn room(self, length: usize) -> usize {
        match self {
            Self::Plain => PLAIN_PER_BYTE * length,
            _ => HTML_PER_BYTE * length + HTML_FRAME,
        }
    }

    /// Has the file's page at a width made. For HTML the file is laid out; where layout takes a file whose strict page is refused, it stays so.
    pub fn of(self, file: &mut [u8], width: usize) -> Result<Vec<u8>, Refusal> {
        let mut page = Vec::with_capacity(self.room(file.len()));
        match self {
            Self::Plain => append_page_at(file, width, &mut page),
            Self::Body => self.html(append_html_body, file, width, &mut page),
            Self::Document => self.html(append_html_document, file, width, &mut page),
            Self::StrictBody => self.html(append_html_body_strict, file, width, &mut page),
            Self::StrictDocument => self.html(append_html_document_strict, file, width, &mut page),
        }?;
        Ok(page)
    }

    fn html(
        self,
        append: Append,
        file: &mut [u8],
        width: usize,
        page: &mut Vec<u8>,
    ) -> Result<usize, Refusal> {
        layout_file(file, width).map_err(|refusal| self.first_fault(refusal, file))?;
        append(file, page)
    }

    /// Layout takes a NUL, so that before the fault that it found in the walk a strict page may have one of its own.
    fn first_fault(self, found: Refusal, file: &[u8]) -> Refusal {
        match (self, found.number) {
            (Self::StrictBody | Self::StrictDocument, 3..=9) => {
                check_file_strict(file).err().unwrap_or(found)
            }
            _ => found,
        }
    }
}
