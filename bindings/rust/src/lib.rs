//! A printer of shader listings that is proved, not only tested, to do what its rules say.
//!
//! It lays a fragment file out at a width, in place, and prints it as a plain page or as HTML; it masks the texts of a file and reads the two
//! together ([`Pair`]); and it writes such files, step by step ([`Writer`]). Every function is total and terminates, for any file, width, page
//! buffer, place and step. What it does not accept it refuses by number and place ([`Refusal`]); a refusal changes no byte. `docs/FORMAT.md` of the
//! repository describes the file format, the layout, the pages, masks, the writer and the refusals.
//!
//! ```
//! // `f(a, b)`: entries between a prefix and a suffix, on lines of their own where they do not fit
//! let mut w = hazomeny::Writer::growing(Vec::new());
//! w.join_comma_sep("f(", ")", |arguments| {
//!     arguments.entry(|w| w.text("a"))?;
//!     arguments.entry(|w| w.text("b"))
//! })?;
//! let mut file = w.finish()?;
//!
//! assert_eq!(hazomeny::layout_file(&mut file, 7)?, 0);
//! assert_eq!(hazomeny::layout_file(&mut file, 6)?, 1);
//!
//! let mut page = Vec::new();
//! hazomeny::append_plain_page(&file, &mut page)?;
//! assert_eq!(page, b"f(\n  a,\n  b,\n)");
//! # Ok::<(), hazomeny::Refusal>(())
//! ```
//!
//! A plain page has at most [`PLAIN_PER_BYTE`] bytes for each byte of its file, so that a slice of that length is never too short for
//! [`plain_page`]; an HTML body or document has at most [`HTML_PER_BYTE`] for each, and [`HTML_FRAME`] bytes around them.
//!
//! In a browser a CR of a text turns into a newline, and a NUL is dropped. Strict HTML ([`html_body_strict`], [`html_document_strict`]) gives every
//! text back byte for byte: it writes a CR as `&#13;`, and refuses a NUL.
//!
//! The code behind these functions is a static library, `libhazomeny.a`, for x86-64 Linux. It uses no memory but the stack (under
//! 16 KiB of it), keeps no state, and may be called from any number of threads.

#![deny(missing_docs)]
#![deny(unsafe_op_in_unsafe_fn)]

mod c;
mod entries;
mod limits;
mod pair;
mod refusal;
mod step;
mod strict;
mod style;
mod writer;

#[doc(hidden)]
pub use entries::append_page_at;
pub use entries::{append_html_body, append_html_document, append_mask, append_plain_page};
pub use entries::{check_file, html_body, html_document, layout_file, mask_file, plain_page};
pub use limits::{HTML_FRAME, HTML_PER_BYTE, MOST_BYTES, MOST_COLUMNS, PLAIN_PER_BYTE};
pub use pair::Pair;
pub use refusal::Refusal;
pub use strict::{append_html_body_strict, append_html_document_strict};
pub use strict::{check_file_strict, html_body_strict, html_document_strict};
pub use style::{Style, Text};
pub use writer::{Buffer, Entries, Writer};
