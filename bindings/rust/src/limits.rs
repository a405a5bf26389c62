//! The limits of the format, as the proved library has them.

/// The most bytes that a file may have; a longer one is refused by 1.
pub const MOST_BYTES: usize = 60_000;

/// The widest layout, in columns; a wider one is refused by 2.
pub const MOST_COLUMNS: usize = 6_553;

/// The most bytes of a plain page for each byte of its file: a page of so many times the file's length is never refused by 10.
pub const PLAIN_PER_BYTE: usize = 67;

/// The most bytes of an HTML body or document for each byte of its file, beside [`HTML_FRAME`]: a page of so many times the file's length and
/// the frame is never refused by 10.
pub const HTML_PER_BYTE: usize = 236;

/// The bytes around the items of an HTML document, which is the document of an empty file; those of a body are fewer.
pub const HTML_FRAME: usize = 1_072;
