//! Strict HTML, whose texts a browser gives back byte for byte, and its file check.

use crate::c::{self, answer};
use crate::entries::{append, lend, most_html};
use crate::Refusal;

/// The file check of strict HTML: as [`check_file`](crate::check_file), but a NUL in a text is refused by
/// [`Refusal::NUL_IN_TEXT`], at the text's field.
///
/// ```
/// let file = b"\x01\0\x05\x11\0\x02a\0";
/// assert_eq!(hazomeny::check_file(file), Ok(0));
/// let refusal = hazomeny::check_file_strict(file).unwrap_err();
/// assert_eq!((refusal.number, refusal.place), (14, 3));
/// ```
pub fn check_file_strict(file: &[u8]) -> Result<usize, Refusal> {
    // SAFETY: as for `check_file`.
    answer(unsafe { c::hazomeny_check_strict(file.as_ptr(), file.len()) })
}

/// Writes the strict HTML body of a file: a CR in a text is `&#13;`, which a browser does not turn into a newline, and a NUL is refused, which it
/// would drop. Otherwise as [`html_body`](crate::html_body), and where no text has a CR the same body.
///
/// ```
/// let file = b"\x01\0\x06\x11\0\x03a\rb";
/// let mut page = [0; 100];
/// let length = hazomeny::html_body_strict(file, &mut page)?;
/// assert!(page[..length].ends_with(b"\">\na&#13;b</pre>"));
/// let length = hazomeny::html_body(file, &mut page)?;
/// assert!(page[..length].ends_with(b"\">\na\rb</pre>"));
/// # Ok::<(), hazomeny::Refusal>(())
/// ```
pub fn html_body_strict(file: &[u8], page: &mut [u8]) -> Result<usize, Refusal> {
    lend(c::hazomeny_html_body_strict, file, page)
}

/// Writes the whole HTML document of a file with its strict body; otherwise as [`html_body_strict`].
///
/// ```
/// let mut page = [0; 2000];
/// let length = hazomeny::html_document_strict(b"\x01\0\x05\x11\0\x02\r\n", &mut page)?;
/// assert!(page[..length].ends_with(b"\n&#13;\n</pre></body>\n</html>\n"));
/// # Ok::<(), hazomeny::Refusal>(())
/// ```
pub fn html_document_strict(file: &[u8], page: &mut [u8]) -> Result<usize, Refusal> {
    lend(c::hazomeny_html_document_strict, file, page)
}

/// Appends the strict HTML body of a file; otherwise as [`append_html_body`](crate::append_html_body).
///
/// ```
/// let mut page = b"<body>".to_vec();
/// hazomeny::append_html_body_strict(b"\x01\0\x04\x11\0\x01\r", &mut page)?;
/// assert!(page.starts_with(b"<body><pre ") && page.ends_with(b"\n&#13;</pre>"));
/// # Ok::<(), hazomeny::Refusal>(())
/// ```
pub fn append_html_body_strict(file: &[u8], page: &mut Vec<u8>) -> Result<usize, Refusal> {
    append(c::hazomeny_html_body_strict, most_html(file), file, page)
}

/// Appends the HTML document of a file with its strict body; otherwise as [`append_html_body_strict`].
///
/// ```
/// let mut page = Vec::new();
/// let length = hazomeny::append_html_document_strict(b"", &mut page)?;
/// assert_eq!(page.len(), length);
/// let refusal = hazomeny::append_html_document_strict(b"\x07\0\x01\0", &mut page).unwrap_err();
/// assert_eq!(refusal.to_string(), "refused 14 at 0: NUL in a text");
/// assert_eq!(page.len(), length);
/// # Ok::<(), hazomeny::Refusal>(())
/// ```
pub fn append_html_document_strict(file: &[u8], page: &mut Vec<u8>) -> Result<usize, Refusal> {
    append(
        c::hazomeny_html_document_strict,
        most_html(file),
        file,
        page,
    )
}
