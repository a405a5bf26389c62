//! The entries on slices, and the three pages and a mask appended to a vector.

use crate::c::{self, answer};
use crate::{Refusal, HTML_FRAME, HTML_PER_BYTE, MOST_BYTES, PLAIN_PER_BYTE};

/// The file check: `Ok(0)`, or the first fault.
///
/// ```
/// assert_eq!(hazomeny::check_file(b""), Ok(0));
/// let refusal = hazomeny::check_file(b"\x63").unwrap_err();
/// assert_eq!((refusal.number, refusal.place), (3, 0));
/// ```
pub fn check_file(file: &[u8]) -> Result<usize, Refusal> {
    // SAFETY: the pointer and the length are those of one slice, which is only read, while it is borrowed; the entry has no other precondition.
    answer(unsafe { c::hazomeny_check(file.as_ptr(), file.len()) })
}

/// Lays the file out at a width in columns, in place, and says how many tags it changed (from 4, inline or indented, to 3, indented).
///
/// ```
/// let mut file = *b"\x04\0\x0a\x08\0\x07\x01\0\x04\x11\0\x01x";
/// assert_eq!(hazomeny::layout_file(&mut file, 1), Ok(0));
/// assert_eq!(hazomeny::layout_file(&mut file, 0), Ok(1));
/// assert_eq!(file[0], 3);
/// ```
pub fn layout_file(file: &mut [u8], width: usize) -> Result<usize, Refusal> {
    // SAFETY: as for `check_file`; the slice is lent for writing, and nobody else has it meanwhile.
    answer(unsafe { c::hazomeny_layout(file.as_mut_ptr(), file.len(), width) })
}

/// Writes the plain page of a file, laid out or not, to the start of `page` and says how long it is; later bytes stay.
///
/// A page that does not fit is refused with the bytes needed, so that an empty slice measures.
///
/// ```
/// let file = b"\x01\0\x05\x11\0\x02ok";
/// let refusal = hazomeny::plain_page(file, &mut []).unwrap_err();
/// assert_eq!(refusal.bytes_needed(), Some(2));
/// let mut page = *b"....";
/// assert_eq!(hazomeny::plain_page(file, &mut page), Ok(2));
/// assert_eq!(&page, b"ok..");
/// ```
///
/// A slice of [`PLAIN_PER_BYTE`](crate::PLAIN_PER_BYTE) times the file's length is long enough for every file: that is proved, and with it
/// refusal 10 never comes.
///
/// ```
/// use hazomeny::PLAIN_PER_BYTE;
///
/// // two blocks, each of which indents a text of 20 lines
/// let field = |tag: u8, value: &[u8]| [&[tag, 0, value.len() as u8], value].concat();
/// let text = field(1, &field(17, &b"a\n".repeat(20)));
/// let file = field(3, &field(8, &field(3, &field(8, &text))));
///
/// let mut page = vec![0; PLAIN_PER_BYTE * file.len()];
/// let length = hazomeny::plain_page(&file, &mut page)?;
/// assert_eq!(page[..length], *b"    a\n".repeat(20));
/// assert!(length > file.len());
/// # Ok::<(), hazomeny::Refusal>(())
/// ```
pub fn plain_page(file: &[u8], page: &mut [u8]) -> Result<usize, Refusal> {
    lend(c::hazomeny_plain, file, page)
}

/// Writes the HTML body of a file, one `pre` element; otherwise as [`plain_page`].
///
/// ```
/// let mut page = [0; 100];
/// let length = hazomeny::html_body(b"\x01\0\x04\x11\0\x01<", &mut page)?;
/// assert!(page[..length].starts_with(b"<pre class=\"spirt-"));
/// assert!(page[..length].ends_with(b"\">\n&lt;</pre>"));
/// # Ok::<(), hazomeny::Refusal>(())
/// ```
///
/// A slice of [`HTML_PER_BYTE`](crate::HTML_PER_BYTE) times the file's length and [`HTML_FRAME`](crate::HTML_FRAME) bytes more is long enough for
/// every file, which is proved.
///
/// ```
/// use hazomeny::{HTML_FRAME, HTML_PER_BYTE};
///
/// let file = b"\x01\0\x08\x11\0\x05&&&&&";
/// let mut page = vec![0; HTML_PER_BYTE * file.len() + HTML_FRAME];
/// let length = hazomeny::html_body(file, &mut page)?;
/// assert!(page[..length].ends_with(b"\n&amp;&amp;&amp;&amp;&amp;</pre>"));
/// # Ok::<(), hazomeny::Refusal>(())
/// ```
pub fn html_body(file: &[u8], page: &mut [u8]) -> Result<usize, Refusal> {
    lend(c::hazomeny_html_body, file, page)
}

/// Writes the whole HTML document of a file; otherwise as [`html_body`].
///
/// ```
/// let mut page = [0; 2000];
/// let length = hazomeny::html_document(b"\x01\0\x05\x11\0\x02ok", &mut page)?;
/// assert!(page[..length].starts_with(b"<!doctype html>\n"));
/// assert!(page[..length].ends_with(b"\nok</pre></body>\n</html>\n"));
/// # Ok::<(), hazomeny::Refusal>(())
/// ```
pub fn html_document(file: &[u8], page: &mut [u8]) -> Result<usize, Refusal> {
    lend(c::hazomeny_html_document, file, page)
}

/// Appends the plain page of a file to `page`, which grows as needed, and says how many bytes it added. A refusal leaves `page`'s bytes as they
/// were.
///
/// It makes room for the longest page that such a file can have, [`PLAIN_PER_BYTE`](crate::PLAIN_PER_BYTE) times its length, so that the page
/// is written without being measured. A vector that had no room before keeps no more than the page takes; another keeps what it has grown to,
/// for the next page.
///
/// ```
/// let mut page = b"> ".to_vec();
/// assert_eq!(hazomeny::append_plain_page(b"\x01\0\x05\x11\0\x02ok", &mut page), Ok(2));
/// assert_eq!(page, b"> ok");
/// ```
pub fn append_plain_page(file: &[u8], page: &mut Vec<u8>) -> Result<usize, Refusal> {
    append(c::hazomeny_plain, most_plain(file), file, page)
}

/// Appends the HTML body of a file; otherwise as [`append_plain_page`], with room for [`HTML_PER_BYTE`](crate::HTML_PER_BYTE) times the file's
/// length and [`HTML_FRAME`](crate::HTML_FRAME).
///
/// ```
/// let mut page = b"<body>".to_vec();
/// hazomeny::append_html_body(b"", &mut page)?;
/// assert!(page.starts_with(b"<body><pre "));
/// # Ok::<(), hazomeny::Refusal>(())
/// ```
pub fn append_html_body(file: &[u8], page: &mut Vec<u8>) -> Result<usize, Refusal> {
    append(c::hazomeny_html_body, most_html(file), file, page)
}

/// Appends the HTML document of a file; otherwise as [`append_html_body`].
///
/// ```
/// let mut page = Vec::new();
/// let length = hazomeny::append_html_document(b"", &mut page)?;
/// assert_eq!(page.len(), length);
/// assert!(page.starts_with(b"<!doctype html>\n"));
/// # Ok::<(), hazomeny::Refusal>(())
/// ```
pub fn append_html_document(file: &[u8], page: &mut Vec<u8>) -> Result<usize, Refusal> {
    append(c::hazomeny_html_document, most_html(file), file, page)
}

/// Writes the mask of a file to the start of `page` and says how long it is, which is as long as the file; later bytes stay.
///
/// A mask is the same file, but each byte of its texts that is no newline is `x`. All else is copied, the names of anchors too. It is accepted as
/// the file is, and its pages break into the same lines. A [`Pair`](crate::Pair) reads the two together.
///
/// A slice that is shorter than the file is refused with the bytes needed.
///
/// ```
/// let file = b"\x01\0\x08\x11\0\x05a\xc3\xa9\nb";
/// let mut mask = [0; 11];
/// assert_eq!(hazomeny::mask_file(file, &mut mask), Ok(11));
/// assert_eq!(&mask, b"\x01\0\x08\x11\0\x05xxx\nx");
/// let refusal = hazomeny::mask_file(file, &mut mask[..10]).unwrap_err();
/// assert_eq!(refusal.bytes_needed(), Some(11));
/// ```
pub fn mask_file(file: &[u8], page: &mut [u8]) -> Result<usize, Refusal> {
    lend(c::hazomeny_mask, file, page)
}

/// Appends the mask of a file to `page`, which grows as needed, and says how many bytes it added, which is the file's length; otherwise as
/// [`mask_file`]. A refusal leaves `page`'s bytes as they were.
///
/// ```
/// let mut mask = Vec::new();
/// assert_eq!(hazomeny::append_mask(b"\x01\0\x05\x11\0\x02ok", &mut mask), Ok(8));
/// assert_eq!(mask, b"\x01\0\x05\x11\0\x02xx");
/// ```
pub fn append_mask(file: &[u8], page: &mut Vec<u8>) -> Result<usize, Refusal> {
    append(c::hazomeny_mask, counted(file), file, page)
}

/// Appends the plain page of a file at a width, which is [`layout_file`] on a copy of the file and [`append_plain_page`] of that in one call that
/// only reads the file. It is for the command and the benchmark: such an entry, with the choices for each block, is still to come.
#[doc(hidden)]
pub fn append_page_at(file: &[u8], width: usize, page: &mut Vec<u8>) -> Result<usize, Refusal> {
    append_by(most_plain(file), page, |start, room| {
        // SAFETY: as in `append`.
        unsafe { c::hazomeny_print(file.as_ptr(), file.len(), width, start, room) }
    })
}

/// An entry that writes to a page, by its C name.
pub(crate) type PageEntry = unsafe extern "C" fn(*const u8, usize, *mut u8, usize) -> u64;

/// Has a page written to a slice.
pub(crate) fn lend(entry: PageEntry, file: &[u8], page: &mut [u8]) -> Result<usize, Refusal> {
    // SAFETY: each pointer and length are those of one slice; the file is only read, the page is lent for writing, and the two do not
    // overlap, since the page is borrowed alone.
    answer(unsafe { entry(file.as_ptr(), file.len(), page.as_mut_ptr(), page.len()) })
}

/// The bytes of a file that a page can come from: a longer file has none.
fn counted(file: &[u8]) -> usize {
    file.len().min(MOST_BYTES)
}

fn most_plain(file: &[u8]) -> usize {
    PLAIN_PER_BYTE * counted(file)
}

/// Room for every HTML page of a file of this length, strict or not.
pub(crate) fn most_html(file: &[u8]) -> usize {
    HTML_PER_BYTE * counted(file) + HTML_FRAME
}

/// Has a page of a file written behind what a vector holds.
pub(crate) fn append(
    entry: PageEntry,
    most: usize,
    file: &[u8],
    page: &mut Vec<u8>,
) -> Result<usize, Refusal> {
    append_by(most, page, |start, room| {
        // SAFETY: as in `lend`. What is lent is not initialised and need not be: an entry only writes to a page.
        unsafe { entry(file.as_ptr(), file.len(), start, room) }
    })
}

/// Makes room for the most bytes that a page can have. Where a vector that had no room before has some left, its bytes are copied out of it: to
/// shrink it costs the allocator more, which keeps a large mapping for a small page and makes the next one anew.
fn append_by(
    most: usize,
    page: &mut Vec<u8>,
    entry: impl FnOnce(*mut u8, usize) -> u64,
) -> Result<usize, Refusal> {
    let had_none = page.capacity() == 0;
    page.reserve(most);
    let said = append_to_spare(page, entry);
    if had_none && page.len() < page.capacity() {
        *page = page.as_slice().to_vec();
    }
    said
}

/// Lends the vector's room as it is, since clearing it would cost more than a small page in a large vector.
fn append_to_spare(
    page: &mut Vec<u8>,
    entry: impl FnOnce(*mut u8, usize) -> u64,
) -> Result<usize, Refusal> {
    let spare = page.spare_capacity_mut();
    let added = answer(entry(spare.as_mut_ptr().cast(), spare.len()))?;
    // SAFETY: an accepted page is at most as long as the room that was lent, and all its bytes are written.
    unsafe { page.set_len(page.len() + added) };
    Ok(added)
}
