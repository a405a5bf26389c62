//! A file and its mask, read together: a reader gets a text from the one or from the other.

use crate::c::{self, answer};
use crate::Refusal;

/// The bytes of a field before its value: the tag, and the length in two.
const HEADER: usize = 3;

/// An original and its mask ([`mask_file`](crate::mask_file)). A mask keeps every place, so that a text stands at the same bytes of both: who has
/// the right to names reads it in the original, who has not in the mask.
///
/// ```
/// use hazomeny::Pair;
///
/// let original = b"\x01\0\x05\x11\0\x02ok";
/// let mut mask = Vec::new();
/// hazomeny::append_mask(original, &mut mask)?;
///
/// let pair = Pair::new(original, &mask);
/// assert_eq!(pair.check(3), Ok(2));
/// assert_eq!(pair.text(3, true), b"ok");
/// assert_eq!(pair.text(3, false), b"xx");
/// # Ok::<(), hazomeny::Refusal>(())
/// ```
///
/// The place of a text is that of the tag of the field with its bytes: a 17, which stands in a text (tag 1), or a 7, a text that shows only in a
/// broken block. `docs/FORMAT.md` has these numbers.
// It has no `Debug`, which would show the names to whoever reads a log.
#[derive(Clone, Copy)]
pub struct Pair<'a> {
    original: &'a [u8],
    mask: &'a [u8],
}

impl<'a> Pair<'a> {
    /// Two files. They are not looked at yet: [`Pair::check`] and [`Pair::text`] do that, each time.
    pub const fn new(original: &'a [u8], mask: &'a [u8]) -> Self {
        Self { original, mask }
    }

    /// The length of the text at a place, or the first of these refusals.
    ///
    /// | Refused by | Where |
    /// |---|---|
    /// | 1, 3 to 9 | the original is refused, as [`check_file`](crate::check_file) refuses it; then, the mask is |
    /// | [12](Refusal::NOT_THE_MASK) | the second file is not the mask of the first |
    /// | [13](Refusal::NO_TEXT) | no text's field begins at the place |
    ///
    /// ```
    /// use hazomeny::{Pair, Refusal};
    ///
    /// let original = b"\x01\0\x05\x11\0\x02ok";
    /// let refusal = Pair::new(original, original).check(3).unwrap_err();
    /// assert_eq!((refusal.number, refusal.place), (Refusal::NOT_THE_MASK, 6));
    ///
    /// let pair = Pair::new(original, b"\x01\0\x05\x11\0\x02xx");
    /// let refusal = pair.check(0).unwrap_err();
    /// assert_eq!((refusal.number, refusal.place), (Refusal::NO_TEXT, 0));
    /// ```
    pub fn check(&self, place: u32) -> Result<usize, Refusal> {
        let Self { original, mask } = self;
        // SAFETY: each pointer and length are those of one slice, which is only read, while it is borrowed; the entry has no other precondition.
        answer(unsafe {
            c::hazomeny_pair(
                original.as_ptr(),
                original.len(),
                mask.as_ptr(),
                mask.len(),
                place,
            )
        })
    }

    /// The text at a place, for a reader with the right to names, or without it. It is no copy, but a part of the original, or of the mask; it is
    /// empty where [`Pair::check`] refuses.
    ///
    /// ```
    /// use hazomeny::Pair;
    ///
    /// // a text that shows only in a broken block
    /// let pair = Pair::new(b"\x07\0\x03b,\n", b"\x07\0\x03xx\n");
    /// assert_eq!(pair.text(0, true), b"b,\n");
    /// assert_eq!(pair.text(0, false), b"xx\n");
    /// assert_eq!(pair.text(1, true), b"");
    /// ```
    pub fn text(&self, place: u32, names: bool) -> &'a [u8] {
        let Ok(length) = self.check(place) else {
            return &[];
        };
        let from = place as usize + HEADER;
        let file = match names {
            true => self.original,
            false => self.mask,
        };
        &file[from..from + length]
    }
}
