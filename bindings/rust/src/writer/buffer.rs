//! What a writer writes into.

use crate::MOST_BYTES;

/// What a [`Writer`](super::Writer) writes into: a slice, `&mut [u8]`, or a vector that grows, `Vec<u8>`.
///
/// A function that writes a part of a file can take either:
///
/// ```
/// use hazomeny::{Buffer, Refusal, Style, Writer};
///
/// fn id(w: &mut Writer<impl Buffer>, letter: &str, number: u32) -> Result<usize, Refusal> {
///     w.anchor_use(format!("{letter}{number}"), |w| {
///         w.text(letter)?;
///         w.text(Style::new().subscript().apply(&number.to_string()))
///     })
/// }
///
/// let (mut room, mut grown) = ([0; 100], Writer::growing(Vec::new()));
/// let mut lent = Writer::new(&mut room);
/// assert_eq!(id(&mut lent, "T", 7), id(&mut grown, "T", 7));
/// assert_eq!(lent.finish()?, grown.finish()?);
/// # Ok::<(), hazomeny::Refusal>(())
/// ```
pub trait Buffer: sealed::Buffer {}

impl Buffer for &mut [u8] {}
impl Buffer for Vec<u8> {}

/// Out of callers' reach, so that only these two are buffers.
pub(super) mod sealed {
    pub trait Buffer {
        /// All bytes that may be written.
        fn room(&mut self) -> &mut [u8];

        /// Makes room for so many bytes and keeps those that are there, if it can.
        fn grow(&mut self, needed: usize) -> bool;
    }
}

impl sealed::Buffer for &mut [u8] {
    #[inline]
    fn room(&mut self) -> &mut [u8] {
        self
    }

    #[inline]
    fn grow(&mut self, _: usize) -> bool {
        false
    }
}

impl sealed::Buffer for Vec<u8> {
    #[inline]
    fn room(&mut self) -> &mut [u8] {
        self
    }

    /// To twice what it was or more, so that growing costs little in all; but to no more than a file can have.
    #[cold]
    fn grow(&mut self, needed: usize) -> bool {
        let room = (2 * self.len()).min(MOST_BYTES).max(needed);
        self.resize(room, 0);
        true
    }
}
