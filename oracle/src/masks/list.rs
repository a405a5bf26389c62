//! The one list of page bytes that gives the page of a file and of every mask of it.

use super::mask;

/// Where a byte of a page comes from.
#[derive(Clone, Copy)]
pub enum Byte {
    Made(u8),
    /// Copied from this place of the file.
    Copied(usize),
}

impl Byte {
    fn of(self, file: &[u8]) -> u8 {
        match self {
            Self::Made(byte) => byte,
            Self::Copied(place) => file[place],
        }
    }
}

/// The list that the pages of the marks tell, which are all of one length; or
/// the first position at which they tell none: a byte is made if it is the same
/// for all marks, and else has to be copied from a place that a mask may change.
pub fn told(pages: &[&[u8]], changeable: &[usize]) -> Result<Vec<Byte>, usize> {
    let length = pages.first().map_or(0, |page| page.len());
    let byte = |position: usize| {
        let first = pages[0][position];
        if pages.iter().all(|page| page[position] == first) {
            return Ok(Byte::Made(first));
        }
        let letters: Vec<u8> = pages.iter().map(|page| page[position]).collect();
        let place = mask::place(&letters).ok_or(position)?;
        changeable.binary_search(&place).map_err(|_| position)?;
        Ok(Byte::Copied(place))
    };
    (0..length).map(byte).collect()
}

/// The first position at which the list does not give the page of the file.
pub fn misses(list: &[Byte], file: &[u8], page: &[u8]) -> Option<usize> {
    let mut bytes = list.iter().zip(page);
    bytes.position(|(byte, shown)| byte.of(file) != *shown)
}
