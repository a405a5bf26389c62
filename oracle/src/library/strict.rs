//! The library's strict entries, by their C names.

use super::decoded;
use crate::answers::Answer;

extern "C" {
    fn hazomeny_check_strict(file: *const u8, length: usize) -> u64;

    fn hazomeny_html_body_strict(file: *const u8, length: usize, page: *mut u8, room: usize)
        -> u64;

    fn hazomeny_html_document_strict(
        file: *const u8,
        length: usize,
        page: *mut u8,
        room: usize,
    ) -> u64;
}

pub fn check(file: &[u8]) -> Answer {
    // SAFETY: the pointer and the length are those of one slice.
    decoded(unsafe { hazomeny_check_strict(file.as_ptr(), file.len()) })
}

pub fn body(file: &[u8], page: &mut [u8]) -> Answer {
    let (length, room) = (file.len(), page.len());
    // SAFETY: each pointer and length are those of one slice, and the two do not overlap.
    decoded(unsafe { hazomeny_html_body_strict(file.as_ptr(), length, page.as_mut_ptr(), room) })
}

pub fn document(file: &[u8], page: &mut [u8]) -> Answer {
    let (length, room) = (file.len(), page.len());
    let (file, page) = (file.as_ptr(), page.as_mut_ptr());
    // SAFETY: as for the body.
    decoded(unsafe { hazomeny_html_document_strict(file, length, page, room) })
}
