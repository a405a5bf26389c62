//! The C names of the proved library, which `include/hazomeny.h` describes but for `hazomeny_print`, and what their answers say.

use crate::Refusal;

extern "C" {
    pub fn hazomeny_check(file: *const u8, length: usize) -> u64;
    pub fn hazomeny_check_strict(file: *const u8, length: usize) -> u64;
    pub fn hazomeny_layout(file: *mut u8, length: usize, width: usize) -> u64;
    pub fn hazomeny_plain(file: *const u8, length: usize, page: *mut u8, room: usize) -> u64;
    pub fn hazomeny_print(
        file: *const u8,
        length: usize,
        width: usize,
        page: *mut u8,
        room: usize,
    ) -> u64;
    pub fn hazomeny_html_body(file: *const u8, length: usize, page: *mut u8, room: usize) -> u64;
    pub fn hazomeny_html_document(
        file: *const u8,
        length: usize,
        page: *mut u8,
        room: usize,
    ) -> u64;
    pub fn hazomeny_html_body_strict(
        file: *const u8,
        length: usize,
        page: *mut u8,
        room: usize,
    ) -> u64;
    pub fn hazomeny_html_document_strict(
        file: *const u8,
        length: usize,
        page: *mut u8,
        room: usize,
    ) -> u64;
    pub fn hazomeny_mask(file: *const u8, length: usize, page: *mut u8, room: usize) -> u64;
    pub fn hazomeny_pair(
        original: *const u8,
        length: usize,
        mask: *const u8,
        mask_length: usize,
        place: u32,
    ) -> u64;
    pub fn hazomeny_write(
        file: *mut u8,
        room: usize,
        state: *mut [u32; 2],
        step: u8,
        style: *const [u8; 18],
        text: *const u8,
        length: usize,
    ) -> u64;
}

/// Takes an answer's one number apart: the low byte is the refusal's number or 0, above it stands the count or the place.
#[inline]
pub fn answer(coded: u64) -> Result<usize, Refusal> {
    let above = (coded >> 8) as usize;
    match coded as u8 {
        0 => Ok(above),
        number => Err(Refusal {
            number,
            place: above,
        }),
    }
}
