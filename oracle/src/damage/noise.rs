//! Files made of noise.

use crate::random::Random;

/// The tags of document 01 with some that it does not have.
pub const TAGS: [u8; 26] = [
    0, 1, 2, 3, 4, 5, 6, 7, 8, 9, 15, 16, 17, 18, 19, 20, 31, 32, 33, 35, 36, 37, 38, 39, 40, 255,
];

/// Bytes that often make fields.
const LIKELY: [u8; 25] = [
    0, 0, 0, 0, 0, 1, 1, 2, 3, 4, 5, 6, 7, 8, 16, 17, 18, 19, 32, 35, 36, 38, 39, b'a', 0x80,
];

/// A file of random bytes.
pub fn file(random: &mut Random) -> Vec<u8> {
    let length = random.pick(&[1, 2, 3, 4, 6, 9, 14, 30, 100]);
    let length = random.between(0, length);
    if random.one_in(3) {
        return (0..length).map(|_| random.byte()).collect();
    }
    (0..length).map(|_| random.pick(&LIKELY)).collect()
}
