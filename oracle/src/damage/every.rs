//! Small files of which none is left out: all short ones over a few bytes, and a text in every choice of styles.

use crate::field::{self, leaf, Field};
use crate::tags::*;

/// All of them.
pub fn files() -> impl Iterator<Item = Vec<u8>> {
    short().chain(styled().map(|styles| field::encode(&[field::styled(styles, b"s")])))
}

/// All files of up to four bytes that often matter, and of up to seven over
/// those that spell whole texts and blocks.
fn short() -> impl Iterator<Item = Vec<u8>> {
    const MANY: [u8; 12] = [0, 1, 2, 3, 4, 5, 7, 8, 16, 17, 18, 0x80];
    const FEW: [u8; 4] = [0, 1, 4, 17];
    over(&MANY, 4).chain(over(&FEW, 7))
}

/// All files over the alphabet of at most so many bytes, the shorter first.
fn over(alphabet: &[u8], longest: usize) -> impl Iterator<Item = Vec<u8>> + '_ {
    (0..=longest).flat_map(move |length| {
        let files = alphabet.len().pow(length as u32);
        (0..files).map(move |number| spelled(alphabet, length, number))
    })
}

/// The file that the number spells with the alphabet's bytes as digits.
fn spelled(alphabet: &[u8], length: usize, mut number: usize) -> Vec<u8> {
    let mut file = vec![0; length];
    for byte in file.iter_mut().rev() {
        *byte = alphabet[number % alphabet.len()];
        number /= alphabet.len();
    }
    file
}

/// Every choice of style fields in their order, and every two fields in any order, each as it should be or a byte longer, with a tag before the
/// first and one behind the last.
fn styled() -> impl Iterator<Item = Vec<Field>> {
    let chosen = |choice: u32| {
        let numbered = STYLE_TAGS.into_iter().enumerate();
        let chosen = numbered.filter(move |(bit, _)| choice & 1 << bit != 0);
        chosen.map(|(_, tag)| leaf(tag, value(tag))).collect()
    };
    let last = STYLE_TAGS[STYLE_TAGS.len() - 1];
    let one = (COLOUR - 1..=last + 1).flat_map(|tag| {
        let longer = [value(tag), vec![0]].concat();
        [value(tag), longer].map(|value| leaf(tag, value))
    });
    let two = one.clone().flat_map(move |first| {
        let second = one.clone();
        second.map(move |second| vec![first.clone(), second])
    });
    (0..1 << STYLE_TAGS.len()).map(chosen).chain(two)
}

/// A value that is allowed.
fn value(tag: u8) -> Vec<u8> {
    match tag {
        COLOUR => vec![10, 11, 207],
        OPACITY => LEAST_OPACITY.to_be_bytes().to_vec(),
        THICKNESS | SIZE => vec![3],
        _ => Vec::new(),
    }
}
