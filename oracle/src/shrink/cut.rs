//! What may be done to one field of a failing file.

use crate::field::{self, Field};

#[derive(Clone, Copy)]
pub enum Cut {
    /// Drops what stands after it, beside it.
    After,
    /// Drops it and what stands before it.
    UpTo,
    /// Drops it and up to fifteen fields after it.
    Run,
    /// Drops it.
    Itself,
    /// Puts what its inner fields hold in its place.
    OpenTwice,
    /// Puts its inner fields in its place.
    Open,
    /// The same without the first, such as an anchor's name.
    OpenRest,
    /// Keeps half of its bytes.
    FirstHalf,
    SecondHalf,
    /// Drops a part of its bytes, at the end or in front.
    Eighth,
    SixtyFourth,
    FirstByte,
    LastByte,
    /// Drops a whole character, so that a text stays UTF-8.
    FirstCharacter,
    LastCharacter,
    /// Makes its bytes all alike.
    Dull,
}

pub const CUTS: [Cut; 16] = [
    Cut::After,
    Cut::UpTo,
    Cut::Run,
    Cut::Itself,
    Cut::OpenTwice,
    Cut::Open,
    Cut::OpenRest,
    Cut::FirstHalf,
    Cut::SecondHalf,
    Cut::Eighth,
    Cut::SixtyFourth,
    Cut::FirstByte,
    Cut::LastByte,
    Cut::FirstCharacter,
    Cut::LastCharacter,
    Cut::Dull,
];

impl Cut {
    /// Does it to the field of the list with this index.
    pub fn make(self, list: &mut Vec<Field>, index: usize) {
        match self {
            Self::After => list.truncate(index + 1),
            Self::UpTo => drop(list.drain(..=index)),
            Self::Run => drop(list.drain(index..list.len().min(index + 16))),
            Self::Itself => drop(list.remove(index)),
            Self::OpenTwice => {
                let inside = field::inside(&list[index]).iter();
                let nodes: Vec<Field> = inside.flat_map(field::inside).cloned().collect();
                list.splice(index..=index, nodes);
            }
            Self::Open | Self::OpenRest => {
                let skipped = usize::from(matches!(self, Self::OpenRest));
                let inside = field::inside(&list[index]).iter();
                let nodes: Vec<Field> = inside.skip(skipped).cloned().collect();
                list.splice(index..=index, nodes);
            }
            _ => {
                if let Field::Leaf(_, value) | Field::Loose(value) = &mut list[index] {
                    self.shorten(value);
                }
            }
        }
    }

    fn shorten(self, value: &mut Vec<u8>) {
        let length = value.len();
        match self {
            Self::FirstHalf => value.truncate(length / 2),
            Self::SecondHalf => drop(value.drain(..length / 2)),
            Self::Eighth => value.truncate(length - length / 8),
            Self::SixtyFourth => value.truncate(length - length / 64),
            Self::FirstByte => drop(value.drain(..length.min(1))),
            Self::LastByte => value.truncate(length.saturating_sub(1)),
            Self::FirstCharacter => {
                let next = value.iter().skip(1).position(begins_character);
                drop(value.drain(..next.map_or(length, |next| next + 1)));
            }
            Self::LastCharacter => {
                let last = value.iter().rposition(begins_character);
                value.truncate(last.unwrap_or(0));
            }
            _ => value.fill(b'a'),
        }
    }
}

/// Whether the byte is none of those that continue a character.
fn begins_character(byte: &u8) -> bool {
    byte & 0xc0 != 0x80
}
