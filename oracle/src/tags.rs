//! The tag bytes of document 01 and its two limits on a file.

pub const TEXT: u8 = 1;
pub const ANCHOR: u8 = 2;
pub const INDENTED_BLOCK: u8 = 3;
pub const INLINE_OR_INDENTED_BLOCK: u8 = 4;
pub const BREAKING_ONLY_SPACE: u8 = 5;
pub const FORCE_LINE_SEPARATION: u8 = 6;
pub const IF_BLOCK_LAYOUT: u8 = 7;
pub const FRAGMENT: u8 = 8;

pub const STYLES: u8 = 16;
pub const TEXT_BYTES: u8 = 17;
pub const DEFINITION: u8 = 18;
pub const USE: u8 = 19;

pub const COLOUR: u8 = 32;
pub const OPACITY: u8 = 33;
pub const THICKNESS: u8 = 34;
pub const SIZE: u8 = 35;
pub const SUBSCRIPT: u8 = 36;
pub const SUPERSCRIPT: u8 = 37;
pub const DIM: u8 = 38;
pub const UNDERLINE: u8 = 39;

/// The fields of a 16, in the order in which they may stand. Whatever goes through all style tags reads this list.
pub const STYLE_TAGS: [u8; 8] = [
    COLOUR,
    OPACITY,
    THICKNESS,
    SIZE,
    SUBSCRIPT,
    SUPERSCRIPT,
    DIM,
    UNDERLINE,
];

/// The bytes of a field before its value.
pub const HEADER: usize = 3;

/// A longer file is refused by 1.
pub const LONGEST_FILE: usize = 60_000;

/// A block inside that many others is refused by 6.
pub const MOST_BLOCKS: usize = 32;

/// A layout at a larger width is refused by 2.
pub const LARGEST_WIDTH: u16 = 6_553;

/// A size above is refused by 8.
pub const LARGEST_SIZE: i8 = 117;

/// The bits of 1/1024 and of 1: the opacities allowed beside +0.
pub const LEAST_OPACITY: u32 = 0x3a80_0000;
pub const FULL_OPACITY: u32 = 0x3f80_0000;
