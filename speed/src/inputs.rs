//! The files that are timed: six kinds, each in three sizes. None has a 39, since the original has no underline.

use oracle::field::{self, Field};
use oracle::generate::{self, styles};
use oracle::random::Random;
use oracle::tags::*;

/// The sizes that files are made up to; the last is the most that a file can have.
pub const SIZES: [usize; 3] = [1_000, 10_000, LONGEST_FILE];

/// A file to time.
pub struct Input {
    pub kind: &'static str,
    pub file: Vec<u8>,
}

/// All kinds in all sizes; the same every time.
pub fn all() -> impl Iterator<Item = Input> {
    let kinds = KINDS.iter();
    kinds.flat_map(|kind| SIZES.iter().map(|size| kind.input(*size)))
}

/// The largest file of each kind.
pub fn largest() -> impl Iterator<Item = Input> {
    KINDS.iter().map(Kind::largest)
}

/// The largest file of the kind that is named.
pub fn largest_of(name: &str) -> Option<Input> {
    KINDS
        .iter()
        .find(|kind| kind.name == name)
        .map(Kind::largest)
}

/// The kind that is most like a listing.
pub const CODE_LIKE: &str = "code-like";

/// The kind whose page is its file's one text as it stands.
pub const LONG_TEXT: &str = "one long text";

/// A kind of file, with a file of it that is about as long as asked for and not longer.
struct Kind {
    name: &'static str,
    file: fn(usize) -> Vec<u8>,
}

impl Kind {
    fn input(&self, size: usize) -> Input {
        Input {
            kind: self.name,
            file: (self.file)(size),
        }
    }

    fn largest(&self) -> Input {
        self.input(LONGEST_FILE)
    }
}

const KINDS: [Kind; 6] = [
    Kind {
        name: CODE_LIKE,
        file: |size| of_pieces(size, statement),
    },
    Kind {
        name: "random",
        file: |size| of_pieces(size, generate::small_fields_without_39s),
    },
    Kind {
        name: LONG_TEXT,
        file: long_text,
    },
    Kind {
        name: "many small nodes",
        file: |size| of_pieces(size, small_nodes),
    },
    Kind {
        name: "many styles",
        file: |size| of_pieces(size, styled_text),
    },
    Kind {
        name: "deep blocks",
        file: |size| of_pieces(size, deep_blocks),
    },
];

/// Pieces one after the other while they fit.
fn of_pieces(size: usize, piece: fn(&mut Random) -> Vec<Field>) -> Vec<u8> {
    let mut random = Random::new(1, 0);
    let mut file = Vec::new();
    loop {
        let piece = field::encode(&piece(&mut random));
        if file.len() + piece.len() > size {
            return file;
        }
        file.extend(piece);
    }
}

/// Lines of prose in one text.
fn long_text(size: usize) -> Vec<u8> {
    const LINE: &[u8] = b"the quick brown fox & 7 lazy dogs <jump> over it again and again\n";
    let bytes: Vec<u8> = LINE
        .iter()
        .copied()
        .cycle()
        .take(size - 2 * HEADER)
        .collect();
    field::encode(&[field::text(bytes)])
}

const NAMES: [&str; 8] = [
    "a",
    "uv",
    "color",
    "normal",
    "light_dir",
    "roughness",
    "v3",
    "T0",
];

fn coloured(colour: [u8; 3], text: &str) -> Field {
    field::styled(vec![field::leaf(COLOUR, &colour)], text.as_bytes())
}

fn anchor(tag: u8, name: &str) -> Field {
    let text = coloured([0x1d, 0x4e, 0xd8], name);
    Field::Inner(ANCHOR, vec![field::leaf(tag, name.as_bytes()), text])
}

/// `name = op(a, b, c)` on a line of its own.
fn statement(random: &mut Random) -> Vec<Field> {
    let last = random.between(1, 4);
    let arguments = (0..=last).map(|index| {
        let name = anchor(USE, random.pick(&NAMES));
        match index == last {
            true => vec![name, field::leaf(IF_BLOCK_LAYOUT, b",")],
            false => vec![
                name,
                field::text(b","),
                field::leaf(BREAKING_ONLY_SPACE, &[]),
            ],
        }
    });
    let arguments = arguments.collect();
    vec![
        anchor(DEFINITION, random.pick(&NAMES)),
        field::text(b" = "),
        coloured([0x7c, 0x3a, 0xed], "OpCompositeConstruct"),
        field::text(b"("),
        field::block(INLINE_OR_INDENTED_BLOCK, arguments),
        field::text(b")"),
        field::leaf(FORCE_LINE_SEPARATION, &[]),
    ]
}

/// The smallest nodes of each kind.
fn small_nodes(_: &mut Random) -> Vec<Field> {
    vec![
        field::text(b"x"),
        field::leaf(BREAKING_ONLY_SPACE, &[]),
        field::text(b"y"),
        field::leaf(FORCE_LINE_SEPARATION, &[]),
        field::leaf(IF_BLOCK_LAYOUT, b","),
        field::block(INLINE_OR_INDENTED_BLOCK, vec![vec![]]),
    ]
}

/// A short text in any style.
fn styled_text(random: &mut Random) -> Vec<Field> {
    vec![field::styled(styles::styles(random), b"word")]
}

/// As many blocks in each other as may be, of both kinds.
fn deep_blocks(random: &mut Random) -> Vec<Field> {
    (0..MOST_BLOCKS).fold(vec![field::text(b"deep")], |inside, _| {
        let tag = random.pick(&[
            INDENTED_BLOCK,
            INLINE_OR_INDENTED_BLOCK,
            INLINE_OR_INDENTED_BLOCK,
        ]);
        vec![field::text(b"in"), field::block(tag, vec![inside])]
    })
}
