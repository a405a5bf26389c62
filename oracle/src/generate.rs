//! Random accepted files: every node kind, deep and wide ones, and trees that look like code.

pub mod returns;
pub mod styles;
pub mod texts;

use crate::field::{self, Field};
use crate::random::Random;
use crate::tags::*;

/// The fields of an accepted file.
pub fn fields(random: &mut Random) -> Vec<Field> {
    made(random, |random, fields| {
        returns::sprinkle(random, fields);
        underlined(random, fields);
    })
}

/// The fields of an accepted file, with no more CRs and NULs than texts have anyway.
pub fn fields_without_more_returns(random: &mut Random) -> Vec<Field> {
    made(random, underlined)
}

/// The fields of an accepted file that the original has a tree for.
pub fn fields_without_39s(random: &mut Random) -> Vec<Field> {
    made(random, |_, _| {})
}

/// What is done to the fields of a file before it is filled up.
type Edit = fn(&mut Random, &mut [Field]);

/// Of the files one in so many has no 39.
const WITHOUT_39S: usize = 3;

/// Underlines some texts, as far as there is room.
fn underlined(random: &mut Random, fields: &mut [Field]) {
    if random.one_in(WITHOUT_39S) {
        return;
    }
    let mut room = LONGEST_FILE.saturating_sub(field::length(fields));
    styles::underline(random, fields, &mut room);
}

fn made(random: &mut Random, edit: Edit) -> Vec<Field> {
    if random.one_in(400) {
        let mut fields = wide(random);
        edit(random, &mut fields);
        return fields;
    }
    let left = file_size(random);
    let fill = left > 10_000 && random.one_in(2);
    let mut plan = Plan { random, left };
    let mut fields = Vec::new();
    while plan.left > 0 {
        fields.extend(plan.nodes(0));
    }
    while field::length(&fields) > LONGEST_FILE {
        fields.pop();
    }
    edit(random, &mut fields);
    let length = field::length(&fields);
    if fill && length + 2 * HEADER <= LONGEST_FILE {
        let rest = LONGEST_FILE - length - 2 * HEADER;
        fields.push(field::text(vec![b'p'; rest]));
    }
    fields
}

/// The fields of a small accepted file.
pub fn small_fields(random: &mut Random) -> Vec<Field> {
    let mut fields = small_fields_without_39s(random);
    underlined(random, &mut fields);
    fields
}

/// The fields of a small accepted file that the original has a tree for.
pub fn small_fields_without_39s(random: &mut Random) -> Vec<Field> {
    let left = random.between(0, 60);
    Plan { random, left }.nodes(0)
}

/// Mostly small files, now and then larger ones.
fn file_size(random: &mut Random) -> usize {
    match random.below(1000) {
        0..800 => random.between(0, 160),
        800..970 => random.between(100, 600),
        970..999 => random.between(600, 4_000),
        _ => random.between(4_000, LONGEST_FILE),
    }
}

/// A width at which the layout of a file of this length may be interesting.
pub fn width(random: &mut Random, length: usize) -> u16 {
    const EDGES: [u16; 12] = [0, 1, 2, 3, 4, 80, 120, 655, 6_000, 6_551, 6_552, 6_553];
    const REFUSED: [u16; 4] = [6_554, 6_555, 10_000, 65_535];
    let wanted = match random.below(40) {
        0 => return random.pick(&REFUSED),
        1..=9 => return random.pick(&EDGES),
        10..=14 => random.between(0, 6_553),
        15..=24 => random.below(length / 2 + 4),
        _ => random.below(length / 8 + 12),
    };
    wanted.min(usize::from(LARGEST_WIDTH)) as u16
}

/// Texts whose widths and sums reach the cap of 65,535.
fn wide(random: &mut Random) -> Vec<Field> {
    let mut nodes = Vec::new();
    for _ in 0..random.between(1, 4) {
        let size = random.pick(&[117_i8, 117, 100, 54, 0, 0, -2]);
        let tenths = usize::try_from(10 + i32::from(size)).unwrap_or(1);
        let aim = random.pick(&[65_535, 65_535, 65_530, 32_768, 60_000]);
        let length = (aim / tenths + random.below(5)).saturating_sub(2);
        let bytes = vec![b'w'; length];
        nodes.push(match random.below(4) {
            0 => field::leaf(IF_BLOCK_LAYOUT, &bytes[..length.min(6_560)]),
            _ if size == 0 => field::text(bytes),
            _ => field::styled(vec![field::leaf(SIZE, size.to_be_bytes())], bytes),
        });
        if random.one_in(3) {
            nodes.push(field::leaf(IF_BLOCK_LAYOUT, vec![b'v'; random.below(30)]));
        }
    }
    let inside = field::block(INLINE_OR_INDENTED_BLOCK, vec![nodes]);
    match random.below(3) {
        0 => vec![field::text(b"ab"), inside],
        1 => vec![inside, field::text(b"c\nd")],
        _ => vec![inside],
    }
}

/// What is still to be written: `left` is about how many bytes may follow.
struct Plan<'a> {
    random: &'a mut Random,
    left: usize,
}

impl Plan<'_> {
    fn spend(&mut self, bytes: usize) {
        self.left = self.left.saturating_sub(bytes);
    }

    /// Some nodes inside `blocks` blocks.
    fn nodes(&mut self, blocks: usize) -> Vec<Field> {
        let most = self.random.pick(&[0, 1, 1, 2, 3, 4, 6]);
        let mut nodes = Vec::new();
        for _ in 0..most {
            if self.left == 0 {
                break;
            }
            if self.random.one_in(5) {
                nodes.extend(self.call(blocks));
            } else {
                nodes.push(self.node(blocks));
            }
        }
        // Nothing at all must not go on for ever.
        self.spend(1);
        nodes
    }

    fn node(&mut self, blocks: usize) -> Field {
        let room = blocks < MOST_BLOCKS;
        self.spend(HEADER);
        match self.random.below(24) {
            0..=2 => self.anchor(),
            3..=5 if room => self.block(INDENTED_BLOCK, blocks),
            6..=10 if room => self.block(INLINE_OR_INDENTED_BLOCK, blocks),
            11 if room => self.deep(blocks),
            12..=13 => field::leaf(BREAKING_ONLY_SPACE, []),
            14..=15 => field::leaf(FORCE_LINE_SEPARATION, []),
            16..=17 => field::leaf(IF_BLOCK_LAYOUT, self.text_bytes()),
            _ => self.text(),
        }
    }

    fn text_bytes(&mut self) -> Vec<u8> {
        let bytes = texts::text(self.random, self.left);
        self.spend(bytes.len() + HEADER);
        bytes
    }

    fn text(&mut self) -> Field {
        let bytes = self.text_bytes();
        if self.random.one_in(2) {
            return field::text(bytes);
        }
        let styles = styles::styles(self.random);
        self.spend(12);
        field::styled(styles, bytes)
    }

    fn anchor(&mut self) -> Field {
        let tag = self.random.pick(&[DEFINITION, USE]);
        let name = texts::anchor(self.random);
        self.spend(name.len() + HEADER);
        let mut inside = vec![field::leaf(tag, name)];
        for _ in 0..self.random.pick(&[0, 0, 1, 1, 1, 2, 3]) {
            inside.push(self.text());
        }
        Field::Inner(ANCHOR, inside)
    }

    fn block(&mut self, tag: u8, blocks: usize) -> Field {
        let mut fragments = Vec::new();
        for _ in 0..self.random.pick(&[0, 1, 1, 1, 2, 2, 3]) {
            self.spend(HEADER);
            fragments.push(self.nodes(blocks + 1));
        }
        field::block(tag, fragments)
    }

    /// Blocks in blocks, often down to the 32nd.
    fn deep(&mut self, blocks: usize) -> Field {
        let room = MOST_BLOCKS - blocks;
        let times = match self.random.below(3) {
            0 => room,
            1 => self.random.between(1, room.min(4)),
            _ => self.random.between(1, room),
        };
        let mut node = self.node(blocks + times);
        for _ in 0..times {
            let tag = self
                .random
                .pick(&[INDENTED_BLOCK, INLINE_OR_INDENTED_BLOCK, 4]);
            self.spend(2 * HEADER);
            let mut nodes = vec![node];
            if self.random.one_in(4) {
                let at = self.random.below(2);
                nodes.insert(at, field::text(b"n"));
            }
            node = field::block(tag, vec![nodes]);
        }
        node
    }

    /// A call with its arguments, in the shape that `join_comma_sep` gives.
    fn call(&mut self, blocks: usize) -> Vec<Field> {
        const OPEN: [&[u8]; 4] = [b"f(", b"call(", b"{", b"long_name("];
        const CLOSE: [&[u8]; 3] = [b")", b"}", b");"];
        let open = field::text(self.random.pick(&OPEN));
        let close = field::text(self.random.pick(&CLOSE));
        self.spend(24);
        if blocks >= MOST_BLOCKS {
            return vec![open, close];
        }
        let mut arguments = Vec::new();
        for _ in 0..self.random.pick(&[0, 1, 2, 2, 3, 4]) {
            arguments.push(self.argument(blocks + 1));
        }
        if let Some((last, others)) = arguments.split_last_mut() {
            for other in others {
                other.push(field::text(b","));
                other.push(field::leaf(BREAKING_ONLY_SPACE, []));
            }
            last.push(field::leaf(IF_BLOCK_LAYOUT, b","));
        }
        let block = field::block(INLINE_OR_INDENTED_BLOCK, arguments);
        vec![open, block, close]
    }

    fn argument(&mut self, blocks: usize) -> Vec<Field> {
        self.spend(14);
        match self.random.below(8) {
            0 | 1 if self.left > 0 => self.call(blocks),
            2 if self.left > 0 => self.nodes(blocks),
            3 => vec![self.anchor()],
            4 => vec![self.text()],
            _ => vec![field::text(texts::name(self.random))],
        }
    }
}
