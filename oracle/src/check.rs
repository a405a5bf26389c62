//! The file check, from document 01: the first fault of a file with its number and place.

use crate::tags::*;

/// The first fault of a file.
#[derive(Clone, Copy, Debug, PartialEq, Eq)]
pub struct Refusal {
    pub number: u8,
    pub place: usize,
}

type Checked = Result<(), Refusal>;

/// Answers refusal 1 and the walk; 2 and 10 belong to layout and to pages.
pub fn check(file: &[u8]) -> Checked {
    walked(file, false)
}

/// The same in strict mode (request E6), which refuses a NUL in a text.
pub fn strict_check(file: &[u8]) -> Checked {
    walked(file, true)
}

fn walked(file: &[u8], strict: bool) -> Checked {
    if file.len() > LONGEST_FILE {
        return refuse(1, 0);
    }
    let walk = Walk { file, strict };
    walk.nodes(0, file.len(), 0)
}

fn refuse<T>(number: u8, place: usize) -> Result<T, Refusal> {
    Err(Refusal { number, place })
}

fn need(holds: bool, number: u8, place: usize) -> Checked {
    if holds {
        Ok(())
    } else {
        refuse(number, place)
    }
}

/// A field whose header is in order: its value lies from `start` to `end`.
#[derive(Clone, Copy)]
struct Found {
    place: usize,
    tag: u8,
    start: usize,
    end: usize,
}

struct Walk<'a> {
    file: &'a [u8],
    strict: bool,
}

impl Walk<'_> {
    /// The field at `place` inside a value that ends at `end`: three bytes
    /// there, tag, length fits, fixed length, in this order.
    fn field(&self, place: usize, end: usize, allowed: &[u8]) -> Result<Found, Refusal> {
        need(end - place >= HEADER, 3, place)?;
        let tag = self.file[place];
        need(allowed.contains(&tag), 4, place)?;
        let length = usize::from(u16::from_be_bytes([
            self.file[place + 1],
            self.file[place + 2],
        ]));
        let start = place + HEADER;
        need(length <= end - start, 3, place)?;
        need(fixed_length(tag).is_none_or(|n| n == length), 5, place)?;
        Ok(Found {
            place,
            tag,
            start,
            end: start + length,
        })
    }

    /// Node fields, as they stand in the file and in an 8, inside `blocks` blocks.
    fn nodes(&self, from: usize, end: usize, blocks: usize) -> Checked {
        const NODES: [u8; 7] = [1, 2, 3, 4, 5, 6, 7];
        let mut place = from;
        while place < end {
            let node = self.field(place, end, &NODES)?;
            self.node(node, blocks)?;
            place = node.end;
        }
        Ok(())
    }

    fn node(&self, node: Found, blocks: usize) -> Checked {
        match node.tag {
            TEXT => self.text(node),
            ANCHOR => self.anchor(node),
            INDENTED_BLOCK | INLINE_OR_INDENTED_BLOCK => self.block(node, blocks),
            IF_BLOCK_LAYOUT => self.text_bytes(node),
            _ => Ok(()),
        }
    }

    /// A 3 or 4: any number of 8.
    fn block(&self, block: Found, blocks: usize) -> Checked {
        need(blocks < MOST_BLOCKS, 6, block.place)?;
        let mut place = block.start;
        while place < block.end {
            let fragment = self.field(place, block.end, &[FRAGMENT])?;
            self.nodes(fragment.start, fragment.end, blocks + 1)?;
            place = fragment.end;
        }
        Ok(())
    }

    /// A 1: an optional 16, then one 17, then nothing.
    fn text(&self, text: Found) -> Checked {
        need(text.start < text.end, 5, text.place)?;
        let mut part = self.field(text.start, text.end, &[STYLES, TEXT_BYTES])?;
        if part.tag == STYLES {
            self.styles(part)?;
            need(part.end < text.end, 5, text.place)?;
            part = self.field(part.end, text.end, &[TEXT_BYTES])?;
        }
        self.text_bytes(part)?;
        self.nothing_more(part.end, text.end)
    }

    /// Whatever stands where nothing is allowed is a cut field or a wrong tag.
    fn nothing_more(&self, place: usize, end: usize) -> Checked {
        if place == end {
            return Ok(());
        }
        self.field(place, end, &[]).map(|_| ())
    }

    /// A 2: one 18 or 19, then any number of 1.
    fn anchor(&self, anchor: Found) -> Checked {
        need(anchor.start < anchor.end, 5, anchor.place)?;
        let name = self.field(anchor.start, anchor.end, &[DEFINITION, USE])?;
        self.utf8(name)?;
        let quoted = self.file[name.start..name.end].contains(&b'"');
        need(!quoted, 9, name.place)?;
        let mut place = name.end;
        while place < anchor.end {
            let run = self.field(place, anchor.end, &[TEXT])?;
            self.text(run)?;
            place = run.end;
        }
        Ok(())
    }

    /// A 17 or 7: UTF-8, and then in strict mode no NUL. Names of anchors may have one in either mode.
    fn text_bytes(&self, field: Found) -> Checked {
        self.utf8(field)?;
        let has_nul = self.file[field.start..field.end].contains(&0);
        need(!(self.strict && has_nul), 14, field.place)
    }

    /// The standard library's UTF-8 is that of RFC 3629.
    fn utf8(&self, field: Found) -> Checked {
        let value = &self.file[field.start..field.end];
        need(std::str::from_utf8(value).is_ok(), 7, field.place)
    }

    /// A 16: its fields first, then missing colour, then 36 with 37.
    fn styles(&self, styles: Found) -> Checked {
        let mut seen = Vec::new();
        let mut later = &STYLE_TAGS[..];
        let mut place = styles.start;
        while place < styles.end {
            let part = self.field(place, styles.end, later)?;
            self.style(part)?;
            seen.push(part.tag);
            later = &STYLE_TAGS[usize::from(part.tag - COLOUR) + 1..];
            place = part.end;
        }
        let has = |tag| seen.contains(&tag);
        need(!has(OPACITY) || has(COLOUR), 8, styles.place)?;
        need(!(has(SUBSCRIPT) && has(SUPERSCRIPT)), 8, styles.place)
    }

    /// The two values of a style that have a range.
    fn style(&self, part: Found) -> Checked {
        let value = &self.file[part.start..part.end];
        let good = match (part.tag, value) {
            (SIZE, &[size]) => size as i8 <= LARGEST_SIZE,
            (OPACITY, &[a, b, c, d]) => {
                let bits = u32::from_be_bytes([a, b, c, d]);
                bits == 0 || (LEAST_OPACITY..=FULL_OPACITY).contains(&bits)
            }
            _ => true,
        };
        need(good, 8, part.place)
    }
}

fn fixed_length(tag: u8) -> Option<usize> {
    match tag {
        BREAKING_ONLY_SPACE | FORCE_LINE_SEPARATION => Some(0),
        COLOUR => Some(3),
        OPACITY => Some(4),
        THICKNESS | SIZE => Some(1),
        SUBSCRIPT | SUPERSCRIPT | DIM | UNDERLINE => Some(0),
        _ => None,
    }
}
