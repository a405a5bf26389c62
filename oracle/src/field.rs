//! Files as loose trees of house fields, to build, damage and shrink them; any bytes are such a tree.

use crate::tags::*;

#[derive(Clone, Debug, PartialEq, Eq)]
pub enum Field {
    /// A field whose value is no fields.
    Leaf(u8, Vec<u8>),
    /// A field whose value is fields.
    Inner(u8, Vec<Field>),
    /// Bytes that are no whole field.
    Loose(Vec<u8>),
}

use Field::{Inner, Leaf, Loose};

/// Deeper values are kept as bytes, so that no walk over a tree goes too deep.
const DEEPEST: usize = 150;

/// The fields of any bytes; [`encode`] gives the bytes back.
pub fn parse(bytes: &[u8]) -> Vec<Field> {
    parse_at(bytes, 0)
}

fn parse_at(mut rest: &[u8], depth: usize) -> Vec<Field> {
    let mut fields = Vec::new();
    while let Some((tag, value, after)) = whole(rest) {
        fields.push(if is_inner(tag) && depth < DEEPEST {
            Inner(tag, parse_at(value, depth + 1))
        } else {
            Leaf(tag, value.to_vec())
        });
        rest = after;
    }
    if !rest.is_empty() {
        fields.push(Loose(rest.to_vec()));
    }
    fields
}

fn whole(bytes: &[u8]) -> Option<(u8, &[u8], &[u8])> {
    let (&[tag, high, low], rest) = bytes.split_first_chunk::<HEADER>()?;
    let length = usize::from(u16::from_be_bytes([high, low]));
    (length <= rest.len()).then(|| (tag, &rest[..length], &rest[length..]))
}

/// Whether the value of a field with this tag is fields.
pub fn is_inner(tag: u8) -> bool {
    matches!(
        tag,
        TEXT | ANCHOR | INDENTED_BLOCK | INLINE_OR_INDENTED_BLOCK | FRAGMENT | STYLES
    )
}

/// Most files are no longer.
const MOSTLY: usize = 512;

pub fn encode(fields: &[Field]) -> Vec<u8> {
    let mut out = Vec::with_capacity(MOSTLY);
    put(&mut out, fields);
    out
}

/// How many bytes [`encode`] gives.
pub fn length(fields: &[Field]) -> usize {
    let one = |field: &Field| match field {
        Leaf(_, value) => HEADER + value.len(),
        Inner(_, inside) => HEADER + length(inside),
        Loose(bytes) => bytes.len(),
    };
    fields.iter().map(one).sum()
}

fn put(out: &mut Vec<u8>, fields: &[Field]) {
    for field in fields {
        match field {
            Leaf(tag, value) => {
                put_header(out, *tag, value.len());
                out.extend(value);
            }
            Inner(tag, inside) => {
                let at = out.len();
                out.extend([*tag, 0, 0]);
                put(out, inside);
                let length = out.len() - at - HEADER;
                out[at + 1..at + HEADER].copy_from_slice(&said(length));
            }
            Loose(bytes) => out.extend(bytes),
        }
    }
}

fn put_header(out: &mut Vec<u8>, tag: u8, length: usize) {
    out.push(tag);
    out.extend(said(length));
}

/// A length that two bytes cannot say stands in no accepted file: any wrong one will do.
fn said(length: usize) -> [u8; 2] {
    u16::try_from(length).unwrap_or(u16::MAX).to_be_bytes()
}

/// How many fields a list holds, those inside counted.
pub fn count(fields: &[Field]) -> usize {
    fields.iter().map(|field| 1 + count(inside(field))).sum()
}

pub fn inside(field: &Field) -> &[Field] {
    match field {
        Inner(_, inside) => inside,
        Leaf(..) | Loose(_) => &[],
    }
}

/// The list that holds the field `number`, counted in file order, and its index there.
pub fn holder(fields: &mut Vec<Field>, mut number: usize) -> Option<(&mut Vec<Field>, usize)> {
    let (index, path) = way(fields, &mut number)?;
    let mut list = fields;
    for index in path.into_iter().rev() {
        match &mut list[index] {
            Inner(_, inside) => list = inside,
            Leaf(..) | Loose(_) => return None,
        }
    }
    Some((list, index))
}

/// The index of the field `number` in its list, and those of the fields around
/// it, the innermost first. Where there is none, `number` is less by all fields.
fn way(fields: &[Field], number: &mut usize) -> Option<(usize, Vec<usize>)> {
    for (index, field) in fields.iter().enumerate() {
        if *number == 0 {
            return Some((index, Vec::new()));
        }
        *number -= 1;
        if let Some((inner, mut path)) = way(inside(field), number) {
            path.push(index);
            return Some((inner, path));
        }
    }
    None
}

/// Every field in file order with its place and the number of blocks around it.
pub fn places(fields: &[Field]) -> Vec<(usize, usize, &Field)> {
    let mut found = Vec::new();
    gather(fields, 0, 0, &mut found);
    found
}

fn gather<'a>(
    fields: &'a [Field],
    mut place: usize,
    blocks: usize,
    found: &mut Vec<(usize, usize, &'a Field)>,
) -> usize {
    for field in fields {
        found.push((place, blocks, field));
        place = match field {
            Leaf(_, value) => place + HEADER + value.len(),
            Inner(tag, inside) => {
                let more = usize::from(is_block(*tag));
                gather(inside, place + HEADER, blocks + more, found)
            }
            Loose(bytes) => place + bytes.len(),
        };
    }
    place
}

pub fn is_block(tag: u8) -> bool {
    matches!(tag, INDENTED_BLOCK | INLINE_OR_INDENTED_BLOCK)
}

pub fn leaf(tag: u8, value: impl Into<Vec<u8>>) -> Field {
    Leaf(tag, value.into())
}

/// An unstyled text.
pub fn text(bytes: impl Into<Vec<u8>>) -> Field {
    Inner(TEXT, vec![leaf(TEXT_BYTES, bytes)])
}

/// A text with the style fields given.
pub fn styled(styles: Vec<Field>, bytes: impl Into<Vec<u8>>) -> Field {
    Inner(TEXT, vec![Inner(STYLES, styles), leaf(TEXT_BYTES, bytes)])
}

/// A block of fragments.
pub fn block(tag: u8, fragments: Vec<Vec<Field>>) -> Field {
    let fragments = fragments.into_iter().map(|nodes| Inner(FRAGMENT, nodes));
    Inner(tag, fragments.collect())
}

/// Blocks of the tag, one in the other, so many of them, around the nodes.
pub fn nested(tag: u8, times: usize, nodes: Vec<Field>) -> Vec<Field> {
    (0..times).fold(nodes, |nodes, _| vec![block(tag, vec![nodes])])
}
