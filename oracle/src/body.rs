//! An HTML page taken apart: its tags, and what stands between them.

/// A part of a page.
#[derive(Clone, Copy)]
pub enum Piece<'a> {
    /// A tag with its brackets.
    Tag(&'a [u8]),
    Between(&'a [u8]),
}

/// The parts of a page, in order. A text's `<` is written `&lt;`, so that each `<` outside a tag begins one; a name of an anchor stands in quotes
/// as it is, so that a `>` or `<` in quotes means nothing.
pub fn pieces(page: &[u8]) -> Vec<Piece<'_>> {
    let mut pieces = Vec::new();
    let mut rest = page;
    while !rest.is_empty() {
        let (piece, behind) = rest.split_at(match rest[0] {
            b'<' => tag_length(rest),
            _ => length_until(rest, b'<'),
        });
        pieces.push(match piece[0] {
            b'<' => Piece::Tag(piece),
            _ => Piece::Between(piece),
        });
        rest = behind;
    }
    pieces
}

/// How long the tag is that the bytes begin with; all of them if it does not end.
fn tag_length(bytes: &[u8]) -> usize {
    let mut in_quotes = false;
    let end = bytes.iter().position(|byte| {
        in_quotes ^= *byte == b'"';
        *byte == b'>' && !in_quotes
    });
    end.map_or(bytes.len(), |end| end + 1)
}

/// How many bytes stand before the first that is this one.
pub fn length_until(bytes: &[u8], byte: u8) -> usize {
    let found = bytes.iter().position(|other| *other == byte);
    found.unwrap_or(bytes.len())
}

/// The name of a tag; that of a closing one begins with `/`.
pub fn name(tag: &[u8]) -> &[u8] {
    let inside = &tag[1..];
    let is_end = |byte: &u8| matches!(byte, b' ' | b'>');
    let end = inside.iter().position(is_end);
    &inside[..end.unwrap_or(inside.len())]
}

/// Whether a tag is the opening one of a style.
pub fn opens_style(tag: &[u8]) -> bool {
    matches!(name(tag), b"span" | b"sub" | b"sup")
}
