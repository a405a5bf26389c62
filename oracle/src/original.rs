//! The original asked about any accepted file. It has no underline: it is asked about the file without its 39s, and its answer is carried back.

use crate::body::{self, Piece};
use crate::field::{self, leaf, Field};
use crate::tags::*;
use crate::tree::{self, Fields};
use std::borrow::Cow;

/// What a 39 puts into the `style` attribute of its text's tag, as the last item.
pub const ITEM: &[u8] = b"text-decoration:underline;";

/// How the `style` attribute of a tag begins.
pub const STYLE: &[u8] = b" style=\"";

/// The file after the original laid it out at `width`.
pub fn laid_out(file: &[u8], width: u16) -> Vec<u8> {
    let (bare, underlined) = parted(file);
    put_back(tree::laid_out(&bare, width), &underlined)
}

/// The original's plain page of the file laid out at `width`.
pub fn laid_out_plain(file: &[u8], width: u16) -> Vec<u8> {
    tree::laid_out_plain(&without_39s(file), width)
}

/// The original's plain page of a file as it stands.
pub fn plain(file: &[u8]) -> Vec<u8> {
    tree::plain(&without_39s(file))
}

/// The original's HTML body of a file as it stands.
pub fn body(file: &[u8]) -> Vec<u8> {
    let (bare, underlined) = parted(file);
    underline(tree::body(&bare), &underlined)
}

/// The original's HTML document of a file as it stands.
pub fn document(file: &[u8]) -> Vec<u8> {
    let (bare, underlined) = parted(file);
    underline(tree::document(&bare), &underlined)
}

/// Plain page, HTML body and HTML document, as [`tree::pages`] has them.
pub fn pages(file: &[u8]) -> [Vec<u8>; 3] {
    let (bare, underlined) = parted(file);
    let [plain, body, document] = tree::pages(&bare);
    [
        plain,
        underline(body, &underlined),
        underline(document, &underlined),
    ]
}

/// The file, decoded and encoded again.
pub fn there_and_back(file: &[u8]) -> Vec<u8> {
    let (bare, underlined) = parted(file);
    put_back(tree::there_and_back(&bare), &underlined)
}

/// An accepted file without its 39s, the lengths around them said anew. It is accepted, and shorter where anything was taken out.
pub fn without_39s(file: &[u8]) -> Cow<'_, [u8]> {
    parted(file).0
}

/// Whether each 16 of an accepted file has a 39, in file order.
pub fn underlined(file: &[u8]) -> Vec<bool> {
    let mut found = Vec::new();
    look(file, &mut found);
    found
}

fn look(value: &[u8], found: &mut Vec<bool>) {
    for (tag, value) in Fields(value) {
        match tag {
            STYLES => found.push(Fields(value).any(|(tag, _)| tag == UNDERLINE)),
            tag if field::is_inner(tag) => look(value, found),
            _ => {}
        }
    }
}

/// The file without its 39s, and which of its 16s had one. Most files have none, and are not copied.
fn parted(file: &[u8]) -> (Cow<'_, [u8]>, Vec<bool>) {
    let underlined = underlined(file);
    if !underlined.contains(&true) {
        return (file.into(), underlined);
    }
    let mut fields = field::parse(file);
    each_style(&mut fields, &mut |inside| {
        inside.retain(|field| !is_39(field))
    });
    (field::encode(&fields).into(), underlined)
}

pub fn is_39(field: &Field) -> bool {
    matches!(field, Field::Leaf(UNDERLINE, _))
}

/// Edits what each 16 holds, in file order.
fn each_style(fields: &mut [Field], edit: &mut dyn FnMut(&mut Vec<Field>)) {
    for field in fields {
        match field {
            Field::Inner(STYLES, inside) => edit(inside),
            Field::Inner(_, inside) => each_style(inside, edit),
            Field::Leaf(..) | Field::Loose(_) => {}
        }
    }
}

/// Puts 39s back into the 16s that had one, each behind all else. The original keeps the nodes and their order: what it changed of a file
/// without 39s, the tags of blocks, is carried to the places that the file with them has for it.
pub fn put_back(bare: Vec<u8>, underlined: &[bool]) -> Vec<u8> {
    if !underlined.contains(&true) {
        return bare;
    }
    let mut fields = field::parse(&bare);
    let mut left = underlined.iter();
    each_style(&mut fields, &mut |inside| {
        let had_one = *left.next().expect("the original makes no styles");
        inside.extend(had_one.then(|| leaf(UNDERLINE, [])));
    });
    assert!(left.next().is_none(), "the original loses no styles");
    field::encode(&fields)
}

/// Puts the item into the tags of the underlined texts of a page.
///
/// The opening style tags of a page are those of the file's 16s, one for each and in file order. In the original `render_to_line_ops` goes
/// through all nodes, fragments and runs of anchors from the front, broken blocks and others alike; each text that has styles, an empty one
/// too, gives one `PushStyles`; the machine of `interpret` hands that on at once, and `HtmlSnippet` writes one opening tag for it. No other
/// tag has the name of a style's: anchors are `a`, and the frame has neither `span` nor `sub` nor `sup`.
pub fn underline(page: Vec<u8>, underlined: &[bool]) -> Vec<u8> {
    if !underlined.contains(&true) {
        return page;
    }
    let mut left = underlined.iter();
    let mut out = Vec::with_capacity(page.len() + 2 * ITEM.len());
    for piece in body::pieces(&page) {
        match piece {
            Piece::Tag(tag) if body::opens_style(tag) => {
                match *left.next().expect("a style tag is that of a 16") {
                    true => put_item(&mut out, tag),
                    false => out.extend(tag),
                }
            }
            Piece::Tag(bytes) | Piece::Between(bytes) => out.extend(bytes),
        }
    }
    assert!(left.next().is_none(), "a 16 has a style tag");
    out
}

/// The tag of a style with the item, as the last of its `style` attribute: that comes first of all, and one that has none gets it there.
fn put_item(out: &mut Vec<u8>, tag: &[u8]) {
    let (name, attributes) = tag.split_at(body::name(tag).len() + 1);
    let parts = match attributes.strip_prefix(STYLE) {
        Some(rest) => {
            let (css, behind) = rest.split_at(body::length_until(rest, b'"'));
            [name, STYLE, css, ITEM, behind]
        }
        None => [name, STYLE, ITEM, b"\"", attributes],
    };
    out.extend(parts.concat());
}
