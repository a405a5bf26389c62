//! Files made for plain pages that are long beside them: blocks as deep as they may be, with lines of one letter in the innermost.

use crate::field::{self, Field};
use crate::tags::*;
use std::iter;

/// Of all that makes a fresh line with its indent this is the shortest.
const LINE: &[u8] = b"a\n";

/// A node with these bytes.
type Node = fn(&[u8]) -> Field;

/// Blocks that are broken and blocks that a layout breaks, around a text and around a 7.
pub fn files() -> impl Iterator<Item = Vec<u8>> {
    let text: Node = |bytes| field::text(bytes);
    let conditional: Node = |bytes| field::leaf(IF_BLOCK_LAYOUT, bytes);
    let tags = [INDENTED_BLOCK, INLINE_OR_INDENTED_BLOCK].into_iter();
    let kinds = tags.flat_map(move |tag| [text, conditional].map(|node| (tag, node)));
    kinds.flat_map(|(tag, node)| {
        let file = move |lines| deep(tag, node(&LINE.repeat(lines)));
        let most = (LONGEST_FILE - file(0).len()) / LINE.len();
        lines_up_to(most).map(file)
    })
}

fn deep(tag: u8, node: Field) -> Vec<u8> {
    field::encode(&field::nested(tag, MOST_BLOCKS, vec![node]))
}

/// 1, 2, 4 and so on, and the most.
fn lines_up_to(most: usize) -> impl Iterator<Item = usize> {
    let doubled = iter::successors(Some(1), |lines| Some(lines * 2));
    let fewer = doubled.take_while(move |lines| *lines < most);
    fewer.chain(iter::once(most))
}
