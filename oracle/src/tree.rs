//! Accepted files without 39s as trees of the original: decoded, handed over, encoded again. `original.rs` asks about files with 39s.

use crate::print::pretty::{Fragment, FragmentPostLayout, Node, Styles};
use crate::tags::*;
use std::borrow::Cow;
use std::hint::black_box;
use std::time::{Duration, Instant};

type Run = (Option<Styles>, Cow<'static, str>);

/// The file after the original laid it out at `width`.
pub fn laid_out(file: &[u8], width: u16) -> Vec<u8> {
    with_tree(file, width.into(), |tree, width| {
        encode(&tree.layout_with_max_line_width(width).into_fragment())
    })
}

/// The original's plain page of the file laid out at `width`.
pub fn laid_out_plain(file: &[u8], width: u16) -> Vec<u8> {
    with_tree(file, width.into(), |tree, width| {
        let page = tree.layout_with_max_line_width(width).to_string();
        page.into_bytes()
    })
}

/// How long the original takes to lay the file's tree out and print its plain page.
pub fn time_of_layout_and_plain(file: &[u8], width: u16) -> Duration {
    with_tree(file, width.into(), |tree, width| {
        let start = Instant::now();
        let laid_out = tree.layout_with_max_line_width(width);
        let page = black_box(laid_out.to_string());
        let took = start.elapsed();
        drop((laid_out, page));
        took
    })
}

/// How long the original takes to print the file's tree as an HTML document.
pub fn time_of_document(file: &[u8]) -> Duration {
    with_tree(file, 0, |tree, _| {
        let laid_out = FragmentPostLayout::from_fragment(tree);
        let start = Instant::now();
        let page = black_box(laid_out.render_to_html().to_html_doc());
        let took = start.elapsed();
        drop((laid_out, page));
        took
    })
}

/// The original's plain page of a file as it stands.
pub fn plain(file: &[u8]) -> Vec<u8> {
    with_tree(file, 0, |tree, _| {
        let page = FragmentPostLayout::from_fragment(tree).to_string();
        page.into_bytes()
    })
}

/// The original's HTML body of a file as it stands.
pub fn body(file: &[u8]) -> Vec<u8> {
    with_tree(file, 0, |tree, _| {
        let html = FragmentPostLayout::from_fragment(tree).render_to_html();
        html.body.into_bytes()
    })
}

/// The original's HTML document of a file as it stands.
pub fn document(file: &[u8]) -> Vec<u8> {
    with_tree(file, 0, |tree, _| {
        let html = FragmentPostLayout::from_fragment(tree).render_to_html();
        html.to_html_doc().into_bytes()
    })
}

/// Plain page, HTML body and HTML document from one tree, which saves much of their cost.
pub fn pages(file: &[u8]) -> [Vec<u8>; 3] {
    with_tree(file, 0, |tree, _| {
        let tree = FragmentPostLayout::from_fragment(tree);
        let html = tree.render_to_html();
        let document = html.to_html_doc();
        [tree.to_string(), html.body, document].map(String::into_bytes)
    })
}

/// A tree after its layout, and how that is shown.
pub struct Printed {
    pub laid_out: Vec<u8>,
    pub plain: Vec<u8>,
    pub body: Vec<u8>,
}

/// What the original makes of a tree at `width`.
pub fn printed(tree: Fragment, width: u16) -> Printed {
    let tree = tree.layout_with_max_line_width(usize::from(width));
    Printed {
        plain: tree.to_string().into_bytes(),
        body: tree.render_to_html().body.into_bytes(),
        laid_out: encode(&tree.into_fragment()),
    }
}

/// The file, decoded and encoded again.
pub fn there_and_back(file: &[u8]) -> Vec<u8> {
    with_tree(file, 0, |tree, _| encode(&tree))
}

/// Runs `work` on the tree of an accepted file and on a number, such as a width.
///
/// The original's `IfBlockLayout` asks for a `&'static str`. Leaking each of
/// them would fill the memory over hundreds of thousands of files, so the file
/// itself is called static for as long as `work` runs.
pub fn with_tree<R>(file: &[u8], number: usize, work: fn(Fragment, usize) -> R) -> R {
    // SAFETY: no part of the tree outlives `file`, which is borrowed until this
    // function returns. The tree is moved into `work`; that is a function
    // without captures, so it has nowhere to keep a part of it, and what it
    // returns are bytes of its own or a time. The original keeps no statics.
    let lasting: &'static [u8] = unsafe { std::mem::transmute::<&[u8], &'static [u8]>(file) };
    work(fragment(lasting), number)
}

/// The fields of an accepted value, one after the other.
pub struct Fields<'a>(pub &'a [u8]);

impl<'a> Iterator for Fields<'a> {
    type Item = (u8, &'a [u8]);

    fn next(&mut self) -> Option<Self::Item> {
        let (&[tag, high, low], rest) = self.0.split_first_chunk::<HEADER>()?;
        let (value, rest) = rest.split_at(usize::from(u16::from_be_bytes([high, low])));
        self.0 = rest;
        Some((tag, value))
    }
}

fn fragment(value: &'static [u8]) -> Fragment {
    Fragment {
        nodes: Fields(value).map(|(tag, value)| node(tag, value)).collect(),
    }
}

fn node(tag: u8, value: &'static [u8]) -> Node {
    let fragments = || Fields(value).map(|(_, value)| fragment(value)).collect();
    match tag {
        TEXT => {
            let (styles, text) = run(value);
            Node::Text(styles, text)
        }
        ANCHOR => anchor(value),
        INDENTED_BLOCK => Node::IndentedBlock(fragments()),
        INLINE_OR_INDENTED_BLOCK => Node::InlineOrIndentedBlock(fragments()),
        BREAKING_ONLY_SPACE => Node::BreakingOnlySpace,
        FORCE_LINE_SEPARATION => Node::ForceLineSeparation,
        IF_BLOCK_LAYOUT => Node::IfBlockLayout(utf8(value)),
        _ => unreachable!("an accepted file has no node {tag}"),
    }
}

fn run(value: &'static [u8]) -> Run {
    let mut styles_read = None;
    let mut text = "";
    for (tag, value) in Fields(value) {
        match tag {
            STYLES => styles_read = Some(styles(value)),
            _ => text = utf8(value),
        }
    }
    (styles_read, Cow::Borrowed(text))
}

fn anchor(value: &'static [u8]) -> Node {
    let mut fields = Fields(value);
    let (tag, name) = fields.next().expect("an accepted anchor has a name");
    Node::Anchor {
        is_def: tag == DEFINITION,
        anchor: utf8(name).into(),
        text: fields.map(|(_, value)| run(value)).collect(),
    }
}

fn utf8(value: &'static [u8]) -> &'static str {
    std::str::from_utf8(value).expect("an accepted text is UTF-8")
}

/// The styles of an accepted 16 without a 39.
pub fn styles(value: &[u8]) -> Styles {
    let mut styles = Styles::default();
    for (tag, value) in Fields(value) {
        match (tag, value) {
            (COLOUR, &[r, g, b]) => styles.color = Some([r, g, b]),
            (OPACITY, &[a, b, c, d]) => {
                styles.color_opacity = Some(f32::from_bits(u32::from_be_bytes([a, b, c, d])));
            }
            (THICKNESS, &[thickness]) => styles.thickness = Some(thickness as i8),
            (SIZE, &[size]) => styles.size = Some(size as i8),
            (SUBSCRIPT, []) => styles.subscript = true,
            (SUPERSCRIPT, []) => styles.superscript = true,
            (DIM, []) => styles.desaturate_and_dim_for_unchanged_multiversion_line = true,
            _ => unreachable!("an accepted style has no field {tag} like this"),
        }
    }
    styles
}

/// The file of a tree, which fits one.
pub fn encode(tree: &Fragment) -> Vec<u8> {
    let mut out = Vec::new();
    put_nodes(&mut out, tree);
    out
}

fn put_nodes(out: &mut Vec<u8>, fragment: &Fragment) {
    for node in &fragment.nodes {
        put_node(out, node);
    }
}

/// Writes a field; its length is known when its value stands.
fn put(out: &mut Vec<u8>, tag: u8, value: impl FnOnce(&mut Vec<u8>)) {
    out.extend([tag, 0, 0]);
    let start = out.len();
    value(out);
    let length = u16::try_from(out.len() - start).expect("a tree of an accepted file fits");
    out[start - 2..start].copy_from_slice(&length.to_be_bytes());
}

fn put_bytes(out: &mut Vec<u8>, tag: u8, value: &[u8]) {
    put(out, tag, |out| out.extend(value));
}

fn put_node(out: &mut Vec<u8>, node: &Node) {
    match node {
        Node::Text(styles, text) => put_run(out, styles, text),
        Node::Anchor {
            is_def,
            anchor,
            text,
        } => put(out, ANCHOR, |out| {
            let tag = if *is_def { DEFINITION } else { USE };
            put_bytes(out, tag, anchor.as_bytes());
            for (styles, text) in text {
                put_run(out, styles, text);
            }
        }),
        Node::IndentedBlock(fragments) => put_block(out, INDENTED_BLOCK, fragments),
        Node::InlineOrIndentedBlock(fragments) => {
            put_block(out, INLINE_OR_INDENTED_BLOCK, fragments);
        }
        Node::BreakingOnlySpace => put_bytes(out, BREAKING_ONLY_SPACE, &[]),
        Node::ForceLineSeparation => put_bytes(out, FORCE_LINE_SEPARATION, &[]),
        Node::IfBlockLayout(text) => put_bytes(out, IF_BLOCK_LAYOUT, text.as_bytes()),
    }
}

fn put_block(out: &mut Vec<u8>, tag: u8, fragments: &[Fragment]) {
    put(out, tag, |out| {
        for fragment in fragments {
            put(out, FRAGMENT, |out| put_nodes(out, fragment));
        }
    });
}

fn put_run(out: &mut Vec<u8>, styles: &Option<Styles>, text: &str) {
    put(out, TEXT, |out| {
        if let Some(styles) = styles {
            put(out, STYLES, |out| put_styles(out, styles));
        }
        put_bytes(out, TEXT_BYTES, text.as_bytes());
    });
}

fn put_styles(out: &mut Vec<u8>, styles: &Styles) {
    if let Some(colour) = styles.color {
        put_bytes(out, COLOUR, &colour);
    }
    if let Some(opacity) = styles.color_opacity {
        put_bytes(out, OPACITY, &opacity.to_bits().to_be_bytes());
    }
    if let Some(thickness) = styles.thickness {
        put_bytes(out, THICKNESS, &thickness.to_be_bytes());
    }
    if let Some(size) = styles.size {
        put_bytes(out, SIZE, &size.to_be_bytes());
    }
    let dim = styles.desaturate_and_dim_for_unchanged_multiversion_line;
    let flags = [
        (SUBSCRIPT, styles.subscript),
        (SUPERSCRIPT, styles.superscript),
        (DIM, dim),
    ];
    for (tag, _) in flags.into_iter().filter(|(_, set)| *set) {
        put_bytes(out, tag, &[]);
    }
}
