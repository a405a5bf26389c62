//! For a lister that builds trees of the original's `Fragment` and `Node`: the steps that write such a tree as a fragment file.
//!
//! It uses nothing but `hazomeny::Writer`, so a user of `pretty.rs` can take this one file over, keep the lister as it is, and hand what it
//! builds to [`list`] in place of `layout_with_max_line_width`. `oracle lister` shows that on a small listing. The joins of a tree are blocks and
//! texts by then, and are written as such, which gives the same file as the writer's own joins. A new lister needs no tree: it calls the writer.

use crate::print::pretty::{Fragment, Node, Styles};
use hazomeny::{Buffer, Refusal, Style, Writer};

/// The file of a tree, at the front of the buffer.
pub fn list<'a>(tree: &Fragment, room: &'a mut [u8]) -> Result<&'a mut [u8], Refusal> {
    let mut writer = Writer::new(room);
    put_nodes(&mut writer, tree)?;
    writer.finish()
}

/// Puts the nodes of a fragment where the writer stands.
pub fn put_nodes(writer: &mut Writer<impl Buffer>, fragment: &Fragment) -> Result<(), Refusal> {
    for node in &fragment.nodes {
        put_node(writer, node)?;
    }
    Ok(())
}

fn put_node(writer: &mut Writer<impl Buffer>, node: &Node) -> Result<(), Refusal> {
    match node {
        Node::Text(styles, text) => put_text(writer, styles, text)?,
        Node::Anchor {
            is_def,
            anchor,
            text,
        } => {
            match is_def {
                true => writer.open_anchor_definition(&**anchor)?,
                false => writer.open_anchor_use(&**anchor)?,
            };
            for (styles, text) in text {
                put_text(writer, styles, text)?;
            }
            writer.close_anchor()?
        }
        Node::IndentedBlock(fragments) => {
            writer.open_indented_block()?;
            put_fragments(writer, fragments)?
        }
        Node::InlineOrIndentedBlock(fragments) => {
            writer.open_inline_or_indented_block()?;
            put_fragments(writer, fragments)?
        }
        Node::BreakingOnlySpace => writer.breaking_only_space()?,
        Node::ForceLineSeparation => writer.force_line_separation()?,
        Node::IfBlockLayout(text) => writer.if_block_layout(text)?,
    };
    Ok(())
}

/// The fragments of the block that is open, and its end.
fn put_fragments(
    writer: &mut Writer<impl Buffer>,
    fragments: &[Fragment],
) -> Result<usize, Refusal> {
    for fragment in fragments {
        writer.open_fragment()?;
        put_nodes(writer, fragment)?;
        writer.close_fragment()?;
    }
    writer.close_block()
}

fn put_text(
    writer: &mut Writer<impl Buffer>,
    styles: &Option<Styles>,
    text: &str,
) -> Result<usize, Refusal> {
    match styles {
        Some(styles) => writer.text(style(styles).apply(text)),
        None => writer.text(text),
    }
}

/// What the original's styles are to the writer.
pub fn style(styles: &Styles) -> Style {
    let mut style = Style::new();
    if let Some(colour) = styles.color {
        style = style.colour(colour);
    }
    if let Some(opacity) = styles.color_opacity {
        style = style.opacity(opacity);
    }
    if let Some(thickness) = styles.thickness {
        style = style.thickness(thickness);
    }
    if let Some(size) = styles.size {
        style = style.size(size);
    }
    if styles.subscript {
        style = style.subscript();
    }
    if styles.superscript {
        style = style.superscript();
    }
    if styles.desaturate_and_dim_for_unchanged_multiversion_line {
        style = style.dim();
    }
    style
}
