//! A file read off as the steps that write it, and what both sides make of them: the library the file, the Rust original its tree.

use hazomeny::{Refusal, Style, Writer};
use oracle::print::pretty::{Fragment, Node, Styles};
use oracle::tags::*;
use oracle::{lister, tree};
use std::borrow::Cow;
use std::{iter, slice, str};

/// A step with what it brings; a style stands in the form that the side it is for takes.
#[derive(Clone, Copy)]
enum Step<S> {
    Text(Option<S>, &'static str),
    BreakingOnlySpace,
    ForceLineSeparation,
    IfBlockLayout(&'static str),
    OpenAnchor { is_def: bool, name: &'static str },
    CloseAnchor,
    OpenBlock { inline: bool },
    CloseBlock,
    OpenFragment,
    CloseFragment,
}

/// The steps of a file for each side, prepared so that neither has to read or convert anything.
pub struct Steps {
    ours: Vec<Step<Style>>,
    rust: Vec<Step<Styles>>,
}

impl Steps {
    /// Those of an accepted file. The original's `IfBlockLayout` asks for a text that lasts, so the file is never freed: this program has a few of
    /// them and ends soon.
    pub fn of(file: &[u8]) -> Self {
        let mut rust = Vec::new();
        read_nodes(file.to_vec().leak(), &mut rust);
        Self {
            ours: rust.iter().map(ours).collect(),
            rust,
        }
    }

    /// Writes the file into the front of the room: one call of a writer's method for each step, and finish.
    pub fn write(&self, room: &mut [u8]) -> Result<usize, Refusal> {
        let mut w = Writer::new(room);
        for step in &self.ours {
            match step {
                Step::Text(None, text) => w.text(text)?,
                Step::Text(Some(style), text) => w.text(style.apply(text))?,
                Step::BreakingOnlySpace => w.breaking_only_space()?,
                Step::ForceLineSeparation => w.force_line_separation()?,
                Step::IfBlockLayout(text) => w.if_block_layout(text)?,
                Step::OpenAnchor { is_def: true, name } => w.open_anchor_definition(name)?,
                Step::OpenAnchor { name, .. } => w.open_anchor_use(name)?,
                Step::CloseAnchor => w.close_anchor()?,
                Step::OpenBlock { inline: true } => w.open_inline_or_indented_block()?,
                Step::OpenBlock { .. } => w.open_indented_block()?,
                Step::CloseBlock => w.close_block()?,
                Step::OpenFragment => w.open_fragment()?,
                Step::CloseFragment => w.close_fragment()?,
            };
        }
        w.finish().map(|file| file.len())
    }

    /// Builds the original's tree. Texts are borrowed; what is allocated are the lists of nodes, fragments and an anchor's texts, and its name.
    pub fn build(&self) -> Fragment {
        fragment(&mut self.rust.iter())
    }
}

/// The nodes up to the end of the fragment or of the file.
fn fragment(steps: &mut slice::Iter<Step<Styles>>) -> Fragment {
    Fragment {
        nodes: iter::from_fn(|| node(steps)).collect(),
    }
}

/// The next node, if there is one before the fragment's end.
fn node(steps: &mut slice::Iter<Step<Styles>>) -> Option<Node> {
    Some(match *steps.next()? {
        Step::Text(styles, text) => Node::Text(styles, Cow::Borrowed(text)),
        Step::BreakingOnlySpace => Node::BreakingOnlySpace,
        Step::ForceLineSeparation => Node::ForceLineSeparation,
        Step::IfBlockLayout(text) => Node::IfBlockLayout(text),
        Step::OpenAnchor { is_def, name } => Node::Anchor {
            is_def,
            anchor: name.into(),
            text: iter::from_fn(|| text_in_anchor(steps)).collect(),
        },
        Step::OpenBlock { inline: true } => Node::InlineOrIndentedBlock(fragments(steps)),
        Step::OpenBlock { .. } => Node::IndentedBlock(fragments(steps)),
        Step::CloseFragment => return None,
        Step::CloseAnchor | Step::CloseBlock | Step::OpenFragment => {
            unreachable!("they stand in an anchor or a block")
        }
    })
}

/// The next text, if there is one before the anchor's end.
fn text_in_anchor(
    steps: &mut slice::Iter<Step<Styles>>,
) -> Option<(Option<Styles>, Cow<'static, str>)> {
    match *steps.next()? {
        Step::Text(styles, text) => Some((styles, Cow::Borrowed(text))),
        _ => None,
    }
}

/// The fragments up to the end of the block.
fn fragments(steps: &mut slice::Iter<Step<Styles>>) -> Vec<Fragment> {
    let next = || match steps.next()? {
        Step::OpenFragment => Some(fragment(steps)),
        _ => None,
    };
    iter::from_fn(next).collect()
}

/// The step as the library takes it.
fn ours(step: &Step<Styles>) -> Step<Style> {
    match *step {
        Step::Text(styles, text) => Step::Text(styles.as_ref().map(lister::style), text),
        Step::BreakingOnlySpace => Step::BreakingOnlySpace,
        Step::ForceLineSeparation => Step::ForceLineSeparation,
        Step::IfBlockLayout(text) => Step::IfBlockLayout(text),
        Step::OpenAnchor { is_def, name } => Step::OpenAnchor { is_def, name },
        Step::CloseAnchor => Step::CloseAnchor,
        Step::OpenBlock { inline } => Step::OpenBlock { inline },
        Step::CloseBlock => Step::CloseBlock,
        Step::OpenFragment => Step::OpenFragment,
        Step::CloseFragment => Step::CloseFragment,
    }
}

/// The fields of an accepted value, one after the other.
fn fields(mut value: &'static [u8]) -> impl Iterator<Item = (u8, &'static [u8])> {
    iter::from_fn(move || {
        let (&[tag, high, low], rest) = value.split_first_chunk::<HEADER>()?;
        let (inside, rest) = rest.split_at(usize::from(u16::from_be_bytes([high, low])));
        value = rest;
        Some((tag, inside))
    })
}

fn utf8(value: &'static [u8]) -> &'static str {
    str::from_utf8(value).expect("an accepted text is UTF-8")
}

fn read_nodes(value: &'static [u8], steps: &mut Vec<Step<Styles>>) {
    for (tag, value) in fields(value) {
        match tag {
            TEXT => steps.push(read_text(value)),
            ANCHOR => read_anchor(value, steps),
            BREAKING_ONLY_SPACE => steps.push(Step::BreakingOnlySpace),
            FORCE_LINE_SEPARATION => steps.push(Step::ForceLineSeparation),
            IF_BLOCK_LAYOUT => steps.push(Step::IfBlockLayout(utf8(value))),
            block => read_block(block == INLINE_OR_INDENTED_BLOCK, value, steps),
        }
    }
}

fn read_block(inline: bool, value: &'static [u8], steps: &mut Vec<Step<Styles>>) {
    steps.push(Step::OpenBlock { inline });
    for (_, nodes) in fields(value) {
        steps.push(Step::OpenFragment);
        read_nodes(nodes, steps);
        steps.push(Step::CloseFragment);
    }
    steps.push(Step::CloseBlock);
}

fn read_anchor(value: &'static [u8], steps: &mut Vec<Step<Styles>>) {
    for (tag, value) in fields(value) {
        steps.push(match tag {
            TEXT => read_text(value),
            tag => Step::OpenAnchor {
                is_def: tag == DEFINITION,
                name: utf8(value),
            },
        });
    }
    steps.push(Step::CloseAnchor);
}

fn read_text(value: &'static [u8]) -> Step<Styles> {
    let (mut styles, mut text) = (None, "");
    for (tag, value) in fields(value) {
        match tag {
            STYLES => styles = Some(tree::styles(value)),
            _ => text = utf8(value),
        }
    }
    Step::Text(styles, text)
}
