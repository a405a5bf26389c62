//! The steps that write an accepted file, read off its fields: joins by their own steps where a block could be one.

use super::style;
use crate::field::{self, Field};
use crate::random::Random;
use crate::scribe::{Call, Record, UNSTYLED};
use crate::tags::*;
use crate::writer::Step;

/// The steps for the nodes of an accepted file, the last one included. Chance decides whether what could be a join is written as one.
pub fn calls(random: &mut Random, nodes: &[Field]) -> Vec<Call> {
    let mut reader = Reader {
        random,
        calls: Vec::new(),
    };
    reader.nodes(nodes);
    reader.bare(Step::Finish);
    reader.calls
}

struct Reader<'a> {
    random: &'a mut Random,
    calls: Vec<Call>,
}

impl Reader<'_> {
    fn bare(&mut self, step: Step) {
        self.calls.push(Call::bare(step));
    }

    fn text(&mut self, step: Step, node: &Field) {
        let (style, text) = run(node);
        self.calls.push(Call::with(step, style, text));
    }

    fn nodes(&mut self, mut nodes: &[Field]) {
        loop {
            nodes = match nodes {
                [] => return,
                [prefix, block, suffix, rest @ ..] if self.is_comma_join(block, suffix) => {
                    self.comma_join(prefix, field::inside(block), suffix);
                    rest
                }
                [header, block, rest @ ..] if self.is_space_join(block) => {
                    self.space_join(header, field::inside(block));
                    rest
                }
                [node, rest @ ..] => {
                    self.node(node);
                    rest
                }
            }
        }
    }

    fn node(&mut self, node: &Field) {
        match node {
            Field::Inner(TEXT, _) => self.text(Step::Text, node),
            Field::Inner(ANCHOR, parts) => self.anchor(parts),
            Field::Inner(tag, fragments) => self.block(*tag, fragments),
            Field::Leaf(BREAKING_ONLY_SPACE, _) => self.bare(Step::Space),
            Field::Leaf(FORCE_LINE_SEPARATION, _) => self.bare(Step::Force),
            Field::Leaf(_, text) => self
                .calls
                .push(Call::with(Step::Conditional, UNSTYLED, text)),
            Field::Loose(_) => unreachable!("an accepted file is fields"),
        }
    }

    fn anchor(&mut self, parts: &[Field]) {
        let [Field::Leaf(tag, name), runs @ ..] = parts else {
            unreachable!("an accepted anchor has a name");
        };
        let is_definition = *tag == DEFINITION;
        let open = if is_definition {
            Step::OpenDefinition
        } else {
            Step::OpenUse
        };
        self.calls.push(Call::with(open, UNSTYLED, name));
        for run in runs {
            self.text(Step::Text, run);
        }
        self.bare(Step::CloseAnchor);
    }

    fn block(&mut self, tag: u8, fragments: &[Field]) {
        let is_indented = tag == INDENTED_BLOCK;
        self.bare(if is_indented {
            Step::OpenIndented
        } else {
            Step::OpenInline
        });
        for fragment in fragments {
            self.bare(Step::OpenFragment);
            self.nodes(field::inside(fragment));
            self.bare(Step::CloseFragment);
        }
        self.bare(Step::CloseBlock);
    }

    fn is_space_join(&mut self, block: &Field) -> bool {
        let Field::Inner(INLINE_OR_INDENTED_BLOCK, entries) = block else {
            return false;
        };
        let mut entries = entries.iter().map(field::inside);
        entries.all(|nodes| nodes.first().is_some_and(is_space)) && self.random.one_in(2)
    }

    fn is_comma_join(&mut self, block: &Field, suffix: &Field) -> bool {
        let (Field::Inner(INLINE_OR_INDENTED_BLOCK, entries), Field::Inner(TEXT, _)) =
            (block, suffix)
        else {
            return false;
        };
        let fits = match entries.split_last() {
            None => true,
            Some((last, others)) => {
                field::inside(last).ends_with(&[last_comma()])
                    && others
                        .iter()
                        .all(|entry| field::inside(entry).ends_with(&comma()))
            }
        };
        fits && self.random.one_in(2)
    }

    fn space_join(&mut self, header: &Field, entries: &[Field]) {
        self.begin(header, Step::BeginSpace, Step::BeginSpaceBehind);
        for entry in entries {
            self.bare(Step::NextEntry);
            self.nodes(&field::inside(entry)[1..]);
        }
        self.bare(Step::EndSpace);
    }

    fn comma_join(&mut self, prefix: &Field, entries: &[Field], suffix: &Field) {
        self.begin(prefix, Step::BeginComma, Step::BeginCommaBehind);
        for (index, entry) in entries.iter().enumerate() {
            let nodes = field::inside(entry);
            let is_last = index + 1 == entries.len();
            let own = nodes.len() - if is_last { 1 } else { comma().len() };
            self.bare(Step::NextEntry);
            self.nodes(&nodes[..own]);
        }
        self.text(Step::EndComma, suffix);
    }

    /// The header of a join: a text may be given with the step.
    fn begin(&mut self, header: &Field, given: Step, behind: Step) {
        match header {
            Field::Inner(TEXT, _) if self.random.one_in(2) => self.text(given, header),
            _ => {
                self.node(header);
                self.bare(behind);
            }
        }
    }
}

fn is_space(node: &Field) -> bool {
    matches!(node, Field::Leaf(BREAKING_ONLY_SPACE, _))
}

/// What ends an entry of a comma join that another follows.
fn comma() -> [Field; 2] {
    [field::text(b","), field::leaf(BREAKING_ONLY_SPACE, [])]
}

fn last_comma() -> Field {
    field::leaf(IF_BLOCK_LAYOUT, b",")
}

/// The style and the bytes of a text.
fn run(text: &Field) -> (Record, &[u8]) {
    match field::inside(text) {
        [Field::Leaf(_, bytes)] => (UNSTYLED, bytes),
        [styles, Field::Leaf(_, bytes)] => (style::record(field::inside(styles)), bytes),
        _ => unreachable!("an accepted text is an optional 16 and a 17"),
    }
}
