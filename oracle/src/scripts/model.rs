//! A writer as it is thought of: a stack of open fields over finished trees. Answers, state and buffer follow from that.
//!
//! Nothing is written until it is asked for: a join keeps its entries as they were given and becomes a block as the original's joins do.

use super::style;
use crate::check::{check, Refusal};
use crate::field::{self, Field};
use crate::scribe::Call;
use crate::tags::*;
use crate::writer::Step;

/// Nodes one after the other.
type Nodes = Vec<Field>;

#[derive(Clone, Copy, PartialEq, Eq)]
enum Join {
    Space,
    Comma,
}

/// An open field with what is finished inside.
#[derive(Clone)]
enum Open {
    /// The name and the runs.
    Anchor(Vec<Field>),
    Block(u8, Vec<Nodes>),
    Fragment(Nodes),
    /// The entries that are ended; another follows each of them.
    Join(Join, Vec<Nodes>),
    Entry(Join, Nodes),
}

/// The writer as a stack; `root` are the finished nodes of the file.
#[derive(Clone, Default)]
pub struct Model {
    root: Nodes,
    open: Vec<Open>,
    seen: Seen,
}

/// What the buffer begins with, and the state.
#[derive(Clone, Default, PartialEq, Eq)]
pub struct Seen {
    pub bytes: Vec<u8>,
    pub state: [u32; 2],
}

impl Model {
    /// Makes a step in a buffer of so many bytes, if nothing is wrong with it: how far the file is written then.
    pub fn make(&mut self, call: &Call, room: usize) -> Result<usize, Refusal> {
        let at = self.seen.bytes.len();
        let refused = |number, place| Err(Refusal { number, place });
        let Some(mut made) = self.made(call) else {
            return refused(11, at);
        };
        if let Some(number) = fault(call) {
            return refused(number, at);
        }
        if made.blocks() > MOST_BLOCKS {
            return refused(6, at);
        }
        made.seen = made.look();
        match made.seen.bytes.len() {
            length if length > LONGEST_FILE => refused(1, at),
            length if length > room => refused(10, length),
            length => {
                *self = made;
                Ok(length)
            }
        }
    }

    pub fn seen(&self) -> &Seen {
        &self.seen
    }

    /// The tree of a finished file; none while a field is open.
    pub fn tree(&self) -> Option<&[Field]> {
        self.open.is_empty().then_some(&self.root)
    }

    /// Which of these steps the open fields allow.
    pub fn allowed(&self, steps: &[Step]) -> Vec<Step> {
        // No step looks further out than the end of a join: at the entry, the join and the fragment around it.
        let inner = self.open.len().saturating_sub(3);
        let inner = Self {
            root: self.root.iter().take(1).cloned().collect(),
            open: self.open[inner..].to_vec(),
            seen: Seen::default(),
        };
        let steps = steps.iter().copied();
        let allowed = steps.filter(|step| inner.made(&Call::bare(*step)).is_some());
        allowed.collect()
    }

    /// Follows a step that was accepted, and keeps only what tells which may come next: whether there is a node.
    pub fn follow(&mut self, call: &Call) {
        let Some(made) = self.made(call) else {
            return;
        };
        *self = made;
        self.root.truncate(1);
        for open in &mut self.open {
            match open {
                Open::Anchor(fields) | Open::Fragment(fields) | Open::Entry(_, fields) => {
                    fields.truncate(1);
                }
                Open::Block(_, fragments) | Open::Join(_, fragments) => fragments.clear(),
            }
        }
    }

    /// How many blocks are open.
    fn blocks(&self) -> usize {
        let is_block = |open: &&Open| matches!(open, Open::Block(..) | Open::Join(..));
        self.open.iter().filter(is_block).count()
    }

    /// The nodes of the open fragment, if it is one.
    fn nodes(&mut self) -> Option<&mut Nodes> {
        match self.open.last_mut() {
            None => Some(&mut self.root),
            Some(Open::Fragment(nodes) | Open::Entry(_, nodes)) => Some(nodes),
            Some(_) => None,
        }
    }

    /// The same with the step made; none if the open fields do not allow it.
    fn made(&self, call: &Call) -> Option<Self> {
        let mut new = self.clone();
        match Step::numbered(call.step)? {
            Step::Text => new.put_text(call)?,
            Step::Space => new.nodes()?.push(space()),
            Step::Force => new.nodes()?.push(field::leaf(FORCE_LINE_SEPARATION, [])),
            Step::Conditional => new.nodes()?.push(conditional(&call.text)),
            Step::OpenDefinition => new.open_anchor(DEFINITION, call)?,
            Step::OpenUse => new.open_anchor(USE, call)?,
            Step::OpenIndented => new.open_node(Open::Block(INDENTED_BLOCK, Vec::new()))?,
            Step::OpenInline => new.open_node(Open::Block(INLINE_OR_INDENTED_BLOCK, Vec::new()))?,
            Step::OpenFragment => new.open_fragment()?,
            Step::CloseAnchor | Step::CloseBlock | Step::CloseFragment => new.close(call.step)?,
            Step::BeginSpace => new.begin(Join::Space, Some(call))?,
            Step::BeginSpaceBehind => new.begin(Join::Space, None)?,
            Step::BeginComma => new.begin(Join::Comma, Some(call))?,
            Step::BeginCommaBehind => new.begin(Join::Comma, None)?,
            Step::NextEntry => new.next_entry()?,
            Step::EndSpace => new.end(Join::Space)?,
            Step::EndComma => {
                new.end(Join::Comma)?;
                new.nodes()?.push(text_node(call));
            }
            Step::Finish => new.tree().map(|_| ())?,
        }
        Some(new)
    }

    fn put_text(&mut self, call: &Call) -> Option<()> {
        match self.open.last_mut() {
            Some(Open::Anchor(parts)) => parts.push(text_node(call)),
            _ => self.nodes()?.push(text_node(call)),
        }
        Some(())
    }

    /// Opens a field where a node may stand.
    fn open_node(&mut self, open: Open) -> Option<()> {
        self.nodes()?;
        self.open.push(open);
        Some(())
    }

    fn open_anchor(&mut self, tag: u8, call: &Call) -> Option<()> {
        self.open_node(Open::Anchor(vec![field::leaf(tag, &call.text[..])]))
    }

    fn open_fragment(&mut self) -> Option<()> {
        let in_block = matches!(self.open.last()?, Open::Block(..));
        self.open.push(Open::Fragment(Vec::new()));
        in_block.then_some(())
    }

    /// Closes the innermost field by the step of its kind.
    fn close(&mut self, step: u8) -> Option<()> {
        match (self.open.pop()?, Step::numbered(step)?) {
            (Open::Anchor(parts), Step::CloseAnchor) => {
                self.nodes()?.push(Field::Inner(ANCHOR, parts));
            }
            (Open::Block(tag, fragments), Step::CloseBlock) => {
                self.nodes()?.push(field::block(tag, fragments));
            }
            (Open::Fragment(nodes), Step::CloseFragment) => match self.open.last_mut()? {
                Open::Block(_, fragments) => fragments.push(nodes),
                _ => return None,
            },
            _ => return None,
        }
        Some(())
    }

    /// Begins a join behind its header, which is given or the node just written.
    fn begin(&mut self, join: Join, header: Option<&Call>) -> Option<()> {
        let nodes = self.nodes()?;
        nodes.extend(header.map(text_node));
        nodes.last()?;
        self.open_node(Open::Join(join, Vec::new()))
    }

    fn next_entry(&mut self) -> Option<()> {
        self.end_entry();
        let Open::Join(join, _) = self.open.last()? else {
            return None;
        };
        let entry = Open::Entry(*join, Vec::new());
        self.open.push(entry);
        Some(())
    }

    /// Hands an entry that is open to its join.
    fn end_entry(&mut self) {
        if let [.., Open::Join(_, entries), Open::Entry(_, nodes)] = &mut self.open[..] {
            entries.push(std::mem::take(nodes));
            self.open.pop();
        }
    }

    fn end(&mut self, join: Join) -> Option<()> {
        self.end_entry();
        match self.open.pop()? {
            Open::Join(of, entries) if of == join => {
                let block = field::block(INLINE_OR_INDENTED_BLOCK, joined(join, entries, true));
                self.nodes()?.push(block);
                Some(())
            }
            _ => None,
        }
    }

    /// The bytes and the state, from the root inward.
    fn look(&self) -> Seen {
        let mut bytes = field::encode(&self.root);
        let (mut top, mut blocks) = (0, 0);
        for open in &self.open {
            let place = bytes.len();
            let is_block = matches!(open, Open::Block(..) | Open::Join(..));
            let around = match open {
                Open::Anchor(_) => 0,
                Open::Fragment(_) | Open::Entry(..) => blocks - 1,
                Open::Block(..) | Open::Join(..) => blocks,
            };
            blocks += u8::from(is_block);
            bytes.push(32 * open.kind() + around);
            bytes.extend((top as u16).to_be_bytes());
            open.put_inside(&mut bytes);
            top = place + 1;
        }
        let state = [bytes.len() as u32, top as u32];
        Seen { bytes, state }
    }
}

impl Open {
    /// What its header says while it is open.
    fn kind(&self) -> u8 {
        match self {
            Self::Fragment(_) => 0,
            Self::Entry(Join::Space, _) => 1,
            Self::Entry(Join::Comma, _) => 2,
            Self::Block(INDENTED_BLOCK, _) => 3,
            Self::Block(..) => 4,
            Self::Join(Join::Space, _) => 5,
            Self::Join(Join::Comma, _) => 6,
            Self::Anchor(_) => 7,
        }
    }

    /// The bytes behind its header.
    fn put_inside(&self, bytes: &mut Vec<u8>) {
        match self {
            Self::Fragment(nodes) | Self::Entry(Join::Comma, nodes) => {
                bytes.extend(field::encode(nodes));
            }
            Self::Entry(Join::Space, nodes) => {
                bytes.extend(field::encode(&[space()]));
                bytes.extend(field::encode(nodes));
            }
            Self::Block(_, fragments) => put_fragments(bytes, fragments),
            Self::Join(join, entries) => {
                put_fragments(bytes, &joined(*join, entries.clone(), false));
            }
            Self::Anchor(parts) => bytes.extend(field::encode(parts)),
        }
    }
}

fn put_fragments(bytes: &mut Vec<u8>, fragments: &[Nodes]) {
    for nodes in fragments {
        let inside = field::encode(nodes);
        bytes.push(FRAGMENT);
        bytes.extend((inside.len() as u16).to_be_bytes());
        bytes.extend(inside);
    }
}

/// The fragments that a join makes of its entries: all of them, or those that another follows.
fn joined(join: Join, mut entries: Vec<Nodes>, all: bool) -> Vec<Nodes> {
    if join == Join::Space {
        return entries.iter().map(|nodes| behind_space(nodes)).collect();
    }
    let last = if all { entries.pop() } else { None };
    for entry in &mut entries {
        entry.extend([field::text(b","), space()]);
    }
    entries.extend(last.map(|mut nodes| {
        nodes.push(conditional(b","));
        nodes
    }));
    entries
}

fn behind_space(nodes: &[Field]) -> Nodes {
    [&[space()], nodes].concat()
}

fn space() -> Field {
    field::leaf(BREAKING_ONLY_SPACE, [])
}

fn conditional(text: &[u8]) -> Field {
    field::leaf(IF_BLOCK_LAYOUT, text)
}

fn text_node(call: &Call) -> Field {
    match style::fields(&call.style) {
        Some(styles) => field::styled(styles, &call.text[..]),
        None => field::text(&call.text[..]),
    }
}

/// What the file check would say of the style, then of the text; the text may be too long for a file.
fn fault(call: &Call) -> Option<u8> {
    let step = Step::numbered(call.step)?;
    let of_style = step.takes_style().then(|| {
        let styled = Call {
            text: Vec::new(),
            ..call.clone()
        };
        check(&field::encode(&[text_node(&styled)])).err()
    });
    if let Some(Some(refusal)) = of_style {
        return Some(refusal.number);
    }
    if !step.takes_text() {
        return None;
    }
    match std::str::from_utf8(&call.text) {
        Err(_) => Some(7),
        Ok(name) => (step.takes_name() && name.contains('"')).then_some(9),
    }
}
