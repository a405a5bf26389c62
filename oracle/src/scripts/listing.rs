//! Random listings, told twice: as trees that the original's own joins make, and as a writer's steps.

use super::style;
use crate::field::{self, Field};
use crate::generate::{styles, texts};
use crate::original::is_39;
use crate::print::pretty::{join_comma_sep, join_space, Fragment, Node, Styles};
use crate::random::Random;
use crate::scribe::{Call, Record, UNSTYLED};
use crate::tags::MOST_BLOCKS;
use crate::tree;
use crate::writer::Step;

/// The original asks for conditional texts that last.
const CONDITIONAL: [&str; 6] = [",", ";", "", "\n", "a\nb", "\u{20ac}"];

/// A text with its style, if it has one.
#[derive(Clone)]
struct Run {
    styles: Option<Vec<Field>>,
    text: String,
}

/// What a lister says, one thing after the other.
#[derive(Clone)]
enum Piece {
    Text(Run),
    Anchor(bool, String, Vec<Run>),
    Space,
    Force,
    Conditional(&'static str),
    Block(bool, Vec<Vec<Piece>>),
    SpaceJoin(Box<Piece>, Vec<Vec<Piece>>),
    CommaJoin(Box<Piece>, Vec<Vec<Piece>>, Run),
}

pub struct Listing(Vec<Piece>);

impl Listing {
    pub fn random(random: &mut Random) -> Self {
        let left = random.pick(&[3, 10, 30, 60]);
        let mut plan = Plan { random, left };
        let mut pieces = Vec::new();
        while plan.left > 0 {
            pieces.extend(plan.pieces(0));
        }
        Self(pieces)
    }

    /// The tree, made by the original's functions, of which underlines are lost.
    pub fn tree(&self) -> Fragment {
        fragment(&self.0)
    }

    /// The steps: joins by their own, with a header that is a text given or written before.
    pub fn calls(&self, random: &mut Random) -> Vec<Call> {
        let mut teller = Teller {
            random,
            calls: Vec::new(),
        };
        teller.pieces(&self.0);
        teller.bare(Step::Finish);
        teller.calls
    }
}

/// Chooses pieces; about so many are left to choose.
struct Plan<'a> {
    random: &'a mut Random,
    left: usize,
}

impl Plan<'_> {
    fn pieces(&mut self, blocks: usize) -> Vec<Piece> {
        let count = self.random.pick(&[0, 1, 1, 2, 3]);
        self.left = self.left.saturating_sub(1);
        let count = if self.left == 0 { count.min(1) } else { count };
        (0..count).map(|_| self.piece(blocks)).collect()
    }

    fn piece(&mut self, blocks: usize) -> Piece {
        self.left = self.left.saturating_sub(1);
        let open = blocks < MOST_BLOCKS && self.left > 0;
        match self.random.below(8) {
            0..=2 if open => {
                let header = Box::new(self.node(blocks));
                Piece::CommaJoin(header, self.entries(blocks), self.run())
            }
            3 | 4 if open => {
                let header = Box::new(self.node(blocks));
                Piece::SpaceJoin(header, self.entries(blocks))
            }
            _ => self.node(blocks),
        }
    }

    /// Of a join or a block: 0 to 5.
    fn entries(&mut self, blocks: usize) -> Vec<Vec<Piece>> {
        let count = self.random.below(6);
        (0..count).map(|_| self.pieces(blocks + 1)).collect()
    }

    /// A piece that is one node, and may be the header of a join.
    fn node(&mut self, blocks: usize) -> Piece {
        self.left = self.left.saturating_sub(1);
        let open = blocks < MOST_BLOCKS && self.left > 0;
        match self.random.below(10) {
            0 => Piece::Space,
            1 => Piece::Force,
            2 => Piece::Conditional(self.random.pick(&CONDITIONAL)),
            3 => self.anchor(),
            4 | 5 if open => Piece::Block(self.random.one_in(2), self.entries(blocks)),
            _ => Piece::Text(self.run()),
        }
    }

    fn anchor(&mut self) -> Piece {
        let name = utf8(texts::anchor(self.random));
        let is_definition = self.random.one_in(2);
        let runs = (0..self.random.below(3)).map(|_| self.run()).collect();
        Piece::Anchor(is_definition, name, runs)
    }

    fn run(&mut self) -> Run {
        let is_styled = self.random.one_in(3);
        Run {
            styles: is_styled.then(|| styles::any(self.random)),
            text: utf8(texts::text(self.random, 20)),
        }
    }
}

fn utf8(text: Vec<u8>) -> String {
    String::from_utf8(text).expect("a random text is UTF-8")
}

impl Run {
    /// What the original has of it, which is no underline.
    fn original(&self) -> (Option<Styles>, std::borrow::Cow<'static, str>) {
        let styles = self.styles.as_ref().map(|fields| {
            let fields = fields.iter().filter(|field| !is_39(field)).cloned();
            tree::styles(&field::encode(&fields.collect::<Vec<_>>()))
        });
        (styles, self.text.clone().into())
    }

    fn node(&self) -> Node {
        let (styles, text) = self.original();
        Node::Text(styles, text)
    }

    fn record(&self) -> Record {
        self.styles.as_deref().map_or(UNSTYLED, style::record)
    }
}

fn fragment(pieces: &[Piece]) -> Fragment {
    Fragment::new(pieces.iter().map(of_piece))
}

fn of_piece(piece: &Piece) -> Fragment {
    match piece {
        Piece::SpaceJoin(header, entries) => join_space(node(header), fragments(entries)),
        Piece::CommaJoin(prefix, entries, suffix) => {
            join_comma_sep(node(prefix), fragments(entries), suffix.node())
        }
        one => node(one).into(),
    }
}

fn fragments(entries: &[Vec<Piece>]) -> Vec<Fragment> {
    entries.iter().map(|pieces| fragment(pieces)).collect()
}

fn node(piece: &Piece) -> Node {
    match piece {
        Piece::Text(run) => run.node(),
        Piece::Anchor(is_def, name, runs) => Node::Anchor {
            is_def: *is_def,
            anchor: name.as_str().into(),
            text: runs.iter().map(Run::original).collect(),
        },
        Piece::Space => Node::BreakingOnlySpace,
        Piece::Force => Node::ForceLineSeparation,
        Piece::Conditional(text) => Node::IfBlockLayout(text),
        Piece::Block(true, inside) => Node::InlineOrIndentedBlock(fragments(inside)),
        Piece::Block(false, inside) => Node::IndentedBlock(fragments(inside)),
        Piece::SpaceJoin(..) | Piece::CommaJoin(..) => unreachable!("a join is no node"),
    }
}

/// Says the pieces in steps.
struct Teller<'a> {
    random: &'a mut Random,
    calls: Vec<Call>,
}

impl Teller<'_> {
    fn bare(&mut self, step: Step) {
        self.calls.push(Call::bare(step));
    }

    fn with_text(&mut self, step: Step, text: &str) {
        self.calls.push(Call::with(step, UNSTYLED, text.as_bytes()));
    }

    fn run(&mut self, step: Step, run: &Run) {
        let call = Call::with(step, run.record(), run.text.as_bytes());
        self.calls.push(call);
    }

    fn pieces(&mut self, pieces: &[Piece]) {
        for piece in pieces {
            self.piece(piece);
        }
    }

    fn piece(&mut self, piece: &Piece) {
        match piece {
            Piece::Text(run) => self.run(Step::Text, run),
            Piece::Anchor(is_definition, name, runs) => self.anchor(*is_definition, name, runs),
            Piece::Space => self.bare(Step::Space),
            Piece::Force => self.bare(Step::Force),
            Piece::Conditional(text) => self.with_text(Step::Conditional, text),
            Piece::Block(is_inline, inside) => self.block(*is_inline, inside),
            Piece::SpaceJoin(header, entries) => {
                self.begin(header, Step::BeginSpace, Step::BeginSpaceBehind);
                self.entries(entries);
                self.bare(Step::EndSpace);
            }
            Piece::CommaJoin(prefix, entries, suffix) => {
                self.begin(prefix, Step::BeginComma, Step::BeginCommaBehind);
                self.entries(entries);
                self.run(Step::EndComma, suffix);
            }
        }
    }

    fn anchor(&mut self, is_definition: bool, name: &str, runs: &[Run]) {
        let open = [Step::OpenUse, Step::OpenDefinition][usize::from(is_definition)];
        self.with_text(open, name);
        for run in runs {
            self.run(Step::Text, run);
        }
        self.bare(Step::CloseAnchor);
    }

    fn block(&mut self, is_inline: bool, inside: &[Vec<Piece>]) {
        self.bare([Step::OpenIndented, Step::OpenInline][usize::from(is_inline)]);
        for pieces in inside {
            self.bare(Step::OpenFragment);
            self.pieces(pieces);
            self.bare(Step::CloseFragment);
        }
        self.bare(Step::CloseBlock);
    }

    fn begin(&mut self, header: &Piece, given: Step, behind: Step) {
        match header {
            Piece::Text(run) if self.random.one_in(2) => self.run(given, run),
            _ => {
                self.piece(header);
                self.bare(behind);
            }
        }
    }

    fn entries(&mut self, entries: &[Vec<Piece>]) {
        for pieces in entries {
            self.bare(Step::NextEntry);
            self.pieces(pieces);
        }
    }
}
