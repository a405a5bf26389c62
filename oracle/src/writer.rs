//! A second writer of fragment files, for the judge: one step over any buffer and any state, written from document 02.
//!
//! It takes what the C function takes and answers as that has to. Each step is made on a copy of what is written so far, which has no end; only
//! then is it asked whether the copy is too long. It needs nothing but `tags.rs`, so that it can be built alone.

use crate::tags::*;

/// A style as the C function takes it: flags and values, the flag of an underline last.
pub type Style = [u8; 18];

/// No style at all.
pub const UNSTYLED: Style = [0; 18];

/// The steps, in the order of their numbers.
#[derive(Clone, Copy, Debug, PartialEq, Eq)]
pub enum Step {
    Text,
    Space,
    Force,
    Conditional,
    OpenDefinition,
    OpenUse,
    CloseAnchor,
    OpenIndented,
    OpenInline,
    CloseBlock,
    OpenFragment,
    CloseFragment,
    /// A join whose header or prefix is given with the step, or is the node just written.
    BeginSpace,
    BeginSpaceBehind,
    BeginComma,
    BeginCommaBehind,
    NextEntry,
    EndSpace,
    EndComma,
    Finish,
}

use Step::*;

impl Step {
    #[rustfmt::skip] // by fives
    pub const ALL: [Self; 20] = [
        Text, Space, Force, Conditional, OpenDefinition,
        OpenUse, CloseAnchor, OpenIndented, OpenInline, CloseBlock,
        OpenFragment, CloseFragment, BeginSpace, BeginSpaceBehind, BeginComma,
        BeginCommaBehind, NextEntry, EndSpace, EndComma, Finish,
    ];

    pub fn numbered(number: u8) -> Option<Self> {
        Self::ALL.get(usize::from(number)).copied()
    }

    /// The steps that bring a whole text node.
    pub fn takes_style(self) -> bool {
        matches!(self, Text | BeginSpace | BeginComma | EndComma)
    }

    pub fn takes_name(self) -> bool {
        matches!(self, OpenDefinition | OpenUse)
    }

    pub fn takes_text(self) -> bool {
        self.takes_style() || self.takes_name() || self == Conditional
    }

    pub fn begins_join(self) -> bool {
        let behind = [BeginSpaceBehind, BeginCommaBehind];
        matches!(self, BeginSpace | BeginComma) || behind.contains(&self)
    }

    pub fn opens_block(self) -> bool {
        matches!(self, OpenIndented | OpenInline) || self.begins_join()
    }
}

/// What an open field is, in the order of the codes that stand for it.
#[derive(Clone, Copy, PartialEq, Eq)]
enum Kind {
    BlockFragment,
    SpaceEntry,
    CommaEntry,
    Indented,
    Inline,
    SpaceJoin,
    CommaJoin,
    Anchor,
}

impl Kind {
    #[rustfmt::skip] // by fours
    const ALL: [Self; 8] = [
        Self::BlockFragment, Self::SpaceEntry, Self::CommaEntry, Self::Indented,
        Self::Inline, Self::SpaceJoin, Self::CommaJoin, Self::Anchor,
    ];

    /// Its code inside so many blocks; an anchor's code does not say how many.
    fn code(self, blocks: u8) -> u8 {
        let blocks = if self == Self::Anchor { 0 } else { blocks };
        32 * self as u8 + blocks
    }

    /// Its tag when it is closed.
    fn tag(self) -> u8 {
        match self {
            Self::BlockFragment | Self::SpaceEntry | Self::CommaEntry => FRAGMENT,
            Self::Indented => INDENTED_BLOCK,
            Self::Inline | Self::SpaceJoin | Self::CommaJoin => INLINE_OR_INDENTED_BLOCK,
            Self::Anchor => ANCHOR,
        }
    }

    /// The steps allowed while it is the innermost open field, beside those that put nodes into a fragment.
    fn steps(self) -> &'static [Step] {
        match self {
            Self::BlockFragment => &[CloseFragment],
            Self::SpaceEntry | Self::SpaceJoin => &[NextEntry, EndSpace],
            Self::CommaEntry | Self::CommaJoin => &[NextEntry, EndComma],
            Self::Indented | Self::Inline => &[OpenFragment, CloseBlock],
            Self::Anchor => &[Text, CloseAnchor],
        }
    }
}

/// What a refusal says: its number and its place.
type Refusal = (u8, usize);

/// One step over the buffer `file`. `state` is how far it is written, and the place of the innermost open field and 1, or 0 where none is open.
pub fn write(file: &mut [u8], state: &mut [u32; 2], step: u8, style: &Style, text: &[u8]) -> u64 {
    let call = Call { step, style, text };
    match call.made_on(file, *state) {
        Ok(after) => {
            let at = after.bytes.len();
            file[..at].copy_from_slice(&after.bytes);
            *state = [at as u32, after.top as u32];
            coded(0, at)
        }
        Err((number, place)) => coded(number, place),
    }
}

fn coded(number: u8, above: usize) -> u64 {
    (above as u64) << 8 | u64::from(number)
}

struct Call<'a> {
    step: u8,
    style: &'a Style,
    text: &'a [u8],
}

impl Call<'_> {
    /// All refusals in their order.
    fn made_on(&self, file: &[u8], state: [u32; 2]) -> Result<Written, Refusal> {
        let [at, top] = state.map(|number| number as usize);
        let mut written = Written::read(file, at, top).ok_or((11, at))?;
        let allowed = Step::numbered(self.step).filter(|step| written.allows(*step));
        let step = allowed.ok_or((11, at))?;
        if let Some(number) = self.fault(step, written.blocks()) {
            return Err((number, at));
        }
        self.make(step, &mut written);
        match written.bytes.len() {
            length if length > LONGEST_FILE => Err((1, at)),
            length if length > file.len() => Err((10, length)),
            _ => Ok(written),
        }
    }

    /// The first fault of what the step brings, and of where it would put a block.
    fn fault(&self, step: Step, blocks: u8) -> Option<u8> {
        let faults = [
            (8, step.takes_style() && !good_style(self.style)),
            (
                7,
                step.takes_text() && std::str::from_utf8(self.text).is_err(),
            ),
            (9, step.takes_name() && self.text.contains(&b'"')),
            (6, step.opens_block() && usize::from(blocks) == MOST_BLOCKS),
        ];
        let fault = faults.into_iter().find(|(_, is_there)| *is_there);
        fault.map(|(number, _)| number)
    }

    fn make(&self, step: Step, written: &mut Written) {
        match step {
            Text => written.put(&self.text_node()),
            Space => written.put(&SPACE),
            Force => written.put(&field(FORCE_LINE_SEPARATION, b"")),
            Conditional => written.put(&field(IF_BLOCK_LAYOUT, self.text)),
            OpenDefinition => self.open_anchor(written, DEFINITION),
            OpenUse => self.open_anchor(written, USE),
            OpenIndented => written.open(Kind::Indented),
            OpenInline => written.open(Kind::Inline),
            OpenFragment => written.open(Kind::BlockFragment),
            CloseAnchor | CloseBlock | CloseFragment => written.close(),
            BeginSpaceBehind => written.open(Kind::SpaceJoin),
            BeginCommaBehind => written.open(Kind::CommaJoin),
            BeginSpace | BeginComma => {
                written.put(&self.text_node());
                let is_space = step == BeginSpace;
                written.open(if is_space {
                    Kind::SpaceJoin
                } else {
                    Kind::CommaJoin
                });
            }
            NextEntry => written.next_entry(),
            EndSpace => written.end_join(b""),
            EndComma => {
                written.end_join(&field(IF_BLOCK_LAYOUT, b","));
                written.put(&self.text_node());
            }
            Finish => {}
        }
    }

    fn open_anchor(&self, written: &mut Written, tag: u8) {
        written.open(Kind::Anchor);
        written.put(&field(tag, self.text));
    }

    fn text_node(&self) -> Vec<u8> {
        text_node(self.style, self.text)
    }
}

/// What is written so far, of which the innermost open field has its header just before `top` + 2.
struct Written {
    bytes: Vec<u8>,
    top: usize,
}

impl Written {
    /// None for a state that no writer has.
    fn read(file: &[u8], at: usize, top: usize) -> Option<Self> {
        let bytes = file.get(..at)?.to_vec();
        let header_fits = top == 0 || top + 2 <= at;
        (at <= LONGEST_FILE && header_fits).then_some(Self { bytes, top })
    }

    /// The code of the innermost open field; none at the root.
    fn code(&self) -> Option<u8> {
        Some(self.bytes[self.top.checked_sub(1)?])
    }

    fn kind(&self) -> Option<Kind> {
        self.code().map(|code| Kind::ALL[usize::from(code / 32)])
    }

    /// The place of the field around the innermost one and 1, as its header says while it is open.
    fn link(&self) -> usize {
        usize::from(u16::from_be_bytes([
            self.bytes[self.top],
            self.bytes[self.top + 1],
        ]))
    }

    /// How many blocks a node has around it that is put here.
    fn blocks(&self) -> u8 {
        self.code().map_or(0, |code| code % 32 + 1)
    }

    fn allows(&self, step: Step) -> bool {
        use Kind::*;
        let kind = self.kind();
        match step {
            Finish => kind.is_none(),
            EndSpace if kind == Some(SpaceEntry) => self.can_close_two(),
            EndComma if kind == Some(CommaEntry) => self.can_close_two(),
            BeginSpaceBehind | BeginCommaBehind => self.holds_nodes() && self.has_own_node(),
            _ if kind.is_some_and(|kind| kind.steps().contains(&step)) => true,
            Step::Text | Space | Force | Conditional => self.holds_nodes(),
            OpenDefinition | OpenUse => self.holds_nodes(),
            _ => step.opens_block() && self.holds_nodes(),
        }
    }

    fn holds_nodes(&self) -> bool {
        use Kind::*;
        matches!(
            self.kind(),
            None | Some(BlockFragment | SpaceEntry | CommaEntry)
        )
    }

    /// Whether a node stands in the open fragment beside what a join put there.
    fn has_own_node(&self) -> bool {
        let start = match self.kind() {
            None => 0,
            Some(Kind::SpaceEntry) => self.top + 2 + SPACE.len(),
            Some(_) => self.top + 2,
        };
        self.bytes.len() > start
    }

    /// Whether the field around the innermost one can be one: it begins before.
    fn can_close_two(&self) -> bool {
        (1..self.top).contains(&self.link())
    }

    fn put(&mut self, bytes: &[u8]) {
        self.bytes.extend(bytes);
    }

    /// Opens a field here: a block counts the blocks around it, a fragment is counted as its block is.
    fn open(&mut self, kind: Kind) {
        let blocks = match kind.tag() {
            FRAGMENT => self.code().unwrap_or(0) % 32,
            _ => self.blocks(),
        };
        self.open_as(kind.code(blocks));
    }

    fn open_as(&mut self, code: u8) {
        let place = self.bytes.len();
        self.bytes.push(code);
        self.bytes.extend((self.top as u16).to_be_bytes());
        self.top = place + 1;
    }

    /// Closes the innermost open field: its header becomes a true one.
    fn close(&mut self) {
        let (kind, link) = (self.kind().expect("a field is open"), self.link());
        let length = (self.bytes.len() - self.top - 2) as u16;
        self.bytes[self.top - 1] = kind.tag();
        self.bytes[self.top..][..2].copy_from_slice(&length.to_be_bytes());
        self.top = link;
    }

    /// The first entry, or the end of an entry and the next one, which has the code of the one before.
    fn next_entry(&mut self) {
        match (self.kind(), self.code()) {
            (Some(Kind::SpaceJoin), _) => self.open(Kind::SpaceEntry),
            (Some(Kind::CommaJoin), _) => self.open(Kind::CommaEntry),
            (kind, code) => {
                if kind == Some(Kind::CommaEntry) {
                    self.put(&text_node(&UNSTYLED, b","));
                    self.put(&SPACE);
                }
                self.close();
                self.open_as(code.expect("an entry is open"));
            }
        }
        if self.kind() == Some(Kind::SpaceEntry) {
            self.put(&SPACE);
        }
    }

    /// Ends a join, with this behind its last entry if there is one.
    fn end_join(&mut self, behind_last: &[u8]) {
        if self.holds_nodes() {
            self.put(behind_last);
            self.close();
        }
        self.close();
    }
}

const SPACE: [u8; 3] = [BREAKING_ONLY_SPACE, 0, 0];

/// A value that is too long for a field makes the file too long, whatever length is said.
fn field(tag: u8, value: &[u8]) -> Vec<u8> {
    let [high, low] = (value.len() as u16).to_be_bytes();
    [&[tag, high, low], value].concat()
}

fn text_node(style: &Style, text: &[u8]) -> Vec<u8> {
    let bytes = field(TEXT_BYTES, text);
    match style_fields(style) {
        Some(fields) => field(TEXT, &[field(STYLES, &fields.concat()), bytes].concat()),
        None => field(TEXT, &bytes),
    }
}

/// The fields of a 16, rising; none where there is no 16.
fn style_fields(style: &Style) -> Option<Vec<Vec<u8>>> {
    let parts = [
        (style[1], COLOUR, &style[2..5]),
        (style[5], OPACITY, &style[6..10]),
        (style[10], THICKNESS, &style[11..12]),
        (style[12], SIZE, &style[13..14]),
        (style[14], SUBSCRIPT, &[]),
        (style[15], SUPERSCRIPT, &[]),
        (style[16], DIM, &[]),
        (style[17], UNDERLINE, &[]),
    ];
    let there = parts.into_iter().filter(|(flag, ..)| *flag != 0);
    let fields = there.map(|(_, tag, value)| field(tag, value)).collect();
    (style[0] != 0).then_some(fields)
}

fn good_style(style: &Style) -> bool {
    let fields = style_fields(style).unwrap_or_default();
    let has = |tag| fields.iter().any(|field| field[0] == tag);
    let good = |field: &Vec<u8>| match field[..] {
        [OPACITY, _, _, a, b, c, d] => {
            let bits = u32::from_be_bytes([a, b, c, d]);
            bits == 0 || (LEAST_OPACITY..=FULL_OPACITY).contains(&bits)
        }
        [SIZE, _, _, size] => size as i8 <= LARGEST_SIZE,
        _ => true,
    };
    let both_scripts = has(SUBSCRIPT) && has(SUPERSCRIPT);
    fields.iter().all(good) && (has(COLOUR) || !has(OPACITY)) && !both_scripts
}
