//! A writer of fragment files: a method for each step, over a slice or over a vector that grows.

mod buffer;
mod nodes;

use crate::c::{self, answer};
use crate::step::Step;
use crate::style::{Style, Text};
use crate::Refusal;
pub use buffer::Buffer;
pub use nodes::Entries;

/// Writes a fragment file step by step, from its front to its end, into a buffer: a slice ([`Writer::new`]) or a vector that grows
/// ([`Writer::growing`]). [`Writer::finish`] hands the file over.
///
/// ```
/// use hazomeny::Writer;
///
/// let mut w = Writer::growing(Vec::new());
/// w.join_comma_sep("f(", ")", |arguments| {
///     arguments.entry(|w| w.text("a"))?;
///     arguments.entry(|w| w.text("b"))
/// })?;
/// let mut file = w.finish()?;
///
/// let mut page = Vec::new();
/// hazomeny::layout_file(&mut file, 6)?;
/// hazomeny::append_plain_page(&file, &mut page)?;
/// assert_eq!(page, b"f(\n  a,\n  b,\n)");
/// # Ok::<(), hazomeny::Refusal>(())
/// ```
///
/// A finished file is one that [`check_file`](crate::check_file) accepts. That is proved, and so is what each step writes.
///
/// # Steps
///
/// Each step says how many bytes are written so far, or why it was refused. A refused step changes nothing: neither the file nor where the
/// writer stands. So another step may follow, or the same one once more.
///
/// | Refused by | Where |
/// |---|---|
/// | [11](Refusal::OUT_OF_PLACE) | the step is not allowed where the writer stands |
/// | 8, 7, 9, in this order | the style is not allowed; the text or name is not UTF-8; an anchor's name has a `"` |
/// | 6 | a block, or a join, which has one, inside 32 blocks |
/// | 1 | the file would be longer than [`MOST_BYTES`](crate::MOST_BYTES) |
/// | [10](Refusal::PAGE_TOO_SHORT) | the slice is shorter than the file would be; a vector grows |
///
/// Nodes may stand at the top of the file, in a fragment of a block and in an entry of a join; in an anchor only texts may.
///
/// # By closures, or one by one
///
/// What has an inside can be written as a whole: [`join_space`](Self::join_space), [`join_comma_sep`](Self::join_comma_sep),
/// [`anchor_definition`](Self::anchor_definition), [`anchor_use`](Self::anchor_use), [`indented_block`](Self::indented_block),
/// [`inline_or_indented_block`](Self::inline_or_indented_block) and [`fragment`](Self::fragment) take a closure that writes the inside.
/// **All of it is written, or nothing**: if the closure answers a refusal, the writer stands again where it stood before. A closure can
/// neither leave what it is the inside of nor leave anything open in it; both are refused by 11.
///
/// The same can be done by steps that open and close, begin and end, which suits a program that walks a tree of its own.
///
/// ```
/// use hazomeny::Writer;
///
/// let mut room = [0; 100];
/// let mut w = Writer::new(&mut room);
/// w.begin_join_comma_sep("f(")?;
/// for name in ["a", "b"] {
///     w.next_entry()?;
///     w.text(name)?;
/// }
/// w.end_join_comma_sep(")")?;
/// assert_eq!(w.finish()?.len(), 52);
/// # Ok::<(), hazomeny::Refusal>(())
/// ```
#[must_use = "a file is whole only when `finish` has handed it over"]
#[derive(Debug)]
pub struct Writer<B> {
    buffer: B,
    /// As the library keeps it: how far the file is written, and the place of the innermost open field and 1, or 0 where none is open.
    state: [u32; 2],
    /// The open field, said as in `state`, that the running closure is the inside of.
    inside_of: Option<u32>,
}

impl<'a> Writer<&'a mut [u8]> {
    /// A writer into a slice, from its start.
    ///
    /// A step for which the slice is too short is refused by 10, with the bytes that the file would have. [`MOST_BYTES`](crate::MOST_BYTES) are
    /// always enough.
    ///
    /// ```
    /// let mut room = [0; 10];
    /// let mut w = hazomeny::Writer::new(&mut room);
    /// assert_eq!(w.text("ok"), Ok(8));
    /// assert_eq!(w.text("so?").unwrap_err().bytes_needed(), Some(17));
    /// assert_eq!(w.finish()?, b"\x01\0\x05\x11\0\x02ok");
    /// # Ok::<(), hazomeny::Refusal>(())
    /// ```
    pub fn new(room: &'a mut [u8]) -> Self {
        Self::over(room)
    }

    /// The file, which is the slice's front. Refused by 11 while anything is open, and then the writer is gone: what it had written is no file.
    pub fn finish(mut self) -> Result<&'a mut [u8], Refusal> {
        let length = self.plain_step(Step::Finish)?;
        Ok(&mut self.buffer[..length])
    }
}

impl Writer<Vec<u8>> {
    /// A writer into a vector, which grows as needed. What the vector holds is overwritten, so that one that was used before lends its room
    /// again.
    ///
    /// ```
    /// let mut w = hazomeny::Writer::growing(Vec::new());
    /// w.text("ok")?;
    /// assert_eq!(w.finish()?, b"\x01\0\x05\x11\0\x02ok");
    /// # Ok::<(), hazomeny::Refusal>(())
    /// ```
    pub fn growing(room: Vec<u8>) -> Self {
        Self::over(room)
    }

    /// The file. Refused by 11 while anything is open, and then the writer is gone: what it had written is no file.
    pub fn finish(mut self) -> Result<Vec<u8>, Refusal> {
        let length = self.plain_step(Step::Finish)?;
        self.buffer.truncate(length);
        Ok(self.buffer)
    }
}

/// The steps.
impl<B: Buffer> Writer<B> {
    /// A text, without a style or with one: `"a"`, or `style.apply("a")`. Also allowed in an anchor.
    #[inline]
    pub fn text<'t>(&mut self, text: impl Into<Text<'t>>) -> Result<usize, Refusal> {
        self.text_step(Step::Text, text.into())
    }

    /// A space, or a line's end in its place.
    #[inline]
    pub fn breaking_only_space(&mut self) -> Result<usize, Refusal> {
        self.plain_step(Step::BreakingOnlySpace)
    }

    /// What follows goes on another line than what stands before.
    #[inline]
    pub fn force_line_separation(&mut self) -> Result<usize, Refusal> {
        self.plain_step(Step::ForceLineSeparation)
    }

    /// A text that shows only where the block around it is broken into lines.
    #[inline]
    pub fn if_block_layout(&mut self, text: impl AsRef<[u8]>) -> Result<usize, Refusal> {
        self.named_step(Step::IfBlockLayout, text)
    }

    /// Opens an anchor that uses of its name lead to.
    #[inline]
    pub fn open_anchor_definition(&mut self, name: impl AsRef<[u8]>) -> Result<usize, Refusal> {
        self.named_step(Step::OpenAnchorDefinition, name)
    }

    /// Opens an anchor that leads to the definition of its name.
    #[inline]
    pub fn open_anchor_use(&mut self, name: impl AsRef<[u8]>) -> Result<usize, Refusal> {
        self.named_step(Step::OpenAnchorUse, name)
    }

    /// Closes the anchor.
    #[inline]
    pub fn close_anchor(&mut self) -> Result<usize, Refusal> {
        self.plain_step(Step::CloseAnchor)
    }

    /// Opens a block each fragment of which stands on lines of its own, indented.
    #[inline]
    pub fn open_indented_block(&mut self) -> Result<usize, Refusal> {
        self.plain_step(Step::OpenIndentedBlock)
    }

    /// Opens a block that stays on its line if it fits there; layout decides.
    #[inline]
    pub fn open_inline_or_indented_block(&mut self) -> Result<usize, Refusal> {
        self.plain_step(Step::OpenInlineOrIndentedBlock)
    }

    /// Closes the block.
    #[inline]
    pub fn close_block(&mut self) -> Result<usize, Refusal> {
        self.plain_step(Step::CloseBlock)
    }

    /// Opens a fragment of the block.
    #[inline]
    pub fn open_fragment(&mut self) -> Result<usize, Refusal> {
        self.plain_step(Step::OpenFragment)
    }

    /// Closes the fragment.
    #[inline]
    pub fn close_fragment(&mut self) -> Result<usize, Refusal> {
        self.plain_step(Step::CloseFragment)
    }

    /// Writes the header and begins a join by spaces behind it: `header a b`, or the entries on lines of their own.
    #[inline]
    pub fn begin_join_space<'t>(&mut self, header: impl Into<Text<'t>>) -> Result<usize, Refusal> {
        self.text_step(Step::BeginJoinSpace, header.into())
    }

    /// Begins a join by spaces behind the node just written, which may be of any kind and is the header.
    #[inline]
    pub fn begin_join_space_behind(&mut self) -> Result<usize, Refusal> {
        self.plain_step(Step::BeginJoinSpaceBehind)
    }

    /// Writes the prefix and begins a join by commas behind it: `prefix a, b suffix`, or the entries on lines of their own.
    #[inline]
    pub fn begin_join_comma_sep<'t>(
        &mut self,
        prefix: impl Into<Text<'t>>,
    ) -> Result<usize, Refusal> {
        self.text_step(Step::BeginJoinCommaSep, prefix.into())
    }

    /// Begins a join by commas behind the node just written, which may be of any kind and is the prefix.
    #[inline]
    pub fn begin_join_comma_sep_behind(&mut self) -> Result<usize, Refusal> {
        self.plain_step(Step::BeginJoinCommaSepBehind)
    }

    /// Begins the join's first or next entry, and writes what separates it from the one before.
    #[inline]
    pub fn next_entry(&mut self) -> Result<usize, Refusal> {
        self.plain_step(Step::NextEntry)
    }

    /// Ends the join by spaces.
    #[inline]
    pub fn end_join_space(&mut self) -> Result<usize, Refusal> {
        self.plain_step(Step::EndJoinSpace)
    }

    /// Ends the join by commas and writes its suffix.
    #[inline]
    pub fn end_join_comma_sep<'t>(
        &mut self,
        suffix: impl Into<Text<'t>>,
    ) -> Result<usize, Refusal> {
        self.text_step(Step::EndJoinCommaSep, suffix.into())
    }

    /// How many bytes are written so far.
    pub fn written(&self) -> usize {
        self.state[0] as usize
    }
}

/// What every step comes to.
impl<B: Buffer> Writer<B> {
    fn over(buffer: B) -> Self {
        Self {
            buffer,
            state: [0, 0],
            inside_of: None,
        }
    }

    #[inline]
    fn plain_step(&mut self, step: Step) -> Result<usize, Refusal> {
        self.step(step, &Style::NONE, b"")
    }

    #[inline]
    fn named_step(&mut self, step: Step, name: impl AsRef<[u8]>) -> Result<usize, Refusal> {
        self.step(step, &Style::NONE, name.as_ref())
    }

    #[inline]
    fn text_step(&mut self, step: Step, text: Text) -> Result<usize, Refusal> {
        self.step(step, &text.style, text.bytes)
    }

    /// A step that the buffer is too short for changed nothing: where the buffer can grow it is made once more.
    #[inline]
    fn step(&mut self, step: Step, style: &Style, text: &[u8]) -> Result<usize, Refusal> {
        if step.leaves() && self.inside_of == Some(self.state[1]) {
            return Err(self.out_of_place());
        }
        let said = self.call(step, style, text);
        match said.err().and_then(|refusal| refusal.bytes_needed()) {
            Some(needed) if self.buffer.grow(needed) => self.call(step, style, text),
            _ => said,
        }
    }

    #[inline]
    fn call(&mut self, step: Step, style: &Style, text: &[u8]) -> Result<usize, Refusal> {
        let room = self.buffer.room();
        // SAFETY: each pointer and length are those of one slice, state and style point to arrays of the lengths declared; style and text are
        // only read, buffer and state are borrowed alone for writing. The entry has no other precondition.
        answer(unsafe {
            c::hazomeny_write(
                room.as_mut_ptr(),
                room.len(),
                &mut self.state,
                step as u8,
                style.bytes(),
                text.as_ptr(),
                text.len(),
            )
        })
    }

    fn out_of_place(&self) -> Refusal {
        Refusal {
            number: Refusal::OUT_OF_PLACE,
            place: self.written(),
        }
    }
}
