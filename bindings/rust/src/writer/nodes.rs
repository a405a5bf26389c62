//! Nodes written as a whole, what is inside them by closures: all of a node, or nothing.

use super::{Buffer, Writer};
use crate::style::Text;
use crate::Refusal;

impl<B: Buffer> Writer<B> {
    /// A join by spaces: `header a b` where it fits, else the entries on lines of their own.
    ///
    /// ```
    /// let mut w = hazomeny::Writer::growing(Vec::new());
    /// w.join_space("return", |values| {
    ///     values.entry(|w| w.text("a"))?;
    ///     values.entry(|w| w.text("b"))
    /// })?;
    /// let mut page = Vec::new();
    /// hazomeny::append_plain_page(&w.finish()?, &mut page)?;
    /// assert_eq!(page, b"return a b");
    /// # Ok::<(), hazomeny::Refusal>(())
    /// ```
    pub fn join_space<'t, T>(
        &mut self,
        header: impl Into<Text<'t>>,
        entries: impl FnOnce(&mut Entries<'_, B>) -> Result<T, Refusal>,
    ) -> Result<usize, Refusal> {
        self.whole(|w| {
            w.begin_join_space(header)?;
            w.entries(entries)?;
            w.end_join_space()
        })
    }

    /// A join by spaces behind the node just written, which is its header. If the join is refused its header stays.
    ///
    /// ```
    /// let mut w = hazomeny::Writer::growing(Vec::new());
    /// w.anchor_use("ret", |w| w.text("return"))?;
    /// w.join_space_behind(|values| values.entry(|w| w.text("a")))?;
    /// # Ok::<(), hazomeny::Refusal>(())
    /// ```
    pub fn join_space_behind<T>(
        &mut self,
        entries: impl FnOnce(&mut Entries<'_, B>) -> Result<T, Refusal>,
    ) -> Result<usize, Refusal> {
        self.whole(|w| {
            w.begin_join_space_behind()?;
            w.entries(entries)?;
            w.end_join_space()
        })
    }

    /// A join by commas: `prefix a, b suffix` where it fits, else the entries on lines of their own, a comma behind each.
    ///
    /// ```
    /// let mut w = hazomeny::Writer::growing(Vec::new());
    /// w.join_comma_sep("f(", ")", |arguments| {
    ///     for name in ["a", "b"] {
    ///         arguments.entry(|w| w.text(name))?;
    ///     }
    ///     Ok(())
    /// })?;
    /// let mut page = Vec::new();
    /// hazomeny::append_plain_page(&w.finish()?, &mut page)?;
    /// assert_eq!(page, b"f(a, b)");
    /// # Ok::<(), hazomeny::Refusal>(())
    /// ```
    pub fn join_comma_sep<'p, 's, T>(
        &mut self,
        prefix: impl Into<Text<'p>>,
        suffix: impl Into<Text<'s>>,
        entries: impl FnOnce(&mut Entries<'_, B>) -> Result<T, Refusal>,
    ) -> Result<usize, Refusal> {
        self.whole(|w| {
            w.begin_join_comma_sep(prefix)?;
            w.entries(entries)?;
            w.end_join_comma_sep(suffix)
        })
    }

    /// A join by commas behind the node just written, which is its prefix. If the join is refused its prefix stays.
    ///
    /// ```
    /// let mut w = hazomeny::Writer::growing(Vec::new());
    /// w.anchor_use("f", |w| w.text("f("))?;
    /// w.join_comma_sep_behind(")", |arguments| arguments.entry(|w| w.text("a")))?;
    /// # Ok::<(), hazomeny::Refusal>(())
    /// ```
    pub fn join_comma_sep_behind<'s, T>(
        &mut self,
        suffix: impl Into<Text<'s>>,
        entries: impl FnOnce(&mut Entries<'_, B>) -> Result<T, Refusal>,
    ) -> Result<usize, Refusal> {
        self.whole(|w| {
            w.begin_join_comma_sep_behind()?;
            w.entries(entries)?;
            w.end_join_comma_sep(suffix)
        })
    }

    /// An anchor that uses of its name lead to, with the texts inside it.
    ///
    /// ```
    /// let mut w = hazomeny::Writer::growing(Vec::new());
    /// w.anchor_definition("T0", |w| w.text("T0"))?;
    /// w.text(" = f32")?;
    /// let mut page = Vec::new();
    /// hazomeny::append_html_body(&w.finish()?, &mut page)?;
    /// assert!(page.ends_with(b"<a id=\"T0\" href=\"#T0\">T0</a> = f32</pre>"));
    /// # Ok::<(), hazomeny::Refusal>(())
    /// ```
    pub fn anchor_definition<T>(
        &mut self,
        name: impl AsRef<[u8]>,
        texts: impl FnOnce(&mut Self) -> Result<T, Refusal>,
    ) -> Result<usize, Refusal> {
        self.whole(|w| {
            w.open_anchor_definition(name)?;
            w.inside(texts)?;
            w.close_anchor()
        })
    }

    /// An anchor that leads to the definition of its name, with the texts inside it.
    ///
    /// ```
    /// let mut w = hazomeny::Writer::growing(Vec::new());
    /// w.anchor_use("T0", |w| w.text("T0"))?;
    /// # Ok::<(), hazomeny::Refusal>(())
    /// ```
    pub fn anchor_use<T>(
        &mut self,
        name: impl AsRef<[u8]>,
        texts: impl FnOnce(&mut Self) -> Result<T, Refusal>,
    ) -> Result<usize, Refusal> {
        self.whole(|w| {
            w.open_anchor_use(name)?;
            w.inside(texts)?;
            w.close_anchor()
        })
    }

    /// A block each fragment of which stands on lines of its own, indented.
    ///
    /// ```
    /// let mut w = hazomeny::Writer::growing(Vec::new());
    /// w.text("{")?;
    /// w.indented_block(|w| {
    ///     w.fragment(|w| w.text("a;"))?;
    ///     w.fragment(|w| w.text("b;"))
    /// })?;
    /// w.text("}")?;
    /// let mut page = Vec::new();
    /// hazomeny::append_plain_page(&w.finish()?, &mut page)?;
    /// assert_eq!(page, b"{\n  a;\n  b;\n}");
    /// # Ok::<(), hazomeny::Refusal>(())
    /// ```
    pub fn indented_block<T>(
        &mut self,
        fragments: impl FnOnce(&mut Self) -> Result<T, Refusal>,
    ) -> Result<usize, Refusal> {
        self.whole(|w| {
            w.open_indented_block()?;
            w.inside(fragments)?;
            w.close_block()
        })
    }

    /// A block that stays on its line if it fits there; otherwise as [`indented_block`](Self::indented_block).
    pub fn inline_or_indented_block<T>(
        &mut self,
        fragments: impl FnOnce(&mut Self) -> Result<T, Refusal>,
    ) -> Result<usize, Refusal> {
        self.whole(|w| {
            w.open_inline_or_indented_block()?;
            w.inside(fragments)?;
            w.close_block()
        })
    }

    /// A fragment of the block that is open, with the nodes inside it.
    pub fn fragment<T>(
        &mut self,
        nodes: impl FnOnce(&mut Self) -> Result<T, Refusal>,
    ) -> Result<usize, Refusal> {
        self.whole(|w| {
            w.open_fragment()?;
            w.inside(nodes)?;
            w.close_fragment()
        })
    }

    /// All of a node, or nothing. What stands before the node is never changed by what is inside it, since a closure cannot leave what it is
    /// the inside of; so to stand again where it stood is to have written nothing.
    fn whole(
        &mut self,
        node: impl FnOnce(&mut Self) -> Result<usize, Refusal>,
    ) -> Result<usize, Refusal> {
        let before = self.state;
        let written = node(self);
        if written.is_err() {
            self.state = before;
        }
        written
    }

    /// Runs a closure as the inside of the field that was just opened. Meanwhile no step leaves that field (see `step`), and afterwards nothing
    /// may be open in it.
    fn inside<T>(
        &mut self,
        inside: impl FnOnce(&mut Self) -> Result<T, Refusal>,
    ) -> Result<(), Refusal> {
        let (opened, around) = (self.state[1], self.inside_of);
        self.inside_of = Some(opened);
        let written = inside(self);
        self.inside_of = around;
        written?;
        match self.state[1] == opened {
            true => Ok(()),
            false => Err(self.out_of_place()),
        }
    }

    fn entries<T>(
        &mut self,
        entries: impl FnOnce(&mut Entries<'_, B>) -> Result<T, Refusal>,
    ) -> Result<(), Refusal> {
        let mut join = Entries {
            writer: self,
            refused: Ok(()),
        };
        let written = entries(&mut join);
        join.refused?;
        written.map(drop)
    }
}

/// The entries of a join that is being written.
#[derive(Debug)]
pub struct Entries<'w, B> {
    writer: &'w mut Writer<B>,
    /// Why an entry was refused, and with it the whole join.
    refused: Result<(), Refusal>,
}

impl<B: Buffer> Entries<'_, B> {
    /// The next entry, with the nodes inside it. If it is refused so is the join, whatever the closure that has the entries answers, and no other
    /// entry is begun.
    pub fn entry<T>(
        &mut self,
        nodes: impl FnOnce(&mut Writer<B>) -> Result<T, Refusal>,
    ) -> Result<usize, Refusal> {
        self.refused?;
        let begun = self.writer.next_entry();
        self.refused = begun.and_then(|_| self.writer.inside(nodes));
        self.refused.map(|()| self.writer.written())
    }
}
