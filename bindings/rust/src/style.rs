//! What a text looks like, and a text with its style, as a writer's step takes them.

/// How many bytes the library takes a style in.
pub(crate) const STYLE_BYTES: usize = 18;

/// Where each part of a style stands in its bytes. A flag says whether the part behind it counts.
mod at {
    pub const STYLED: usize = 0;
    pub const HAS_COLOUR: usize = 1;
    pub const COLOUR: usize = 2;
    pub const HAS_OPACITY: usize = 5;
    pub const OPACITY: usize = 6;
    pub const HAS_THICKNESS: usize = 10;
    pub const THICKNESS: usize = 11;
    pub const HAS_SIZE: usize = 12;
    pub const SIZE: usize = 13;
    pub const SUBSCRIPT: usize = 14;
    pub const SUPERSCRIPT: usize = 15;
    pub const DIM: usize = 16;
    pub const UNDERLINE: usize = 17;
}

/// The style of a text. It is built up from [`Style::new`], and [`Style::apply`] gives it to a text.
///
/// ```
/// use hazomeny::{Style, Writer};
///
/// const KEYWORD: Style = Style::new().colour([0x7c, 0x3a, 0xed]).thickness(1);
///
/// let mut w = Writer::growing(Vec::new());
/// w.text(KEYWORD.apply("type"))?;
/// w.text(" T")?;
/// w.text(Style::new().subscript().underline().apply("0"))?;
/// assert_eq!(hazomeny::check_file(&w.finish()?), Ok(0));
/// # Ok::<(), hazomeny::Refusal>(())
/// ```
///
/// Not every style is allowed: an opacity needs a colour beside it, and is 0 or from 1/1024 to 1; a size is at most 117; and a text is not both
/// subscript and superscript. A step with another style is refused by 8.
//
// It is kept as the library takes it, so that nothing is left to be done at each step.
#[derive(Clone, Copy, Debug, PartialEq, Eq, Hash)]
pub struct Style([u8; STYLE_BYTES]);

impl Style {
    /// What a text without a style is written with. It is no style: see [`Style::new`].
    pub(crate) const NONE: Self = Self([0; STYLE_BYTES]);

    /// A style that says nothing yet. It is a style all the same: in HTML it opens and closes a `span`, which a text without one does not.
    pub const fn new() -> Self {
        Self::NONE.with(at::STYLED)
    }

    /// Of this colour: red, green and blue.
    pub const fn colour(self, [red, green, blue]: [u8; 3]) -> Self {
        let mut style = self.with(at::HAS_COLOUR);
        style.0[at::COLOUR] = red;
        style.0[at::COLOUR + 1] = green;
        style.0[at::COLOUR + 2] = blue;
        style
    }

    /// How opaque the colour is: from 1/1024 to 1, or 0.
    pub fn opacity(self, opacity: f32) -> Self {
        let mut style = self.with(at::HAS_OPACITY);
        style.0[at::OPACITY..at::HAS_THICKNESS].copy_from_slice(&opacity.to_bits().to_be_bytes());
        style
    }

    /// Thicker than usual by so many steps, or thinner if it is negative: a step is 100 of CSS's `font-weight`.
    pub const fn thickness(self, thickness: i8) -> Self {
        let mut style = self.with(at::HAS_THICKNESS);
        style.0[at::THICKNESS] = thickness as u8;
        style
    }

    /// Larger than usual by so many tenths of an em, or smaller if it is negative; at most 117.
    pub const fn size(self, size: i8) -> Self {
        let mut style = self.with(at::HAS_SIZE);
        style.0[at::SIZE] = size as u8;
        style
    }

    /// Below the line, and smaller by two tenths where no size is said.
    pub const fn subscript(self) -> Self {
        self.with(at::SUBSCRIPT)
    }

    /// Above the line, and smaller by two tenths where no size is said.
    pub const fn superscript(self) -> Self {
        self.with(at::SUPERSCRIPT)
    }

    /// Dim and with less colour, for what is the same in several versions of a listing.
    pub const fn dim(self) -> Self {
        self.with(at::DIM)
    }

    /// Underlined, for what is to stand out, such as an operand that has changed. It is no wider by that.
    pub const fn underline(self) -> Self {
        self.with(at::UNDERLINE)
    }

    /// The text in this style.
    pub fn apply<T: AsRef<[u8]> + ?Sized>(self, text: &T) -> Text<'_> {
        Text {
            style: self,
            bytes: text.as_ref(),
        }
    }

    pub(crate) fn bytes(&self) -> &[u8; STYLE_BYTES] {
        &self.0
    }

    const fn with(mut self, flag: usize) -> Self {
        self.0[flag] = 1;
        self
    }
}

impl Default for Style {
    fn default() -> Self {
        Self::new()
    }
}

/// A text as a step takes it: a string or bytes without a style, or what [`Style::apply`] gives.
///
/// Bytes that are not UTF-8 are refused by 7.
#[derive(Clone, Copy, Debug)]
pub struct Text<'a> {
    pub(crate) style: Style,
    pub(crate) bytes: &'a [u8],
}

impl<'a, T: AsRef<[u8]> + ?Sized> From<&'a T> for Text<'a> {
    fn from(text: &'a T) -> Self {
        Style::NONE.apply(text)
    }
}
