//! Writes the listing of a small shader module, with colours, subscripts, an underlined operand, anchors and joins in joins, and prints it at
//! widths 80 and 36.

use hazomeny::{append_plain_page, layout_file, Buffer, Refusal, Style, Writer};
use std::io::{self, Write};
use std::process::ExitCode;

const KEYWORD: Style = Style::new().colour([0x7c, 0x3a, 0xed]).thickness(1);
const NAME: Style = Style::new().colour([0x1d, 0x4e, 0xd8]);
/// What a pass over the module has changed.
const CHANGED: Style = NAME.underline();
const NUMBER: Style = Style::new().colour([0xb4, 0x53, 0x09]);
const NOTE: Style = Style::new().size(-1).dim();

/// How an id is called: by its kind and its number among those.
#[derive(Clone, Copy)]
struct Id(&'static str, u32);

const FLOAT: Id = Id("T", 0);
const VECTOR: Id = Id("T", 1);
const FADE: Id = Id("F", 0);
const COLOUR: Id = Id("v", 0);
const FOG: Id = Id("v", 1);
const FADED: Id = Id("v", 2);

impl Id {
    fn anchor(self) -> String {
        format!("{}{}", self.0, self.1)
    }

    fn texts(self, style: Style, w: &mut Writer<impl Buffer>) -> Result<usize, Refusal> {
        w.text(style.apply(self.0))?;
        w.text(style.subscript().apply(&self.1.to_string()))
    }

    /// Where it is defined, which its uses link to.
    fn defined(self, w: &mut Writer<impl Buffer>) -> Result<usize, Refusal> {
        w.anchor_definition(self.anchor(), |w| self.texts(NAME, w))
    }

    fn used(self, w: &mut Writer<impl Buffer>) -> Result<usize, Refusal> {
        w.anchor_use(self.anchor(), |w| self.texts(NAME, w))
    }

    /// A use that was another id's before.
    fn used_anew(self, w: &mut Writer<impl Buffer>) -> Result<usize, Refusal> {
        w.anchor_use(self.anchor(), |w| self.texts(CHANGED, w))
    }
}

/// `id: type`
fn typed(w: &mut Writer<impl Buffer>, id: Id, of: Id) -> Result<usize, Refusal> {
    id.defined(w)?;
    w.text(": ")?;
    of.used(w)
}

fn module(w: &mut Writer<impl Buffer>) -> Result<usize, Refusal> {
    w.text(NOTE.apply("// fade.frag"))?;
    w.force_line_separation()?;
    w.text(KEYWORD.apply("module"))?;
    w.join_comma_sep(" spv(", ")", |parts| {
        parts.entry(|w| {
            w.text("version: ")?;
            w.text(NUMBER.apply("1.4"))
        })?;
        parts.entry(|w| {
            w.join_comma_sep("capabilities: [", "]", |capabilities| {
                for name in ["Shader", "ImageQuery", "Float16"] {
                    capabilities.entry(|w| w.text(name))?;
                }
                Ok(())
            })
        })
    })?;
    w.text("\n\n")
}

fn types(w: &mut Writer<impl Buffer>) -> Result<usize, Refusal> {
    w.text(KEYWORD.apply("type "))?;
    FLOAT.defined(w)?;
    w.text(" = f32")?;
    w.force_line_separation()?;
    w.text(KEYWORD.apply("type "))?;
    VECTOR.defined(w)?;
    w.join_comma_sep(" = vec(", ")", |parts| {
        parts.entry(|w| FLOAT.used(w))?;
        parts.entry(|w| w.text(NUMBER.apply("3")))
    })?;
    w.text("\n\n")
}

fn function(w: &mut Writer<impl Buffer>) -> Result<usize, Refusal> {
    w.text(KEYWORD.apply("func "))?;
    FADE.defined(w)?;
    w.join_comma_sep("(", ") -> ", |parameters| {
        parameters.entry(|w| typed(w, COLOUR, VECTOR))?;
        parameters.entry(|w| typed(w, FOG, FLOAT))
    })?;
    VECTOR.used(w)?;
    w.text(" {")?;
    w.indented_block(|w| {
        w.fragment(|w| {
            typed(w, FADED, VECTOR)?;
            w.join_comma_sep(" = spv.VectorTimesScalar(", ")", |operands| {
                operands.entry(|w| COLOUR.used(w))?;
                operands.entry(|w| FOG.used_anew(w))
            })
        })?;
        w.fragment(|w| {
            w.join_space(KEYWORD.apply("return"), |values| {
                values.entry(|w| FADED.used(w))
            })
        })
    })?;
    w.text("}\n")
}

fn listing() -> Result<Vec<u8>, Refusal> {
    let mut w = Writer::growing(Vec::new());
    module(&mut w)?;
    types(&mut w)?;
    function(&mut w)?;
    w.finish()
}

/// The listing at each width, one below the other.
fn printed(widths: [usize; 2]) -> Result<Vec<u8>, Refusal> {
    let file = listing()?;
    let mut pages = Vec::new();
    for width in widths {
        let mut laid_out = file.clone();
        layout_file(&mut laid_out, width)?;
        append_plain_page(&laid_out, &mut pages)?;
        pages.push(b'\n');
    }
    Ok(pages)
}

fn main() -> ExitCode {
    match printed([80, 36]) {
        Ok(pages) => match io::stdout().write_all(&pages) {
            Ok(()) => ExitCode::SUCCESS,
            Err(why) => {
                eprintln!("listing: {why}");
                ExitCode::from(2)
            }
        },
        Err(refusal) => {
            eprintln!("{refusal}");
            ExitCode::FAILURE
        }
    }
}
