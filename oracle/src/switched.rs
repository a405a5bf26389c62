//! How a lister of the original's trees switches over: a small listing built by the original's own functions, shown by the original and by the library.

use crate::lister;
use crate::print::pretty::palettes::simple;
use crate::print::pretty::{join_comma_sep, join_space, Fragment, Node, Styles};
use hazomeny::{append_plain_page, layout_file, Refusal, MOST_BYTES};

/// The two plain pages of the listing at a width.
pub struct Pages {
    pub original: String,
    pub library: String,
}

pub fn pages(width: u16) -> Result<Pages, Refusal> {
    let tree = listing();
    let mut room = [0; MOST_BYTES];
    let file = lister::list(&tree, &mut room)?;
    layout_file(file, usize::from(width))?;
    let mut page = Vec::new();
    append_plain_page(file, &mut page)?;
    let laid_out = tree.layout_with_max_line_width(usize::from(width));
    Ok(Pages {
        original: laid_out.to_string(),
        library: String::from_utf8_lossy(&page).into_owned(),
    })
}

/// `F0 = func(v0: f32) -> f32 { .. }`, as a lister would say it.
fn listing() -> Fragment {
    let parameter = Fragment::new([id(true, "v0"), ": f32".into()]);
    let sum = join_space("fadd", [Fragment::from(id(false, "v0")), "1.0".into()]);
    let call = join_comma_sep(
        "fclamp(",
        [id(false, "v1"), "0.0".into(), "1.0".into()],
        ")",
    );
    let body = vec![
        Fragment::new([Fragment::from(id(true, "v1")), " = ".into(), sum]),
        join_space(keyword("return"), [call]),
    ];
    Fragment::new([
        Fragment::new([id(true, "F0"), " = ".into(), keyword("func")]),
        join_comma_sep("(", [parameter], ") -> f32 {"),
        Node::IndentedBlock(body).into(),
        "}".into(),
    ])
}

fn id(is_def: bool, name: &'static str) -> Node {
    Node::Anchor {
        is_def,
        anchor: name.into(),
        text: [(None, name.into())].into(),
    }
}

fn keyword(word: &'static str) -> Node {
    Styles::color(simple::BLUE).apply(word)
}
