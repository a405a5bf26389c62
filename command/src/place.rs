//! What stands at the place of a refusal: the field's name, tag and length.

use hazomeny::Refusal;

/// The bytes of a field before its value: the tag, and the length in two, high byte first.
const HEADER: usize = 3;

/// The field that a refusal is about, where it is about one of the file.
pub fn described(refusal: Refusal, file: &[u8]) -> Option<String> {
    let in_file = matches!(refusal.number, 3..=9 | Refusal::NUL_IN_TEXT);
    let field = file.get(refusal.place..).filter(|_| in_file)?;
    let tag = *field.first()?;
    let name = name(tag);
    Some(match field.get(1..HEADER) {
        Some(length) => {
            let length = u16::from_be_bytes([length[0], length[1]]);
            format!("{name}, tag {tag}, length {length}")
        }
        None => format!("{name}, tag {tag}, cut off by the end of the file"),
    })
}

/// The fields' names as the format has them.
fn name(tag: u8) -> &'static str {
    match tag {
        1 => "Text",
        2 => "Anchor",
        3 => "IndentedBlock",
        4 => "InlineOrIndentedBlock",
        5 => "BreakingOnlySpace",
        6 => "ForceLineSeparation",
        7 => "IfBlockLayout",
        8 => "Fragment",
        16 => "Styles",
        17 => "text bytes",
        18 => "anchor definition",
        19 => "anchor use",
        32 => "colour",
        33 => "opacity",
        34 => "thickness",
        35 => "size",
        36 => "subscript",
        37 => "superscript",
        38 => "dim",
        39 => "underline",
        _ => "no field of the format",
    }
}
