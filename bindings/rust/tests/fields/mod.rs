//! Fields written by hand, which a writer's are compared with.

/// A field of any tag.
pub fn field(tag: u8, value: &[u8]) -> Vec<u8> {
    let length = u16::try_from(value.len()).expect("the value is short");
    [&[tag][..], &length.to_be_bytes(), value].concat()
}

/// A text without a style.
pub fn text(bytes: impl AsRef<[u8]>) -> Vec<u8> {
    field(1, &field(17, bytes.as_ref()))
}

/// A block of the tag with fragments of these values.
pub fn block(tag: u8, fragments: &[Vec<u8>]) -> Vec<u8> {
    let fragments: Vec<Vec<u8>> = fragments.iter().map(|nodes| field(8, nodes)).collect();
    field(tag, &fragments.concat())
}

/// A join by spaces as `join_space` of the Rust original makes it, without its header.
pub fn spaced(entries: &[Vec<u8>]) -> Vec<u8> {
    let space = field(5, b"");
    let entries = entries.iter().map(|entry| [&space[..], entry].concat());
    block(4, &entries.collect::<Vec<_>>())
}

/// A join by commas as `join_comma_sep` of the Rust original makes it, without its prefix and suffix.
pub fn comma_separated(entries: &[Vec<u8>]) -> Vec<u8> {
    let between = [text(","), field(5, b"")].concat();
    let last = field(7, b",");
    let entries = entries.iter().enumerate().map(|(index, entry)| {
        let is_last = index + 1 == entries.len();
        [&entry[..], if is_last { &last } else { &between }].concat()
    });
    block(4, &entries.collect::<Vec<_>>())
}
