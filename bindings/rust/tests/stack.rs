//! The entries and the writer on a small stack: 256 KiB hold the deepest files.

use hazomeny::*;
use std::thread;

type Append = fn(&[u8], &mut Vec<u8>) -> Result<usize, Refusal>;

const STACK: usize = 256 << 10;
const MOST_BLOCKS: usize = 32;
const LONGEST_FILE: usize = hazomeny::MOST_BYTES;

fn field(tag: u8, value: &[u8]) -> Vec<u8> {
    let length = u16::try_from(value.len()).expect("the value is short");
    [&[tag][..], &length.to_be_bytes(), value].concat()
}

/// So many blocks of the tag as a file may have, one in the other, around the nodes.
fn deepest(tag: u8, nodes: Vec<u8>) -> Vec<u8> {
    (0..MOST_BLOCKS).fold(nodes, |inside, _| field(tag, &field(8, &inside)))
}

/// A node of each kind, styles of each kind, and texts with newlines.
fn each_kind() -> Vec<u8> {
    let colour = [
        field(32, &[1, 2, 3]),
        field(33, &0.3_f32.to_bits().to_be_bytes()),
    ];
    let style = [
        colour.concat(),
        field(34, &[0x80]),
        field(35, &[0xf7]),
        field(36, b""),
        field(38, b""),
        field(39, b""),
    ];
    let styled = field(
        1,
        &[field(16, &style.concat()), field(17, b"<a\n&b")].concat(),
    );
    let anchor = field(2, &[field(18, b"name"), styled.clone()].concat());
    let empty_anchor = field(2, &field(19, b"name"));
    let block = field(6, b"");
    let nodes = [
        styled,
        anchor,
        empty_anchor,
        block,
        field(5, b""),
        field(7, b",\n"),
    ];
    nodes.concat()
}

/// Nearly as long as a file may be.
fn long() -> Vec<u8> {
    let headers = MOST_BLOCKS * 6;
    let nodes = each_kind();
    nodes.repeat((LONGEST_FILE - headers) / nodes.len())
}

fn on_a_small_stack(work: impl FnOnce() + Send + 'static) {
    let small = thread::Builder::new().stack_size(STACK).spawn(work);
    small
        .expect("a thread starts")
        .join()
        .expect("the work ends well");
}

/// All entries; at width 0 every block breaks.
fn all_entries(mut file: Vec<u8>) {
    assert_eq!(check_file(&file), Ok(0));
    assert_eq!(check_file_strict(&file), Ok(0));
    assert_eq!(layout_file(&mut file, 0), Ok(MOST_BLOCKS));
    let mut pages = [Vec::new(), Vec::new(), Vec::new()];
    let appends = [append_plain_page, append_html_body, append_html_document];
    for (append, page) in appends.into_iter().zip(&mut pages) {
        let length = append(&file, page).expect("the file is accepted");
        assert_eq!(length, page.len());
    }
    let indent = [b' '; 2 * MOST_BLOCKS];
    assert!(pages[0].starts_with(&indent));
    let body = String::from_utf8(pages[1].clone()).expect("the body is UTF-8");
    let document = String::from_utf8(pages[2].clone()).expect("the document is UTF-8");
    assert!(document.contains(&body));
    for (append, loose) in [
        (append_html_body_strict as Append, &pages[1]),
        (append_html_document_strict, &pages[2]),
    ] {
        let mut page = Vec::new();
        append(&file, &mut page).expect("the file is accepted");
        assert!(page == *loose, "no text has a CR");
    }
    masked_and_read(&file);
}

/// The file ends in the five bytes of a text that shows only in a broken block: `,` and a newline.
fn masked_and_read(file: &[u8]) {
    let mut mask = Vec::new();
    assert_eq!(append_mask(file, &mut mask), Ok(file.len()));
    let last = u32::try_from(file.len() - 5).expect("the file is short");
    let pair = Pair::new(file, &mask);
    assert_eq!(pair.check(last), Ok(2));
    assert_eq!(
        [true, false].map(|names| pair.text(last, names)),
        [b",\n", b"x\n"]
    );
}

#[test]
fn the_deepest_file() {
    on_a_small_stack(|| all_entries(deepest(4, each_kind())));
}

#[test]
fn a_long_file_as_deep() {
    let file = deepest(4, long());
    assert!((59_800..=LONGEST_FILE).contains(&file.len()));
    on_a_small_stack(|| all_entries(file));
}

/// The same as [`deepest`] without nodes, by steps.
fn write_deepest() -> Result<Vec<u8>, Refusal> {
    let mut w = Writer::growing(Vec::new());
    for _ in 0..MOST_BLOCKS {
        w.open_inline_or_indented_block()?;
        w.open_fragment()?;
    }
    for _ in 0..MOST_BLOCKS {
        w.close_fragment()?;
        w.close_block()?;
    }
    w.finish()
}

#[test]
fn the_deepest_file_is_written() {
    on_a_small_stack(|| assert_eq!(write_deepest(), Ok(deepest(4, Vec::new()))));
}

#[test]
fn a_file_that_is_too_deep() {
    on_a_small_stack(|| {
        let file = field(3, &field(8, &deepest(3, Vec::new())));
        let refusal = Refusal {
            number: 6,
            place: MOST_BLOCKS * 6,
        };
        assert_eq!(check_file(&file), Err(refusal));
        assert_eq!(append_html_document(&file, &mut Vec::new()), Err(refusal));
    });
}
