//! The entries through the Rust names: document 01's call, every refusal with its place, lent bytes, and vectors that grow.

use hazomeny::*;

/// What a page is lent filled with.
const LENT: u8 = 0xa5;

type Page = fn(&[u8], &mut [u8]) -> Result<usize, Refusal>;
type Append = fn(&[u8], &mut Vec<u8>) -> Result<usize, Refusal>;

/// The entries that write to a page: the pages, and last the mask.
const PAGES: [(Page, Append); 6] = [
    (plain_page, append_plain_page),
    (html_body, append_html_body),
    (html_document, append_html_document),
    (html_body_strict, append_html_body_strict),
    (html_document_strict, append_html_document_strict),
    (mask_file, append_mask),
];

fn field(tag: u8, value: &[u8]) -> Vec<u8> {
    let length = u16::try_from(value.len()).expect("the value is short");
    [&[tag][..], &length.to_be_bytes(), value].concat()
}

fn text(bytes: &[u8]) -> Vec<u8> {
    field(1, &field(17, bytes))
}

/// `f(a, b)`, as document 01 writes it down.
fn call() -> Vec<u8> {
    let a = [text(b"a"), text(b","), field(5, b"")].concat();
    let b = [text(b"b"), field(7, b",")].concat();
    let arguments = [field(8, &a), field(8, &b)].concat();
    [text(b"f("), field(4, &arguments), text(b")")].concat()
}

fn nested(tag: u8, times: usize, nodes: Vec<u8>) -> Vec<u8> {
    (0..times).fold(nodes, |inside, _| field(tag, &field(8, &inside)))
}

fn refused<T>(number: u8, place: usize) -> Result<T, Refusal> {
    Err(Refusal { number, place })
}

fn appended(append: Append, file: &[u8]) -> Vec<u8> {
    let mut page = Vec::new();
    let length = append(file, &mut page).expect("the file is accepted");
    assert_eq!(length, page.len());
    page
}

#[test]
fn the_call_at_7_and_at_6() {
    let file = call();
    let mut laid_out = file.clone();
    assert_eq!(layout_file(&mut laid_out, 7), Ok(0));
    assert_eq!(laid_out, file);
    assert_eq!(appended(append_plain_page, &laid_out), b"f(a, b)");

    let mut right = file.clone();
    right[8] = 3;
    assert_eq!(layout_file(&mut laid_out, 6), Ok(1));
    assert_eq!(laid_out, right);
    assert_eq!(appended(append_plain_page, &laid_out), b"f(\n  a,\n  b,\n)");
}

#[test]
fn the_document_holds_the_body() {
    let file = [call(), text(b"<&")].concat();
    let body = appended(append_html_body, &file);
    let document = appended(append_html_document, &file);
    assert!(body.ends_with(b"\nf(a, b)&lt;&amp;</pre>"));
    let framed = [b"<body>", &body[..], b"</body>\n</html>\n"].concat();
    assert!(document.ends_with(&framed));
}

/// The text `x` with a style of these fields.
fn styled_x(fields: &[u8]) -> Vec<u8> {
    field(1, &[field(16, fields), field(17, b"x")].concat())
}

#[test]
fn an_underline_is_the_last_item_of_its_style() {
    let [sup, dim, underline] = [37, 38, 39].map(|tag| field(tag, b""));
    let sized = [&field(35, &[5])[..], &dim, &underline].concat();
    for (fields, right) in [
        (underline.clone(), r#"<span style="LINE">x</span>"#),
        (
            [sup, underline].concat(),
            r#"<sup style="font-size:0.8em;LINE">x</sup>"#,
        ),
        (
            sized,
            r#"<span style="font-size:1.5em;vertical-align:middle;LINE" class="unchanged">x</span>"#,
        ),
    ] {
        let body = appended(append_html_body, &styled_x(&fields));
        let right = right.replace("LINE", "text-decoration:underline;");
        assert!(body.ends_with(format!("\n{right}</pre>").as_bytes()));
    }
}

#[test]
fn an_underline_has_no_width() {
    for fields in [Vec::new(), field(39, b"")] {
        let block = field(4, &field(8, &styled_x(&fields)));
        assert_eq!(layout_file(&mut block.clone(), 1), Ok(0));
        assert_eq!(layout_file(&mut block.clone(), 0), Ok(1));
    }
}

/// A file for each refusal that every entry gives, with its place.
fn faulty() -> Vec<(Vec<u8>, Refusal)> {
    let quoted = field(2, &field(18, b"a\"b"));
    let [dim, underline] = [38, 39].map(|tag| field(tag, b""));
    let cases = [
        (vec![5; 60_001], 1, 0),
        (vec![99], 3, 0),
        ([text(b"a"), vec![1, 0]].concat(), 3, 7),
        ([text(b"a"), field(8, b"")].concat(), 4, 7),
        ([text(b"a"), field(5, b"x")].concat(), 5, 7),
        ([text(b"a"), field(1, b"")].concat(), 5, 7),
        (nested(4, 33, Vec::new()), 6, 32 * 6),
        (text(b"\xc0\x80"), 7, 3),
        (styled_x(&field(40, b"")), 4, 6),
        (styled_x(&underline.repeat(2)), 4, 9),
        (styled_x(&[underline, dim].concat()), 4, 9),
        (styled_x(&field(39, b"x")), 5, 6),
        (styled_x(&field(35, &[118])), 8, 6),
        (quoted, 9, 3),
    ];
    cases
        .map(|(file, number, place)| (file, Refusal { number, place }))
        .into()
}

#[test]
fn a_faulty_file_is_refused_by_every_entry_and_nothing_is_changed() {
    for (file, refusal) in faulty() {
        assert_eq!(check_file(&file), Err(refusal));
        assert_eq!(check_file_strict(&file), Err(refusal));
        let mut lent = file.clone();
        assert_eq!(layout_file(&mut lent, 80), Err(refusal));
        assert_eq!(lent, file);
        for (page, append) in PAGES {
            for room in [0, 3, 2_000] {
                let mut lent = vec![LENT; room];
                assert_eq!(page(&file, &mut lent), Err(refusal));
                assert_eq!(lent, vec![LENT; room]);
            }
            let mut grown = b"kept".to_vec();
            grown.reserve(3_000);
            assert_eq!(append(&file, &mut grown), Err(refusal));
            assert_eq!(grown, b"kept");
        }
    }
}

#[test]
fn a_width_is_refused_by_2_before_the_walk_and_after_1() {
    for (file, right) in [
        (call(), refused(2, 0)),
        (vec![99], refused(2, 0)),
        (vec![99; 60_001], refused(1, 0)),
    ] {
        for width in [6_554, 65_536, usize::MAX] {
            let mut lent = file.clone();
            assert_eq!(layout_file(&mut lent, width), right);
            assert_eq!(lent, file);
        }
    }
    assert_eq!(layout_file(&mut call(), 6_553), Ok(0));
}

#[test]
fn a_page_is_refused_by_10_just_when_it_does_not_fit() {
    let file = call();
    for (page, append) in PAGES {
        let right = appended(append, &file);
        let length = right.len();
        for room in [0, 1, length - 1] {
            let mut lent = vec![LENT; room];
            assert_eq!(page(&file, &mut lent), refused(10, length));
            assert_eq!(lent, vec![LENT; room]);
        }
        for room in [length, length + 1, length + 700] {
            let mut lent = vec![LENT; room];
            assert_eq!(page(&file, &mut lent), Ok(length));
            assert_eq!(lent[..length], right);
            assert!(lent[length..].iter().all(|byte| *byte == LENT));
        }
    }
}

#[test]
fn limits_are_accepted() {
    let text_bytes = vec![b'a'; hazomeny::MOST_BYTES - 6];
    let deep = |tag| nested(tag, 32, Vec::new());
    for file in [Vec::new(), text(&text_bytes), deep(3), deep(4)] {
        assert_eq!(check_file(&file), Ok(0));
        assert_eq!(check_file_strict(&file), Ok(0));
    }
    let mut page = vec![LENT; 3];
    assert_eq!(plain_page(b"", &mut page), Ok(0));
    assert_eq!(page, [LENT; 3]);
}

#[test]
fn a_vector_grows_behind_what_was_there() {
    let file = call();
    for (_, append) in PAGES {
        let one = appended(append, &file);
        let mut page = b"before".to_vec();
        for times in 1..4 {
            assert_eq!(append(&file, &mut page), Ok(one.len()));
            assert_eq!(
                page,
                [&b"before"[..], &one.repeat(times)].concat(),
                "{times} times"
            );
        }
    }
}

/// A text of so many lines, indented so far that its page is much longer than the file.
fn indented_lines(count: usize) -> Vec<u8> {
    nested(3, 32, text(&b"a\n".repeat(count)))
}

#[test]
fn so_much_for_each_byte_is_enough_for_a_plain_page() {
    let line = [&b" ".repeat(64)[..], b"a\n"].concat();
    for count in [1, 500, 29_000] {
        let file = indented_lines(count);
        let mut page = vec![LENT; PLAIN_PER_BYTE * file.len()];
        let length = plain_page(&file, &mut page).expect("the room is enough");
        assert_eq!(page[..length], line.repeat(count));
        assert_eq!(appended(append_plain_page, &file), line.repeat(count));
    }
    assert_eq!(plain_page(b"", &mut []), Ok(0));
}

/// Room for any page of a file.
fn most_html(file: &[u8]) -> usize {
    HTML_PER_BYTE * file.len() + HTML_FRAME
}

/// So many one-byte texts with a style that is long in HTML.
fn styled(count: usize) -> Vec<u8> {
    let styles = [
        field(32, &[200; 3]),
        field(33, &[0x3a, 0x80, 0x00, 0x01]),
        field(34, &[0x80]),
        field(35, &[7]),
        field(38, b""),
        field(39, b""),
    ];
    let text = field(1, &[field(16, &styles.concat()), field(17, b"&")].concat());
    text.repeat(count)
}

#[test]
fn so_much_for_each_byte_and_the_frame_is_enough_for_html() {
    assert!(appended(append_html_body, &styled(100)).len() > 4 * styled(100).len());
    for file in [indented_lines(29_000), styled(1), styled(1_600), call()] {
        for (page, append) in &PAGES[1..5] {
            let right = appended(*append, &file);
            for room in [most_html(&file) - 1, most_html(&file)] {
                let mut lent = vec![LENT; room];
                assert_eq!(page(&file, &mut lent), Ok(right.len()));
                assert_eq!(lent[..right.len()], right);
                assert!(lent[right.len()..].iter().all(|byte| *byte == LENT));
            }
        }
    }
}

#[test]
fn the_frame_is_the_document_of_no_byte() {
    let mut page = vec![LENT; HTML_FRAME];
    assert_eq!(html_document(b"", &mut page), Ok(HTML_FRAME));
    page.pop();
    assert_eq!(html_document(b"", &mut page), refused(10, HTML_FRAME));
    assert!(html_body(b"", &mut page).is_ok());
}

#[test]
fn a_vector_with_room_keeps_its_place() {
    let lines = indented_lines(500);
    assert!(appended(append_plain_page, &lines).len() > 20 * lines.len());
    let room = most_html(&lines);
    for (_, append) in PAGES {
        for file in [call(), lines.clone()] {
            let mut page = Vec::with_capacity(room);
            let start = page.as_ptr();
            for _ in 0..3 {
                page.clear();
                append(&file, &mut page).expect("the file is accepted");
                assert_eq!((page.as_ptr(), page.capacity()), (start, room));
                assert_eq!(page, appended(append, &file));
            }
        }
    }
}

#[test]
fn a_new_vector_keeps_no_more_than_it_needs() {
    for (_, append) in PAGES {
        for file in [call(), indented_lines(500)] {
            let mut page = Vec::new();
            let length = append(&file, &mut page).expect("the file is accepted");
            assert!(
                page.capacity() < length + 16,
                "{} bytes of room for {length}",
                page.capacity()
            );
        }
        let mut page = Vec::new();
        append(&[99; 100], &mut page).expect_err("no field");
        assert_eq!(page.capacity(), 0);
    }
}

#[test]
fn an_empty_page_adds_nothing() {
    for append in [append_plain_page, append_mask] {
        for mut page in [Vec::new(), b"as it was".to_vec()] {
            let before = page.clone();
            assert_eq!(append(b"", &mut page), Ok(0));
            assert_eq!(page, before);
        }
    }
}

#[test]
fn a_refusal_says_what_it_is() {
    let refusal = check_file(&[99]).expect_err("a cut header");
    assert_eq!(refusal.bytes_needed(), None);
    assert_eq!(
        refusal.to_string(),
        "refused 3 at 0: a field passes the end of what encloses it"
    );
    let short = plain_page(&call(), &mut []).expect_err("no room");
    assert_eq!(short.number, Refusal::PAGE_TOO_SHORT);
    assert_eq!(short.bytes_needed(), Some(7));
    assert_eq!(
        short.to_string(),
        "refused 10 at 7: the buffer needs so many bytes"
    );
}
