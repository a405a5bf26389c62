//! Strict HTML: CRs in texts of every place, beside loose HTML; NULs, which are refused with their place; and what neither concerns.

mod fields;

use fields::*;
use hazomeny::*;

type Page = fn(&[u8], &mut [u8]) -> Result<usize, Refusal>;
type Append = fn(&[u8], &mut Vec<u8>) -> Result<usize, Refusal>;

/// What a page is lent filled with.
const LENT: u8 = 0xa5;

/// The loose entry, and the strict one.
const PAGES: [(Append, Append); 2] = [
    (append_html_body, append_html_body_strict),
    (append_html_document, append_html_document_strict),
];

const STRICT: [Page; 2] = [html_body_strict, html_document_strict];

/// CRs alone, before a newline, behind one, doubled, at a text's start and end, and beside what HTML is written with.
const RETURNS: [&str; 9] = [
    "\r",
    "\r\n",
    "\n\r",
    "\r\r",
    "\ra",
    "a\r",
    "&\r&",
    "<\r<\n",
    "\r&#13;\r",
];

/// The text in all places where one can stand: alone, in an anchor of this name, in a broken block alone, in joins.
fn everywhere(name: &str, shown: &str) -> Vec<u8> {
    let anchor = field(2, &[field(18, name.as_bytes()), text(shown)].concat());
    let broken = [text("if "), field(7, shown.as_bytes())].concat();
    let entries = [text(shown), text(shown)];
    let nodes = [
        text(shown),
        anchor,
        block(3, &[broken]),
        spaced(&entries),
        comma_separated(&entries),
    ];
    nodes.concat()
}

fn appended(append: Append, file: &[u8]) -> String {
    let mut page = Vec::new();
    let length = append(file, &mut page).expect("the file is accepted");
    assert_eq!(length, page.len());
    String::from_utf8(page).expect("a page is UTF-8")
}

#[test]
fn a_cr_of_a_text_is_a_reference() {
    const MARK: &str = "\u{1}";
    for shown in RETURNS {
        let file = everywhere("name", shown);
        let marked = everywhere("name", &shown.replace('\r', MARK));
        for (loose, strict) in PAGES {
            let right = appended(loose, &marked).replace(MARK, "&#13;");
            assert_eq!(appended(strict, &file), right);
            assert!(!right.contains('\r') && appended(loose, &file).contains('\r'));
        }
    }
}

#[test]
fn without_a_cr_it_is_the_same_html() {
    for shown in ["", "a\n\tb", "&<>\"\u{b}\u{c}\u{85}\u{2028}", "&#13;"] {
        let file = everywhere("name", shown);
        for (loose, strict) in PAGES {
            assert_eq!(appended(strict, &file), appended(loose, &file));
        }
    }
}

#[test]
fn names_of_anchors_stay_as_they_are() {
    let file = everywhere("a\r\0&\r", "x");
    assert_eq!(check_file_strict(&file), Ok(0));
    for (loose, strict) in PAGES {
        let page = appended(strict, &file);
        assert!(page.contains("<a id=\"a\r\0&\r\" href=\"#a\r\0&\r\">x</a>"));
        assert_eq!(page, appended(loose, &file));
    }
}

/// Files that strict mode refuses, with the number and the place.
fn refused() -> Vec<(Vec<u8>, u8, usize)> {
    let named = [field(18, b"\0"), text("\0")].concat();
    let styled = [field(16, &field(38, b"")), field(17, b"a\0")].concat();
    vec![
        (text("\0"), 14, 3),
        (
            [text("a"), text(["a".repeat(1_000), "\0".into()].concat())].concat(),
            14,
            10,
        ),
        (field(7, b",\0"), 14, 0),
        (field(1, &styled), 14, 9),
        (field(2, &named), 14, 10),
        (block(4, &[text("\0")]), 14, 9),
        (text(b"\0\xff"), 7, 3),
        (field(7, b"\xff\0"), 7, 0),
        ([text("\0"), vec![99]].concat(), 14, 3),
        ([vec![8, 0, 0], text("\0")].concat(), 4, 0),
    ]
}

#[test]
fn a_nul_of_a_text_is_refused_where_its_field_stands() {
    for (file, number, place) in refused() {
        let refusal = Err(Refusal { number, place });
        assert_eq!(check_file_strict(&file), refusal);
        for page in STRICT {
            for room in [0, 3_000] {
                let mut lent = vec![LENT; room];
                assert_eq!(page(&file, &mut lent), refusal);
                assert_eq!(lent, vec![LENT; room]);
            }
        }
    }
}

#[test]
fn a_nul_is_taken_where_html_is_loose() {
    let file = everywhere("name", "a\0b");
    assert_eq!(check_file(&file), Ok(0));
    assert_eq!(layout_file(&mut file.clone(), 80), Ok(0));
    for (loose, strict) in PAGES {
        assert!(appended(loose, &file).contains("a\0b"));
        let refusal = strict(&file, &mut Vec::new()).expect_err("a NUL in a text");
        assert_eq!((refusal.number, refusal.place), (Refusal::NUL_IN_TEXT, 3));
    }
}
