//! Examples of request E6, strict HTML, written by hand.

use super::tables::{DOCUMENT, PRE};
use super::{bytes, page_example, Example};
use crate::answers::{Answer, Operation, Outcome, Request, LENT};

/// Rendered as it stands, in strict mode: name, file, what stands in the body between `pre` tags.
#[rustfmt::skip] // one row, one line
const BODIES: &[(&str, &str, &str)] = &[
    ("E6: a CR", "010004 110001 0d", "&#13;"),
    ("E6: a CR before a newline", "010006 110003 610d0a", "a&#13;\n"),
    ("E6: a newline before a CR", "010005 110002 0a0d", "\n&#13;"),
    ("E6: CRs at both ends, and doubled", "010009 110006 0d610d0d620d", "&#13;a&#13;&#13;b&#13;"),
    ("E6: CRs beside what is escaped", "010008 110005 0d260d3c0d", "&#13;&amp;&#13;&lt;&#13;"),
    ("E6: a text that looks like a CR written out", "010008 110005 262331333b", "&amp;#13;"),
    ("E6: a CR in a 7", "010004 110001 61 030007 080004 070001 0d", "a\n  &#13;"),
    ("E6: a CR in a 7 that is not shown", "010004 110001 61 040007 080004 070001 0d", "a"),
    ("E6: a CR in a name is left", "02000b 120001 0d 010004 110001 0d", "<a id=\"\r\" href=\"#\r\">&#13;</a>"),
    ("E6: a NUL in a name is left", "020004 130001 00", "<a href=\"#\0\"></a>"),
    ("E6: CRs in a styled text in a broken block", "030012 08000f 01000c 100003 270000 110003 0d0a0d", "  <span style=\"text-decoration:underline;\">&#13;\n  &#13;</span>"),
    ("E6: a space break before a CR", "010004 110001 61 050000 010004 110001 0d", "a &#13;"),
    ("E6: no CR", "010005 110002 263c", "&amp;&lt;"),
];

/// Accepted by the strict check: name, file.
#[rustfmt::skip] // one row, one line
const ACCEPTED: &[(&str, &str)] = &[
    ("E6: the empty file", ""),
    ("E6: CRs", "010004 110001 0d 070001 0d"),
    ("E6: a NUL in a name", "02000b 120001 00 010004 110001 61"),
    ("E6: NULs in a style", "01000c 100006 200003 000000 110000"),
];

/// Refused by the strict check: name, file, number, place.
#[rustfmt::skip] // one row, one line
const REFUSED: &[(&str, &str, u8, usize)] = &[
    ("E6: a NUL in a 17", "010004 110001 00", 14, 3),
    ("E6: a NUL in a 7", "070002 6100", 14, 0),
    ("E6: a NUL in a styled text", "010007 100000 110001 00", 14, 6),
    ("E6: a NUL in a run of an anchor", "02000b 120001 00 010004 110001 00", 14, 10),
    ("E6: a NUL in a 7 that is not shown", "040007 080004 070001 00", 14, 6),
    ("E6: 7 before 14, the NUL first", "010005 110002 00ff", 7, 3),
    ("E6: 7 before 14, the NUL last", "070002 8000", 7, 0),
    ("E6: 14 before 7 in a later text", "070001 00 070001 80", 14, 0),
    ("E6: 7 before 14 in a later text", "070001 80 070001 00", 7, 0),
    ("E6: 14 before what follows the 17", "010007 110001 00 110000", 14, 3),
    ("E6: 14 before a later cut field", "070001 00 63", 14, 0),
    ("E6: a bad style before the NUL", "01000b 100004 230001 76 110001 00", 8, 6),
    ("E6: a quote in the name before the NUL", "02000b 130001 22 010004 110001 00", 9, 3),
    ("E6: the length before the NUL", "010004 110002 00", 3, 3),
    ("E6: of two NULs the first", "070001 61 070001 00 010004 110001 00", 14, 4),
];

/// Every example of strict mode.
pub fn all() -> Vec<Example> {
    let mut all = Vec::new();
    for &(name, file, inside) in BODIES {
        let page = format!("{PRE}{inside}</pre>");
        let page = page.as_bytes();
        all.push(page_example(name, Operation::BodyStrict, bytes(file), page));
    }
    for &(name, file) in ACCEPTED {
        all.push(check(name, file, Answer::Accepted(0)));
    }
    for &(name, file, number, place) in REFUSED {
        all.push(check(name, file, Answer::Refused { number, place }));
    }
    all.push(document());
    all.extend(rooms());
    all
}

fn check(name: &str, file: &str, answer: Answer) -> Example {
    Example {
        name: name.into(),
        request: Request::page(Operation::CheckStrict, 0, bytes(file)),
        right: Outcome {
            answer,
            lent: Vec::new(),
        },
    }
}

fn document() -> Example {
    let page = DOCUMENT.replace("</pre>", "a&#13;\n</pre>");
    let file = bytes("010006 110003 610d0a");
    let name = "E6: a document with a CR";
    page_example(name, Operation::DocumentStrict, file, page.as_bytes())
}

/// The walk comes before 10, and the references count.
fn rooms() -> [Example; 3] {
    let refused = |name: &str, file, room, number, place| Example {
        name: name.into(),
        request: Request::page(Operation::BodyStrict, room, bytes(file)),
        right: Outcome {
            answer: Answer::Refused { number, place },
            lent: vec![LENT; room],
        },
    };
    let loose = PRE.len() + "\r</pre>".len();
    let strict = PRE.len() + "&#13;</pre>".len();
    let (nul, cr) = ("010004 110001 00", "010004 110001 0d");
    [
        refused("E6: 14 before 10", nul, 2, 14, 3),
        refused("E6: room for a loose body", cr, loose, 10, strict),
        refused("E6: a byte short", cr, strict - 1, 10, strict),
    ]
}
