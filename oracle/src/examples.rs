//! The checked examples of document 01 and its settled readings, as requests with what is right.

mod strict;
mod tables;

use crate::answers::{answer, Answer, Operation, Outcome, Request, LENT};
use crate::field::{self, Field};
use crate::hex::unhex;
use crate::tags::*;
use crate::wire;
use tables::{ACCEPTED, BODIES, DOCUMENT, PRE, PRINTED, REFUSED};

/// A request and what is right for it.
pub struct Example {
    pub name: String,
    pub request: Request,
    pub right: Outcome,
}

/// Every example, in the order of the tables.
pub fn all() -> Vec<Example> {
    let mut all = Vec::new();
    for &(name, width, file, changed, page) in PRINTED {
        all.extend(printed(name, width, file, changed, page));
    }
    for &(name, file, inside) in BODIES {
        let page = format!("{PRE}{inside}</pre>");
        all.push(page_example(
            name,
            Operation::Body,
            bytes(file),
            page.as_bytes(),
        ));
    }
    all.extend(documents());
    for &(name, file) in ACCEPTED {
        all.push(check_example(name, bytes(file), Answer::Accepted(0)));
    }
    for &(name, file, number, place) in REFUSED {
        let right = Answer::Refused { number, place };
        all.push(check_example(name, bytes(file), right));
    }
    all.extend(built());
    all.extend(strict::all());
    all
}

/// The document of the empty file, and of one underlined letter.
fn documents() -> [Example; 2] {
    let inside = "<span style=\"text-decoration:underline;\">a</span></pre>";
    let underlined = DOCUMENT.replace("</pre>", inside);
    let letter = "01000a 100003 270000 110001 61";
    [
        ("empty document", "", DOCUMENT),
        ("E2: an underlined document", letter, &underlined),
    ]
    .map(|(name, file, page)| page_example(name, Operation::Document, bytes(file), page.as_bytes()))
}

/// The examples of a table are part of the source: a slip in one is no user's mistake.
fn bytes(file: &str) -> Vec<u8> {
    unhex(file).expect("the tables hold whole bytes in hex")
}

fn check_example(name: &str, file: Vec<u8>, answer: Answer) -> Example {
    let lent = Vec::new();
    Example {
        name: name.into(),
        request: Request::check(file),
        right: Outcome { answer, lent },
    }
}

fn layout_example(name: &str, width: u16, file: Vec<u8>, answer: Answer, lent: Vec<u8>) -> Example {
    Example {
        name: name.into(),
        request: Request::layout(width, file),
        right: Outcome { answer, lent },
    }
}

fn page_example(name: &str, operation: Operation, file: Vec<u8>, page: &[u8]) -> Example {
    let answer = Answer::Accepted(page.len());
    Example {
        name: name.into(),
        request: Request::page(operation, page.len(), file),
        right: Outcome {
            answer,
            lent: page.to_vec(),
        },
    }
}

fn printed(name: &str, width: u16, file: &str, changed: &[usize], page: &str) -> [Example; 2] {
    let file = bytes(file);
    let mut after = file.clone();
    for &place in changed {
        after[place] = INDENTED_BLOCK;
    }
    let count = Answer::Accepted(changed.len());
    [
        layout_example(name, width, file, count, after.clone()),
        page_example(name, Operation::Plain, after, page.as_bytes()),
    ]
}

/// The examples whose files are better said than written down.
fn built() -> Vec<Example> {
    let refused = |number, place| Answer::Refused { number, place };
    let mut built = vec![
        layout_example(
            "P12: width 6554",
            6554,
            Vec::new(),
            refused(2, 0),
            Vec::new(),
        ),
        layout_example(
            "2 comes before the walk",
            6554,
            vec![99],
            refused(2, 0),
            vec![99],
        ),
        layout_example(
            "a refused layout changes nothing",
            80,
            vec![4],
            refused(3, 0),
            vec![4],
        ),
        check_example("1 at 60,001 bytes", padded(60_001), refused(1, 0)),
        check_example("60,000 bytes", padded(60_000), Answer::Accepted(0)),
        check_example("1 comes before the walk", vec![99; 60_001], refused(1, 0)),
    ];
    built.extend(over_long());
    built.extend(depths());
    built.extend(rooms());
    built.push(capped());
    built
}

/// A text of `a` that makes the file so long.
fn padded(length: usize) -> Vec<u8> {
    field::encode(&[field::text(vec![b'a'; length - 2 * HEADER])])
}

/// Reading 12: refusal 1 comes before all others, in every operation.
fn over_long() -> [Example; 3] {
    let answer = Answer::Refused {
        number: 1,
        place: 0,
    };
    let file = padded(60_001);
    let page = |room| Example {
        name: "reading 12: 1 comes before 10".into(),
        request: Request::page(Operation::Plain, room, padded(60_001)),
        right: Outcome {
            answer,
            lent: vec![LENT; room],
        },
    };
    let layout = "reading 12: 1 comes before 2";
    [
        layout_example(layout, 6554, file.clone(), answer, file),
        page(0),
        page(9),
    ]
}

fn depths() -> Vec<Example> {
    let mut examples = Vec::new();
    for tag in [INDENTED_BLOCK, INLINE_OR_INDENTED_BLOCK] {
        let deep = |blocks| field::encode(&field::nested(tag, blocks, Vec::new()));
        let sixth = Answer::Refused {
            number: 6,
            place: 192,
        };
        let third = Answer::Refused {
            number: 3,
            place: 192,
        };
        // The 33rd block stands at 192; a length of 4 runs over its fragment.
        let mut cut = deep(33);
        cut[194] = 4;
        let bad = vec![field::block(tag, vec![vec![field::leaf(99, b"")]])];
        let bad = field::encode(&field::nested(tag, 32, bad));
        examples.extend([
            check_example(&format!("32 nested {tag}s"), deep(32), Answer::Accepted(0)),
            check_example(&format!("33 nested {tag}s"), deep(33), sixth),
            check_example(&format!("reading 6: the 33rd {tag} is cut"), cut, third),
            check_example(&format!("the 33rd {tag} before its content"), bad, sixth),
        ]);
    }
    examples
}

/// One page in four rooms: a refusal by 10 leaves all, an accepted page the later bytes.
fn rooms() -> Vec<Example> {
    let file = field::encode(&[field::text(b"abc")]);
    let short = Answer::Refused {
        number: 10,
        place: 3,
    };
    let fits = Answer::Accepted(3);
    let longer = [b"abc".to_vec(), vec![LENT; 2]].concat();
    let cases = [
        ("no room", short, Vec::new()),
        ("a byte short", short, vec![LENT; 2]),
        ("just enough room", fits, b"abc".to_vec()),
        ("later bytes stay", fits, longer),
    ];
    let example = |(name, answer, lent): (&str, Answer, Vec<u8>)| Example {
        name: name.into(),
        request: Request::page(Operation::Plain, lent.len(), file.clone()),
        right: Outcome { answer, lent },
    };
    let mut examples: Vec<Example> = cases.into_iter().map(example).collect();
    examples.push(Example {
        name: "10 comes after the walk".into(),
        request: Request::page(Operation::Plain, 0, vec![99]),
        right: Outcome {
            answer: Answer::Refused {
                number: 3,
                place: 0,
            },
            lent: Vec::new(),
        },
    });
    examples
}

/// 517 bytes at size 117 would measure 65,659; capped at 65,535 and with the
/// excess of six plain bytes taken off they stay within 65,530.
fn capped() -> Example {
    let size = vec![field::leaf(SIZE, [117])];
    let nodes = vec![
        field::styled(size, [b'x'; 517]),
        Field::Leaf(IF_BLOCK_LAYOUT, vec![b'y'; 6]),
    ];
    let file = field::encode(&[field::block(INLINE_OR_INDENTED_BLOCK, vec![nodes])]);
    let after = file.clone();
    layout_example("sums cap at 65,535", 6553, file, Answer::Accepted(0), after)
}

/// Checks every example against the judge; the names of those that do not hold.
pub fn failures(examples: &[Example]) -> Vec<String> {
    let wrong = examples.iter().filter_map(|example| {
        let said = answer(&example.request);
        (said != example.right).then(|| {
            let request = wire::request_words(&example.request);
            let right = wire::answer_line(&example.right);
            let said = wire::answer_line(&said);
            format!(
                "{}: {request}\n  right: {right}\n  judge: {said}",
                example.name
            )
        })
    });
    wrong.collect()
}
