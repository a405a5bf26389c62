//! What has to hold of the judge itself, for accepted files and for any bytes.

mod of_strict;

use crate::answers::{answer, page_outcome, rendered, Answer, Operation, Outcome, Request, LENT};
use crate::bare;
use crate::body::{self, Piece};
use crate::check::{check, strict_check, Refusal};
use crate::field::{self, Field};
use crate::original;
use crate::pair::{self, masked};
use crate::strict;
use crate::tags::*;

/// Holds or says what is wrong.
pub type Held = Result<(), String>;

/// A property of a file, with a width where it needs one.
pub type Property = (&'static str, fn(&[u8], u16) -> Held);

/// Of accepted files.
pub const OF_ACCEPTED: [Property; 15] = [
    ("generated files are accepted", accepted),
    ("decoding and encoding give the file back", there_and_back),
    ("layout only turns 4s into 3s", layout_changes_4_to_3),
    ("a second layout is as sound as the first", second_layout),
    ("the body without its tags is the plain page", body_is_plain),
    ("the document holds the body", document_holds_body),
    ("a page is refused by 10 just when it does not fit", rooms),
    ("a mask has the same layout and the same lines", mask),
    ("a file and its mask are a pair", is_pair),
    ("the words are the same at every width", same_words),
    ("a page is not too long for its file", not_too_long),
    (
        "a 39 is an item of its text's tag and nothing else",
        underlines,
    ),
    (
        "strict mode refuses the first text with a NUL, and nothing else",
        of_strict::first_nul,
    ),
    (
        "a strict page is the page with each CR between its tags written out",
        of_strict::written_out,
    ),
    (
        "the strict body without its tags is the plain page",
        of_strict::body_is_plain,
    ),
];

/// Of any bytes.
pub const OF_ANY: [Property; 4] = [
    (
        "every operation gives the refusal of the check",
        same_refusal,
    ),
    ("a refusal stands within the file", place_within),
    ("the loose tree gives the bytes back", loose_tree),
    (
        "strict mode differs by NULs in texts and nothing else",
        of_strict::by_nuls_alone,
    ),
];

fn ensure(holds: bool, why: impl FnOnce() -> String) -> Held {
    match holds {
        true => Ok(()),
        false => Err(why()),
    }
}

fn accepted(file: &[u8], _: u16) -> Held {
    check(file).map_err(|refusal| format!("{refusal:?}"))
}

fn there_and_back(file: &[u8], _: u16) -> Held {
    ensure(original::there_and_back(file) == file, || {
        "another file".into()
    })
}

/// The count and the file of an accepted layout.
fn laid_out(file: &[u8], width: u16) -> Result<(usize, Vec<u8>), String> {
    let width = width.min(LARGEST_WIDTH);
    match answer(&Request::layout(width, file.to_vec())) {
        Outcome {
            answer: Answer::Accepted(count),
            lent,
        } => Ok((count, lent)),
        other => Err(format!("refused: {:?}", other.answer)),
    }
}

/// Compares by the fields, not by the bytes alone: only tags of blocks may differ.
fn layout_changes_4_to_3(file: &[u8], width: u16) -> Held {
    let (count, after) = laid_out(file, width)?;
    ensure(after.len() == file.len(), || "another length".into())?;
    check(&after).map_err(|refusal| format!("the result has {refusal:?}"))?;
    let fields = field::parse(file);
    let mut expected = file.to_vec();
    let mut turned = 0;
    for (place, _, found) in field::places(&fields) {
        let is_4 = matches!(found, Field::Inner(INLINE_OR_INDENTED_BLOCK, _));
        if is_4 && after[place] == INDENTED_BLOCK {
            expected[place] = INDENTED_BLOCK;
            turned += 1;
        }
    }
    ensure(expected == after, || "more than tags 4 changed".into())?;
    ensure(turned == count, || {
        format!("{turned} turned, {count} counted")
    })
}

fn second_layout(file: &[u8], width: u16) -> Held {
    let (_, after) = laid_out(file, width)?;
    layout_changes_4_to_3(&after, width)
}

fn page(operation: Operation, file: &[u8]) -> Result<Vec<u8>, String> {
    rendered(operation, file).map_err(|refusal| format!("{refusal:?}"))
}

fn body_is_plain(file: &[u8], width: u16) -> Held {
    let (_, after) = laid_out(file, width)?;
    for file in [file, &after] {
        let plain = page(Operation::Plain, file)?;
        let body = page(Operation::Body, file)?;
        ensure(without_tags(&body) == plain, || "another text".into())?;
    }
    Ok(())
}

/// The text of a body, its references read: the newline after `<pre>` does not count.
fn without_tags(body: &[u8]) -> Vec<u8> {
    let between = |piece| match piece {
        Piece::Tag(_) => &[],
        Piece::Between(text) => text,
    };
    let text: Vec<u8> = body::pieces(body)
        .into_iter()
        .flat_map(between)
        .copied()
        .collect();
    let text = replaced(&text[1..], strict::REFERENCE, b"\r");
    let text = replaced(&text, b"&lt;", b"<");
    replaced(&text, b"&amp;", b"&")
}

fn replaced(text: &[u8], from: &[u8], to: &[u8]) -> Vec<u8> {
    let mut out = Vec::new();
    let mut rest = text;
    while let Some((&first, more)) = rest.split_first() {
        if let Some(after) = rest.strip_prefix(from) {
            out.extend(to);
            rest = after;
        } else {
            out.push(first);
            rest = more;
        }
    }
    out
}

fn document_holds_body(file: &[u8], _: u16) -> Held {
    let body = page(Operation::Body, file)?;
    let document = page(Operation::Document, file)?;
    let before = b"</head>\n<body>";
    let after = b"</body>\n</html>\n";
    let framed = [&before[..], &body, after].concat();
    ensure(document.ends_with(&framed), || "another body".into())
}

fn rooms(file: &[u8], width: u16) -> Held {
    let page = rendered(Operation::Plain, file);
    let length = page.as_ref().map_or(0, Vec::len);
    let longer = length + usize::from(width % 64);
    for room in [0, length.saturating_sub(1), length, longer] {
        let said = page_outcome(&page, room);
        let right = match room < length {
            true => Answer::Refused {
                number: 10,
                place: length,
            },
            false => Answer::Accepted(length),
        };
        let fits = said.answer == right && said.lent.len() == room;
        ensure(fits, || format!("{:?} in {room}", said.answer))?;
    }
    Ok(())
}

fn newlines(page: &[u8]) -> Vec<usize> {
    let places = page.iter().enumerate();
    places
        .filter(|(_, b)| **b == b'\n')
        .map(|(at, _)| at)
        .collect()
}

fn mask(file: &[u8], width: u16) -> Held {
    let fields = field::parse(file);
    let mask = field::encode(&masked(&fields));
    check(&mask).map_err(|refusal| format!("the mask has {refusal:?}"))?;
    let ((count, after), (mask_count, mask_after)) =
        (laid_out(file, width)?, laid_out(&mask, width)?);
    ensure(count == mask_count, || "another count".into())?;
    ensure(
        mask_after == field::encode(&masked(&field::parse(&after))),
        || "other tags changed".into(),
    )?;
    let plain = page(Operation::Plain, &after)?;
    let mask_plain = page(Operation::Plain, &mask_after)?;
    ensure(plain.len() == mask_plain.len(), || {
        "another page length".into()
    })?;
    ensure(newlines(&plain) == newlines(&mask_plain), || {
        "other lines".into()
    })?;
    if plain.contains(&b'&') || plain.contains(&b'<') {
        return Ok(());
    }
    let (body, mask_body) = (
        page(Operation::Body, &after)?,
        page(Operation::Body, &mask_after)?,
    );
    ensure(body.len() == mask_body.len(), || {
        "another body length".into()
    })
}

/// The mask is its own mask, and has an `x` for each byte but newline just where the pair has its texts.
fn is_pair(file: &[u8], _: u16) -> Held {
    let told = |refusal| format!("{refusal:?}");
    let mask = pair::mask(file).map_err(told)?;
    ensure(pair::mask(&mask) == Ok(mask.clone()), || {
        "the mask has another mask".into()
    })?;
    ensure(strict_check(&mask).is_ok(), || {
        "strict mode refuses the mask".into()
    })?;
    let mut expected = file.to_vec();
    for (place, length) in pair::texts(file, &mask).map_err(told)? {
        let header = field::encode(&[field::leaf(file[place], vec![0; length])]);
        ensure(file[place..].starts_with(&header[..HEADER]), || {
            format!("no text of {length} bytes begins at {place}")
        })?;
        let text = expected[place + HEADER..][..length].iter_mut();
        text.filter(|byte| **byte != b'\n')
            .for_each(|byte| *byte = b'x');
    }
    ensure(expected == mask, || "another mask".into())
}

/// Without its 7s a file shows the words of its texts, as it stands and at two
/// widths, and its bodies have the same tags between them.
fn same_words(file: &[u8], width: u16) -> Held {
    let mut fields = field::parse(file);
    bare::drop_7s(&mut fields);
    let file = field::encode(&fields);
    let (_, wide) = laid_out(&file, width)?;
    let (_, narrow) = laid_out(&file, width / 2)?;
    let body = |file| page(Operation::Body, file).map(|body| bare::body(&body));
    let (words, tags) = (bare::texts(&fields), body(&file)?);
    for file in [&file, &wide, &narrow] {
        let plain = page(Operation::Plain, file)?;
        ensure(bare::page(&plain) == words, || "other words".into())?;
        ensure(body(file)? == tags, || "other tags".into())?;
    }
    Ok(())
}

fn not_too_long(file: &[u8], width: u16) -> Held {
    let (_, after) = laid_out(file, width)?;
    for file in [file, &after] {
        for operation in Operation::PAGES {
            let length = page(operation, file)?.len();
            ensure(length <= operation.most_bytes(file.len()), || {
                format!("{operation:?} has {length} bytes")
            })?;
        }
    }
    Ok(())
}

/// Without its 39s a file is laid out the same and has the same plain page, and with the items taken out its body is that of the other.
fn underlines(file: &[u8], width: u16) -> Held {
    let bare = original::without_39s(file);
    let ((count, after), (bare_count, bare_after)) =
        (laid_out(file, width)?, laid_out(&bare, width)?);
    ensure(count == bare_count, || "another count".into())?;
    ensure(original::without_39s(&after) == bare_after, || {
        "other tags changed".into()
    })?;
    let [plain, bare_plain] = [&after, &bare_after].map(|file| page(Operation::Plain, file));
    ensure(plain? == bare_plain?, || "another plain page".into())?;
    let (body, items) = without_items(&page(Operation::Body, &after)?);
    ensure(body == page(Operation::Body, &bare_after)?, || {
        "another body".into()
    })?;
    let fields = field::parse(file);
    let style = |(.., field): (usize, usize, &Field)| match field {
        Field::Inner(STYLES, inside) => Some(inside.iter().any(original::is_39)),
        _ => None,
    };
    let right: Vec<bool> = field::places(&fields)
        .into_iter()
        .filter_map(style)
        .collect();
    ensure(items == right, || {
        format!("items {items:?} for 39s {right:?}")
    })
}

/// A body with the items of 39s taken out where they are the last of a style, and whether each style had one.
fn without_items(body: &[u8]) -> (Vec<u8>, Vec<bool>) {
    let [last, alone] =
        [&b""[..], original::STYLE].map(|before| [before, original::ITEM, b"\""].concat());
    let (mut out, mut items) = (Vec::new(), Vec::new());
    for piece in body::pieces(body) {
        match piece {
            Piece::Tag(tag) if body::opens_style(tag) => {
                let bare = replaced(&replaced(tag, &alone, b""), &last, b"\"");
                items.push(bare != tag);
                out.extend(bare);
            }
            Piece::Tag(bytes) | Piece::Between(bytes) => out.extend(bytes),
        }
    }
    (out, items)
}

fn same_refusal(file: &[u8], width: u16) -> Held {
    let Err(refusal) = check(file) else {
        return Ok(());
    };
    let width = width.min(LARGEST_WIDTH);
    let laid = answer(&Request::layout(width, file.to_vec()));
    ensure(laid.answer == refusal.into() && laid.lent == file, || {
        "layout differs".into()
    })?;
    pages_refused(file, refusal, &Operation::PAGES)
}

/// Each of the pages is refused so, and nothing is written.
fn pages_refused(file: &[u8], refusal: Refusal, pages: &[Operation]) -> Held {
    let right = Answer::from(refusal);
    for operation in pages.iter().copied() {
        let said = answer(&Request::page(operation, 9, file.to_vec()));
        let left = said.lent.iter().all(|byte| *byte == LENT);
        ensure(said.answer == right && left, || {
            format!("{operation:?} differs")
        })?;
    }
    Ok(())
}

fn place_within(file: &[u8], _: u16) -> Held {
    match check(file) {
        Err(refusal) => ensure(refusal.place < file.len(), || format!("{refusal:?}")),
        Ok(()) => Ok(()),
    }
}

fn loose_tree(file: &[u8], _: u16) -> Held {
    ensure(field::encode(&field::parse(file)) == file, || {
        "other bytes".into()
    })
}
