//! The files that scripts make: a finished one is accepted and the tree asked for; those read off a file, and listings of the original, are known beforehand.

use super::listing::Listing;
use super::{answer_words, judge_all, place, read_off, style, Ran, Script, Tally, Unlike};
use crate::answers::{Answer, Operation, Request};
use crate::check::{check, Refusal};
use crate::compare::Stop;
use crate::field::{self, Field};
use crate::generate;
use crate::hex::hex;
use crate::original::{self, is_39};
use crate::random::Random;
use crate::scribe::{Call, Desk, Scribe};
use crate::shrink::shrink;
use crate::subject;
use crate::tags::LARGEST_WIDTH;
use crate::tree;

/// A finished file is the encoding of the tree, and is accepted by the judge and by what will print it.
pub fn judge_finished(scribe: &mut dyn Scribe, file: &[u8], tree: &[Field]) -> Result<(), String> {
    if field::encode(tree) != file {
        return Err(format!("the file is not the tree: {}", hex(file)));
    }
    if let Err(Refusal { number, place }) = check(file) {
        return Err(format!("the file is refused by {number} at {place}"));
    }
    match ask(scribe, Request::check(file.to_vec()))? {
        (Answer::Accepted(_), _) => Ok(()),
        (refused, _) => Err(format!("the subject's check says {refused:?} of its file")),
    }
}

/// What is said to one request, and the lent bytes.
fn ask(scribe: &mut dyn Scribe, request: Request) -> Result<(Answer, Vec<u8>), String> {
    let mut said = subject::ask(scribe.printer(), &[request])?;
    let outcome = said.pop().expect("one saying for each request")?;
    Ok((outcome.answer, outcome.lent))
}

/// The steps read off an accepted file give it again in a buffer of just its length. In a shorter one the first step that does not fit is
/// refused by 10, with the bytes that it needs.
pub fn judge_read_off(
    scribe: &mut dyn Scribe,
    random: &mut Random,
    tally: &mut Tally,
) -> Result<(), Stop<Unlike>> {
    let fields = generate::fields(random);
    let file = field::encode(&fields);
    let script = Script {
        start: Desk::new(file.len()),
        calls: read_off::calls(random, &fields),
    };
    let whole = gives(scribe, &script, &file, tally)?;
    judge_lister(scribe, &original::without_39s(&file))?;
    tally.read_off += 1;
    if file.is_empty() {
        return Ok(());
    }
    for room in [file.len() - 1, random.below(file.len())] {
        let short = Script {
            start: Desk::new(room),
            calls: script.calls.clone(),
        };
        let ran = judge_all(scribe, &short, tally)?;
        first_too_long(&whole, &ran, room).map_err(|why| unlike(&short, why))?;
    }
    Ok(())
}

/// Runs a script of which the file is known.
fn gives(
    scribe: &mut dyn Scribe,
    script: &Script,
    file: &[u8],
    tally: &mut Tally,
) -> Result<Ran, Stop<Unlike>> {
    let ran = judge_all(scribe, script, tally)?;
    if let Some((index, answer)) = ran.refused() {
        let answer = answer_words(answer);
        return Err(unlike(script, format!("step {}: {answer}", index + 1)));
    }
    match ran.desk.written() == file {
        true => Ok(ran),
        false => Err(unlike(script, format!("the file should be {}", hex(file)))),
    }
}

fn first_too_long(whole: &Ran, short: &Ran, room: usize) -> Result<(), String> {
    let ends = whole.answers.iter().map(|answer| place(*answer));
    let expected = ends.enumerate().find(|(_, end)| *end > room);
    let refused = short.refused();
    let right = expected.map(|(index, end)| (index, (end as u64) << 8 | 10));
    match refused == right {
        true => Ok(()),
        false => Err(format!("refused should be {right:?}, and is {refused:?}")),
    }
}

fn unlike(script: &Script, why: String) -> Stop<Unlike> {
    let script = script.clone();
    Stop::Differs(Box::new(Unlike { script, why }))
}

/// A listing built by the original's own functions and written by steps: the file is the tree, with its underlines, and is laid out and printed as
/// the original does.
pub fn judge_listing(
    scribe: &mut dyn Scribe,
    random: &mut Random,
    tally: &mut Tally,
) -> Result<(), Stop<Unlike>> {
    let listing = Listing::random(random);
    let calls = listing.calls(random);
    let bare = tree::encode(&listing.tree());
    let file = original::put_back(bare.clone(), &underlined(&calls));
    let script = Script {
        start: Desk::new(file.len() + random.pick(&[0, 0, 1, 50])),
        calls,
    };
    gives(scribe, &script, &file, tally)?;
    tally.listings += 1;
    let width = generate::width(random, file.len()).min(LARGEST_WIDTH);
    printed_alike(scribe, &listing, &file, width).map_err(|why| unlike(&script, why))?;
    judge_lister(scribe, &bare)
}

/// Whether each styled text that the steps ask for is underlined.
fn underlined(calls: &[Call]) -> Vec<bool> {
    let styles = calls.iter().filter_map(|call| style::fields(&call.style));
    styles.map(|fields| fields.iter().any(is_39)).collect()
}

/// The file laid out, its plain page and its HTML body.
fn printed_alike(
    scribe: &mut dyn Scribe,
    listing: &Listing,
    file: &[u8],
    width: u16,
) -> Result<(), String> {
    let mut right = tree::printed(listing.tree(), width);
    let underlined = original::underlined(file);
    right.laid_out = original::put_back(right.laid_out, &underlined);
    right.body = original::underline(right.body, &underlined);
    let (_, laid_out) = ask(scribe, Request::layout(width, file.to_vec()))?;
    if laid_out != right.laid_out {
        return Err(format!("laid out otherwise at width {width}"));
    }
    for (operation, page) in [
        (Operation::Plain, right.plain),
        (Operation::Body, right.body),
    ] {
        let request = Request::page(operation, page.len(), laid_out.clone());
        if ask(scribe, request)? != (Answer::Accepted(page.len()), page) {
            let name = operation.name();
            return Err(format!("another {name} page at width {width}"));
        }
    }
    Ok(())
}

/// The lister over the tree of an accepted file without 39s, which is what the original has. A file that fails is made small.
fn judge_lister(scribe: &mut dyn Scribe, file: &[u8]) -> Result<(), Stop<Unlike>> {
    if listed_alike(scribe, file).is_ok() {
        return Ok(());
    }
    let small = shrink(Request::check(file.to_vec()), &mut |tried| {
        let mut files = tried.iter().map(|request| &request.file);
        files.position(|file| is_tree(file) && listed_alike(scribe, file).is_err())
    });
    let why = listed_alike(scribe, &small.file).err();
    let script = Script {
        start: Desk::new(small.file.len()),
        calls: read_off::calls(&mut Random::new(0, 0), &field::parse(&small.file)),
    };
    let why = why.unwrap_or("the lister fails, but not each time".into());
    Err(unlike(&script, why))
}

/// Whether the original has a tree for a file.
fn is_tree(file: &[u8]) -> bool {
    check(file).is_ok() && !original::underlined(file).contains(&true)
}

/// In just enough room it writes the file, and in a byte less it is refused by 10.
fn listed_alike(scribe: &mut dyn Scribe, file: &[u8]) -> Result<(), String> {
    let needed = Refusal {
        number: 10,
        place: file.len(),
    };
    let rooms = [
        (Some(file.len()), Ok(file.to_vec())),
        (file.len().checked_sub(1), Err(needed)),
    ];
    for (room, right) in rooms {
        let listed = room.and_then(|room| scribe.list(file, room));
        if listed.as_ref().is_some_and(|listed| *listed != right) {
            return Err(format!("the lister gives {listed:?} in place of {right:?}"));
        }
    }
    Ok(())
}
