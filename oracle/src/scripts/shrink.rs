//! Makes a failing script small: drops steps, then styles, texts and room.

use super::Script;
use crate::answers::LENT;
use crate::scribe::{made_right, Call, Desk, UNSTYLED};
use crate::tags::{HEADER, LONGEST_FILE};
use crate::writer::Step;

/// Says whether a script still fails.
pub type Fails<'a> = dyn FnMut(&Script) -> bool + 'a;

/// So many scripts are tried in all, then the best so far has to do.
const MOST_TRIED: usize = 20_000;

/// The smallest failing script that the cuts lead to; `script` itself fails.
pub fn smallest(script: &Script, fails: &mut Fails) -> Script {
    let mut best = script.clone();
    let mut tried = 0;
    loop {
        let mut cuts = cuts(&best).into_iter();
        let smaller = cuts.find_map(|cut| {
            tried += 1;
            let new = cut.made(&best)?;
            (tried <= MOST_TRIED && size(&new) < size(&best) && fails(&new)).then_some(new)
        });
        match smaller {
            Some(smaller) => best = smaller,
            None => return best,
        }
    }
}

/// Every cut makes this smaller, so they come to an end.
fn size(script: &Script) -> [usize; 6] {
    let calls = &script.calls;
    let style = |byte: &&u8| **byte != 0;
    let text = |byte: &&u8| **byte != b'a';
    [
        calls.len(),
        calls
            .iter()
            .filter(|call| given(call.step).is_some())
            .count(),
        calls.iter().map(|call| call.text.len()).sum(),
        calls
            .iter()
            .map(|call| call.style.iter().filter(style).count())
            .sum(),
        calls
            .iter()
            .map(|call| call.text.iter().filter(text).count())
            .sum(),
        script.start.file.len(),
    ]
}

/// The step that begins a join with its header given, in place of one that begins it behind a node.
fn given(step: u8) -> Option<u8> {
    match Step::numbered(step)? {
        Step::BeginSpaceBehind => Some(Step::BeginSpace as u8),
        Step::BeginCommaBehind => Some(Step::BeginComma as u8),
        _ => None,
    }
}

#[derive(Clone, Copy)]
enum Cut {
    /// Drops so many calls; the room stays, or is as much less as less is needed.
    Calls(usize, usize),
    CallsAndRoom(usize, usize),
    /// Drops so many calls and makes up for them by a longer text, for a fault at the end of the longest file.
    CallsForText(usize, usize),
    /// Gives a join its header.
    Given(usize),
    /// The text of a call without so many bytes of its end.
    Text(usize, usize),
    /// The same with as much less room.
    TextAndRoom(usize, usize),
    Dull(usize),
    Style(usize),
    Room(usize),
}

/// All cuts, the bold ones first.
fn cuts(script: &Script) -> Vec<Cut> {
    let count = script.calls.len();
    let mut cuts = Vec::new();
    let mut run = count;
    while run > 0 {
        for at in (0..count).step_by(run) {
            let all = [Cut::Calls, Cut::CallsAndRoom, Cut::CallsForText];
            cuts.extend(all.map(|cut| cut(at, run)));
        }
        run /= 2;
    }
    for (at, call) in script.calls.iter().enumerate() {
        let length = call.text.len();
        for less in [length, length / 2, 1] {
            cuts.extend([Cut::Text(at, less), Cut::TextAndRoom(at, less)]);
        }
        cuts.extend([Cut::Given(at), Cut::Style(at), Cut::Dull(at)]);
    }
    let room = script.start.file.len();
    cuts.extend([needed(script), room / 2, room.saturating_sub(1)].map(Cut::Room));
    cuts
}

/// How far the steps come where there is room for all.
fn needed(script: &Script) -> usize {
    end_of(&script.calls)
}

/// The same without the last, which is the one that fails.
fn reached(script: &Script) -> usize {
    let before = script.calls.split_last().map(|(_, before)| before);
    end_of(before.unwrap_or_default())
}

fn end_of(calls: &[Call]) -> usize {
    let mut desk = Desk::new(LONGEST_FILE);
    for call in calls {
        made_right(&mut desk, call);
    }
    desk.written().len()
}

impl Cut {
    fn made(self, script: &Script) -> Option<Script> {
        let mut new = script.clone();
        let end = |at: usize, run: usize| (at + run).min(script.calls.len());
        match self {
            Self::Calls(at, run) | Self::CallsAndRoom(at, run) | Self::CallsForText(at, run) => {
                drop(new.calls.drain(at..end(at, run)));
            }
            Self::Given(at) => {
                new.calls[at].step = given(new.calls[at].step)?;
                let room = new.start.file.len() + 2 * HEADER;
                new.start.file.resize(room, LENT);
            }
            Self::Text(at, less) | Self::TextAndRoom(at, less) => {
                let text = &mut new.calls[at].text;
                text.truncate(text.len().saturating_sub(less));
            }
            Self::Dull(at) => new.calls[at].text.fill(b'a'),
            Self::Style(at) => new.calls[at].style = UNSTYLED,
            Self::Room(room) => new.start.file.truncate(room),
        }
        match self {
            Self::CallsAndRoom(..) | Self::TextAndRoom(..) => cut_room(&mut new, script)?,
            Self::CallsForText(..) => lengthen(&mut new, script)?,
            _ => {}
        }
        Some(new)
    }
}

/// As much less room as less is needed than before.
fn cut_room(new: &mut Script, before: &Script) -> Option<()> {
    let less = needed(before).checked_sub(needed(new))?;
    let room = before.start.file.len().checked_sub(less)?;
    new.start.file.truncate(room);
    Some(())
}

/// Makes a long text longer, so that the last step is made as far on as before.
fn lengthen(new: &mut Script, before: &Script) -> Option<()> {
    let less = reached(before).checked_sub(reached(new))?;
    let mut texts = new.calls.iter_mut().map(|call| &mut call.text);
    let long = texts.find(|text| text.len() > LONGEST_FILE / 2)?;
    long.resize(long.len() + less, b'a');
    Some(())
}
