//! Demand 3, run: a file and its masks get the same answers, and one list of page bytes gives all their pages.

mod list;
mod mask;

use crate::answers::{rendered, Answer, Operation, Outcome, Request};
use crate::check::check;
use crate::compare::Stop;
use crate::extent::Extent;
use crate::field;
use crate::generate;
use crate::hex::hex;
use crate::original;
use crate::random::Random;
use crate::shrink::shrink;
use crate::subject::{self, Said, Subject};
use crate::tags::LARGEST_WIDTH;
use crate::wire;
use mask::Kept;
use std::iter;

/// So many random masks of each kind are made of a file, beside the dull one.
const RANDOM: usize = 2;

/// So many requests are asked at once.
const MOST_REQUESTS: usize = 2_000;

/// One operation on a file, on masks that mark its text bytes, and on random masks.
struct Group {
    /// That of the file first.
    requests: Vec<Request>,
    /// So many requests behind the first are of marks.
    marks: usize,
    kept: Kept,
}

/// What a run went through.
#[derive(Default)]
pub struct Tally {
    pub files: u64,
    pub requests: u64,
}

/// A file and a mask that are not answered alike.
pub struct Unlike {
    /// What is asked of the file.
    pub request: Request,
    /// What is asked of the mask.
    masked: Request,
    why: String,
}

impl Unlike {
    pub fn words(&self) -> String {
        let request = wire::request_words(&self.request);
        let (asked, mask) = (self.masked.operation.name(), hex(&self.masked.file));
        format!(
            "{request}\n  mask, asked for its {asked}:\n  {mask}\n  {}",
            self.why
        )
    }
}

/// Tries random accepted files; the same seed tries the same again.
pub fn run(subject: &mut dyn Subject, seed: u64, extent: Extent) -> Result<Tally, Stop<Unlike>> {
    let mut tally = Tally::default();
    let (mut waiting, mut requests) = (Vec::new(), 0);
    for number in extent.numbers() {
        let mut random = Random::new(seed, number);
        let file = field::encode(&generate::fields(&mut random));
        let width = generate::width(&mut random, file.len());
        let layout = Request::layout(width, file);
        let groups = groups(seed, &layout);
        requests += groups
            .iter()
            .map(|group| group.requests.len())
            .sum::<usize>();
        waiting.push((layout, groups));
        tally.files += 1;
        if requests >= MOST_REQUESTS {
            ask(subject, seed, &std::mem::take(&mut waiting))?;
            tally.requests += std::mem::take(&mut requests) as u64;
        }
    }
    ask(subject, seed, &waiting)?;
    tally.requests += requests as u64;
    Ok(tally)
}

/// All that is asked of a file and its masks. The masks depend on nothing but
/// the seed and the file, so that one that fails does so again.
fn groups(seed: u64, layout: &Request) -> Vec<Group> {
    let file = &layout.file;
    let mut random = Random::new(seed, file.len() as u64);
    let mut masks = Vec::new();
    for kept in [Kept::Lines, Kept::LinesAndEscapes, Kept::Strict] {
        masks.push((kept, mask::dull(file, kept)));
        for _ in 0..RANDOM {
            masks.push((kept, mask::random(&mut random, file, kept)));
        }
    }
    let group = |kept, ask: &dyn Fn(Vec<u8>) -> Request| Group {
        requests: files(file, &masks, kept).cloned().map(ask).collect(),
        marks: 0,
        kept,
    };
    let mut groups = vec![
        group(Kept::Lines, &Request::check),
        group(Kept::Strict, &|file| {
            Request::page(Operation::CheckStrict, 0, file)
        }),
        group(Kept::Lines, &|file| Request::layout(layout.width, file)),
        group(Kept::Lines, &|file| Request::layout(layout.width / 2, file)),
    ];
    groups.extend(pages(&mut random, layout, &masks));
    groups
}

/// The file, and those of its masks that keep enough.
fn files<'a>(
    file: &'a Vec<u8>,
    masks: &'a [(Kept, Vec<u8>)],
    kept: Kept,
) -> impl Iterator<Item = &'a Vec<u8>> {
    let masks = masks.iter().filter(move |(by, _)| by.keeps_all_of(kept));
    iter::once(file).chain(masks.map(|(_, mask)| mask))
}

/// The pages of the file as it is laid out, of its marks and of those of the masks that keep enough; strict ones where strict mode accepts it.
fn pages(random: &mut Random, layout: &Request, masks: &[(Kept, Vec<u8>)]) -> Vec<Group> {
    let file = &layout.file;
    let laid_out = original::laid_out(file, layout.width.min(LARGEST_WIDTH));
    let operations = Operation::ALL.into_iter().filter(|op| op.is_page());
    let accepted = operations.filter(|op| op.walk(file).is_ok());
    let group = |operation| {
        let kept = Kept::by(operation);
        let length = rendered(operation, &laid_out).map_or(0, |page| page.len());
        let room = length + random.below(3);
        let files = files(file, masks, kept);
        let shown: Vec<Vec<u8>> = files
            .map(|mask| changed_alike(file, &laid_out, mask))
            .collect();
        page_group(operation, room, &shown)
    };
    accepted.map(group).collect()
}

/// A page of a file, which comes first, of its marks and of its masks; strict as well of those that strict mode shows no otherwise.
fn page_group(operation: Operation, room: usize, shown: &[Vec<u8>]) -> Group {
    let kept = Kept::by(operation);
    let (file, masks) = (&shown[0], &shown[1..]);
    let marks = mask::marks(file, kept);
    let (count, files) = (marks.len(), iter::once(file).chain(&marks).chain(masks));
    let ask = |file: &Vec<u8>| Request::page(operation, room, file.clone());
    let mut requests: Vec<Request> = files.map(ask).collect();
    if let Some(strict) = operation.made_strict() {
        let same = shown.iter().filter(|file| mask::is_same_strictly(file));
        requests.extend(same.map(|file| Request::page(strict, room, file.clone())));
    }
    Group {
        requests,
        marks: count,
        kept,
    }
}

/// The mask with those bytes changed that a layout changed in the file.
fn changed_alike(file: &[u8], laid_out: &[u8], mask: &[u8]) -> Vec<u8> {
    let changes = file.iter().zip(laid_out).zip(mask);
    let byte = |((before, after), masked): ((&u8, &u8), &u8)| match before == after {
        true => *masked,
        false => *after,
    };
    changes.map(byte).collect()
}

/// Asks for all groups of some files; the first that fails is made small.
fn ask(
    subject: &mut dyn Subject,
    seed: u64,
    files: &[(Request, Vec<Group>)],
) -> Result<(), Stop<Unlike>> {
    let groups = files.iter().flat_map(|(_, groups)| groups);
    let requests: Vec<Request> = groups.flat_map(|g| g.requests.iter().cloned()).collect();
    let said = subject::ask(subject, &requests).map_err(Stop::CannotAsk)?;
    let mut said = &said[..];
    for (layout, groups) in files {
        for group in groups {
            let (of_group, rest) = said.split_at(group.requests.len());
            said = rest;
            if let Err(unlike) = group.judge(of_group) {
                let smallest = smallest(subject, seed, layout).unwrap_or(unlike);
                return Err(Stop::Differs(Box::new(smallest)));
            }
        }
    }
    Ok(())
}

/// How an accepted file fails, if it does, asked for alone.
fn alone(subject: &mut dyn Subject, seed: u64, layout: &Request) -> Option<Unlike> {
    check(&layout.file).ok()?;
    groups(seed, layout).iter().find_map(|group| {
        let said = subject.answer(&group.requests).ok()?;
        group.judge(&said).err()
    })
}

/// The smallest file that fails; none if it was a whole batch that did.
fn smallest(subject: &mut dyn Subject, seed: u64, layout: &Request) -> Option<Unlike> {
    alone(subject, seed, layout)?;
    let layout = shrink(layout.clone(), &mut |tried| {
        let mut tried = tried.iter();
        tried.position(|layout| alone(subject, seed, layout).is_some())
    });
    alone(subject, seed, &layout)
}

impl Group {
    fn judge(&self, said: &[Said]) -> Result<(), Unlike> {
        let mut outcomes = Vec::new();
        for (index, said) in said.iter().enumerate() {
            let outcome = said.as_ref();
            outcomes.push(outcome.map_err(|why| self.unlike(index, why.clone()))?);
        }
        for (index, outcome) in outcomes.iter().enumerate() {
            let (right, said) = (outcomes[0].answer, outcome.answer);
            if said != right {
                let [right, said] = [right, said].map(wire::answer_words);
                let why = format!("the file is answered by {right}, the mask by {said}");
                return Err(self.unlike(index, why));
            }
        }
        match self.requests[0].operation.is_page() {
            true => self.judge_pages(&outcomes),
            false => self.judge_changes(&outcomes),
        }
    }

    /// In the masks the same bytes are changed as in the file, and to the same.
    fn judge_changes(&self, outcomes: &[&Outcome]) -> Result<(), Unlike> {
        let (file, laid_out) = (&self.requests[0].file, &outcomes[0].lent);
        for (index, outcome) in outcomes.iter().enumerate() {
            let right = changed_alike(file, laid_out, &self.requests[index].file);
            if right != outcome.lent {
                let mut bytes = right.iter().zip(&outcome.lent);
                let place = bytes.position(|(right, said)| right != said);
                let why = format!("not changed alike, first at {place:?}");
                return Err(self.unlike(index, why));
            }
        }
        Ok(())
    }

    /// The list that the marks tell gives the page of the file and of each mask.
    fn judge_pages<'a>(&self, outcomes: &[&'a Outcome]) -> Result<(), Unlike> {
        let Answer::Accepted(length) = outcomes[0].answer else {
            return Err(self.unlike(0, "the page is refused".into()));
        };
        let page = |said: &&'a Outcome| said.lent.get(..length);
        let pages: Option<Vec<&[u8]>> = outcomes.iter().map(page).collect();
        let pages =
            pages.ok_or_else(|| self.unlike(0, "the page is longer than its room".into()))?;
        let changeable = mask::changeable(&self.requests[0].file, self.kept);
        let list = list::told(&pages[1..=self.marks], &changeable).map_err(|position| {
            let why = format!("byte {position} of the page is neither made nor copied");
            self.unlike(self.marks, why)
        })?;
        for (index, page) in pages.iter().enumerate() {
            if let Some(position) = list::misses(&list, &self.requests[index].file, page) {
                let why = format!("byte {position} of the mask's page is not the list's");
                return Err(self.unlike(index, why));
            }
        }
        Ok(())
    }

    fn unlike(&self, mask: usize, why: String) -> Unlike {
        Unlike {
            request: self.requests[0].clone(),
            masked: self.requests[mask].clone(),
            why,
        }
    }
}
