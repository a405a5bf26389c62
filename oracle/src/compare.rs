//! Compares a subject with the judge over random files, and makes the first disagreement small.

use crate::answers::{self, Asked, Operation, Outcome, Request, Right};
use crate::check::{check, strict_check, Refusal};
use crate::damage::{self, every};
use crate::extent::Extent;
use crate::field;
use crate::generate;
use crate::hex::hex;
use crate::original;
use crate::random::Random;
use crate::shrink::shrink;
use crate::strict;
use crate::subject::{self, Said, Subject};
use crate::wire;

/// A batch is asked when it holds so many requests, or so many bytes of files
/// and lent bytes: few enough to hold, and enough that starting a command for
/// each batch costs little.
const MOST_REQUESTS: usize = 4_000;
const MOST_BYTES: usize = 1 << 24;

/// One page in so many is also asked for in rooms around the bound on its length, which are large.
const AROUND_THE_BOUND: usize = 16;

/// A request with what is right for it.
pub struct Case {
    pub request: Request,
    pub right: Outcome,
}

/// What a run went through.
#[derive(Default)]
pub struct Tally {
    pub files: u64,
    pub accepted: u64,
    pub requests: u64,
}

/// The smallest request found on which subject and judge differ.
pub struct Disagreement {
    pub request: Request,
    right: Outcome,
    said: Said,
}

/// Why a run did not end well.
pub enum Stop<Difference = Disagreement> {
    Differs(Box<Difference>),
    CannotAsk(String),
}

/// Asks for random files; the same seed asks the same again.
pub fn run(
    subject: &mut dyn Subject,
    parts: &[Operation],
    seed: u64,
    extent: Extent,
) -> Result<Tally, Stop> {
    let random = extent.numbers().map(|number| {
        let mut random = Random::new(seed, number);
        let file = any_file(&mut random);
        (random, file)
    });
    run_over(random, subject, parts)
}

/// Asks for all small files of some kinds.
pub fn run_small(subject: &mut dyn Subject, parts: &[Operation]) -> Result<Tally, Stop> {
    let small = every::files().enumerate();
    let small = small.map(|(index, file)| (Random::new(0, index as u64), file));
    run_over(small, subject, parts)
}

/// Asks for the files, each with what chooses its widths and rooms.
fn run_over(
    files: impl Iterator<Item = (Random, Vec<u8>)>,
    subject: &mut dyn Subject,
    parts: &[Operation],
) -> Result<Tally, Stop> {
    let mut run = Run {
        subject,
        waiting: Vec::new(),
        bytes: 0,
        tally: Tally::default(),
    };
    for (mut random, file) in files {
        run.ask_all(&mut random, &file, parts)?;
    }
    run.judge_waiting()?;
    Ok(run.tally)
}

/// An accepted file or a damaged one.
pub fn any_file(random: &mut Random) -> Vec<u8> {
    match random.one_in(2) {
        true => field::encode(&generate::fields(random)),
        false => damage::file(random),
    }
}

/// The subject that is asked, and the cases that wait for a batch.
struct Run<'a> {
    subject: &'a mut dyn Subject,
    waiting: Vec<Case>,
    bytes: usize,
    tally: Tally,
}

impl Run<'_> {
    /// All requests for one file.
    fn ask_all(
        &mut self,
        random: &mut Random,
        file: &[u8],
        parts: &[Operation],
    ) -> Result<(), Stop> {
        let checked = check(file);
        self.ask_checks(file, checked, parts)?;
        let width = generate::width(random, file.len());
        let laid_out = answers::layout_outcome(file, checked, width);
        if parts.contains(&Operation::Layout) {
            self.ask(Asked::layout(width, file), laid_out.right())?;
            // Again at the same width, unless that is the same request, and at another.
            if laid_out.lent != file {
                self.ask_layout(width, &laid_out.lent, checked)?;
            }
            let other = generate::width(random, file.len());
            self.ask_layout(other, &laid_out.lent, checked)?;
        }
        // Refused layouts leave the file as it was.
        let shown = if random.one_in(2) {
            &laid_out.lent
        } else {
            file
        };
        self.ask_pages(random, shown, checked, parts)?;
        self.tally.files += 1;
        self.tally.accepted += u64::from(checked.is_ok());
        Ok(())
    }

    /// The check and the strict one.
    fn ask_checks(
        &mut self,
        file: &[u8],
        checked: Result<(), Refusal>,
        parts: &[Operation],
    ) -> Result<(), Stop> {
        if parts.contains(&Operation::Check) {
            self.ask(Asked::check(file), answers::check_right(checked))?;
        }
        if parts.contains(&Operation::CheckStrict) {
            let asked = Asked::page(Operation::CheckStrict, 0, file);
            self.ask(asked, answers::check_right(strict_check(file)))?;
        }
        Ok(())
    }

    /// The layout of a file that is laid out already, of which the check says what it said before.
    fn ask_layout(
        &mut self,
        width: u16,
        file: &[u8],
        checked: Result<(), Refusal>,
    ) -> Result<(), Stop> {
        let laid_out = answers::layout_outcome(file, checked, width);
        self.ask(Asked::layout(width, file), laid_out.right())
    }

    /// All pages, of the file that the check has spoken of.
    fn ask_pages(
        &mut self,
        random: &mut Random,
        file: &[u8],
        checked: Result<(), Refusal>,
        parts: &[Operation],
    ) -> Result<(), Stop> {
        if !parts.iter().any(|part| part.is_page()) {
            return Ok(());
        }
        let pages = checked.map(|()| original::pages(file));
        self.ask_in_rooms(random, file, &Operation::PAGES, &pages, parts)?;
        if !Operation::STRICT_PAGES.iter().any(|p| parts.contains(p)) {
            return Ok(());
        }
        let strict = strict_check(file).map(|()| {
            let pages = pages
                .as_ref()
                .expect("what strict mode accepts is accepted");
            strict::pages(file, pages)
        });
        self.ask_in_rooms(random, file, &Operation::STRICT_PAGES, &strict, parts)
    }

    /// Each of some pages in several rooms.
    fn ask_in_rooms<const N: usize>(
        &mut self,
        random: &mut Random,
        file: &[u8],
        operations: &[Operation; N],
        pages: &Result<[Vec<u8>; N], Refusal>,
        parts: &[Operation],
    ) -> Result<(), Stop> {
        for (index, operation) in operations.iter().copied().enumerate() {
            if !parts.contains(&operation) {
                continue;
            }
            let page = match pages {
                Ok(pages) => Ok(&pages[index][..]),
                Err(refusal) => Err(*refusal),
            };
            for room in rooms(random, operation, file, page.map(<[u8]>::len).ok()) {
                let right = answers::page_right(page, room);
                self.ask(Asked::page(operation, room, file), right)?;
            }
        }
        Ok(())
    }

    /// Asks at once if the subject can be asked so, else when the batch is full.
    fn ask(&mut self, asked: Asked, right: Right) -> Result<(), Stop> {
        self.tally.requests += 1;
        match self.subject.agrees(asked, right) {
            Some(true) => return Ok(()),
            Some(false) => return Err(differs(self.subject, &asked.to_request())),
            None => {}
        }
        let right = right.to_outcome(asked.lent());
        self.bytes += asked.file.len() + right.lent.len();
        let request = asked.to_request();
        self.waiting.push(Case { request, right });
        if self.waiting.len() >= MOST_REQUESTS || self.bytes >= MOST_BYTES {
            self.judge_waiting()?;
        }
        Ok(())
    }

    /// Compares the batch; the first difference is made small.
    fn judge_waiting(&mut self) -> Result<(), Stop> {
        let cases = std::mem::take(&mut self.waiting);
        self.bytes = 0;
        if cases.is_empty() {
            return Ok(());
        }
        match first_difference(self.subject, &cases).map_err(Stop::CannotAsk)? {
            None => Ok(()),
            Some((index, _)) => Err(differs(self.subject, &cases[index].request)),
        }
    }
}

fn differs(subject: &mut dyn Subject, request: &Request) -> Stop {
    Stop::Differs(Box::new(smallest(subject, request)))
}

/// The first case to which the subject says something wrong, and what it says.
pub fn first_difference(
    subject: &mut dyn Subject,
    cases: &[Case],
) -> Result<Option<(usize, Said)>, String> {
    let requests: Vec<Request> = cases.iter().map(|case| case.request.clone()).collect();
    let said = subject::ask(subject, &requests)?;
    let differs = |(index, said): &(usize, Said)| said.as_ref() != Ok(&cases[*index].right);
    Ok(said.into_iter().enumerate().find(differs))
}

fn smallest(subject: &mut dyn Subject, request: &Request) -> Disagreement {
    let request = shrink(request.clone(), &mut |tried| {
        let said = subject.answer(tried).ok()?;
        let mut pairs = tried.iter().zip(said);
        pairs.position(|(request, said)| said != Ok(answers::answer(request)))
    });
    let said = subject.answer(std::slice::from_ref(&request));
    let said = match said.map(|mut said| said.pop()) {
        Ok(Some(said)) => said,
        Ok(None) => Err("no answer".into()),
        Err(why) => Err(why),
    };
    Disagreement {
        right: answers::answer(&request),
        request,
        said,
    }
}

impl Disagreement {
    pub fn words(&self) -> String {
        let request = wire::request_words(&self.request);
        let right = wire::answer_line(&self.right);
        let said = match &self.said {
            Ok(outcome) => wire::answer_line(outcome),
            Err(why) => why.clone(),
        };
        let batch = hex(&wire::put_requests(std::slice::from_ref(&self.request)));
        format!(
            "{request}\n  as a request:     {batch}\n  \
             the Rust says:    {right}\n  the subject said: {said}"
        )
    }
}

/// No byte, a byte too few, just enough, and more; where there is no page to be too long, no byte and some. For some pages also the room from
/// which on a page surely fits, and a byte less.
fn rooms(
    random: &mut Random,
    operation: Operation,
    file: &[u8],
    length: Option<usize>,
) -> Vec<usize> {
    let more = random.between(1, 40);
    let mut rooms = match length {
        Some(length) => vec![0, length.saturating_sub(1), length, length + more],
        None => vec![0, more],
    };
    if random.one_in(AROUND_THE_BOUND) {
        let bound = operation.most_bytes(file.len());
        rooms.extend([bound.saturating_sub(1), bound]);
    }
    rooms.dedup();
    rooms
}
