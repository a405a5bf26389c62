//! Request E12, run: a file without 7s shows the same words at every width, and no plain page is over 67 times its file.

mod longest;
mod tally;
mod view;

use crate::answers::Request;
use crate::bare;
use crate::check::check;
use crate::compare::Stop;
use crate::extent::Extent;
use crate::field;
use crate::generate;
use crate::random::Random;
use crate::shrink::shrink;
use crate::subject::Subject;
use crate::tags::LARGEST_WIDTH;
use crate::wire;
pub use tally::Tally;
use view::View;

/// A plain page has at most so many bytes for each byte of its file.
pub const MOST_TIMES: usize = 67;

/// So many files are asked for at once, or fewer where so many bytes are lent for their plain pages.
const MOST_FILES: usize = 500;
const MOST_BYTES: usize = 1 << 24;

/// Of the random files one in so many keeps its 7s: for them only the length is bounded.
const WITH_7S: usize = 4;

/// A file, and the widths that it is laid out at.
struct Case {
    file: Vec<u8>,
    widths: Vec<u16>,
    /// The words of its texts, if it has no 7.
    words: Option<Vec<u8>>,
}

impl Case {
    fn new(file: Vec<u8>, widths: Vec<u16>) -> Self {
        let fields = field::parse(&file);
        Self {
            words: (!bare::has_7(&fields)).then(|| bare::texts(&fields)),
            file,
            widths,
        }
    }

    /// At two random widths.
    fn at_two(random: &mut Random, file: Vec<u8>) -> Self {
        let mut width = || generate::width(random, file.len()).min(LARGEST_WIDTH);
        let (first, mut second) = (width(), width());
        if first == second {
            second = (first + 1) % (LARGEST_WIDTH + 1);
        }
        Self::new(file, vec![first, second])
    }

    fn random(random: &mut Random) -> Self {
        let mut fields = generate::fields(random);
        if !random.one_in(WITH_7S) {
            bare::drop_7s(&mut fields);
        }
        Self::at_two(random, field::encode(&fields))
    }

    /// How many bytes are lent for its plain pages.
    fn lent(&self) -> usize {
        MOST_TIMES * self.file.len() * (1 + self.widths.len())
    }
}

/// A file that shows other words than its texts have, other tags where it is laid out, or too long a page.
pub struct Unlike {
    /// The layout of the file.
    pub request: Request,
    why: String,
}

impl Unlike {
    pub fn words(&self) -> String {
        let request = wire::request_words(&self.request);
        format!("{request}\n  {}", self.why)
    }
}

/// Tries random accepted files and then those made for long pages; the same seed tries the same again.
pub fn run(subject: &mut dyn Subject, seed: u64, extent: Extent) -> Result<Tally, Stop<Unlike>> {
    let mut tally = Tally::default();
    let (mut waiting, mut bytes) = (Vec::new(), 0);
    for case in cases(seed, extent) {
        bytes += case.lent();
        waiting.push(case);
        if waiting.len() >= MOST_FILES || bytes >= MOST_BYTES {
            bytes = 0;
            judge(subject, &std::mem::take(&mut waiting), &mut tally)?;
        }
    }
    judge(subject, &waiting, &mut tally)?;
    Ok(tally)
}

fn cases(seed: u64, extent: Extent) -> impl Iterator<Item = Case> {
    let numbers = extent.numbers();
    let random = numbers.map(move |number| Case::random(&mut Random::new(seed, number)));
    let longest = longest::files().map(move |file| {
        let mut random = Random::new(seed, file.len() as u64);
        Case::at_two(&mut random, file)
    });
    random.chain(longest)
}

/// Judges some files; the first that fails is made small.
fn judge(subject: &mut dyn Subject, cases: &[Case], tally: &mut Tally) -> Result<(), Stop<Unlike>> {
    judge_all(subject, cases, tally).map_err(|stop| match stop {
        Stop::Differs(unlike) => Stop::Differs(Box::new(smallest(subject, *unlike))),
        cannot_ask => cannot_ask,
    })
}

fn judge_all(
    subject: &mut dyn Subject,
    cases: &[Case],
    tally: &mut Tally,
) -> Result<(), Stop<Unlike>> {
    let mut views = view::all(subject, cases)?;
    tally.files += cases.len() as u64;
    for (view, page) in views.iter().zip(view::plain_pages(subject, &views)?) {
        view.judge_page(&page)?;
        tally.plain_pages += 1;
        tally.longest.note(page.len(), view.file.len());
    }
    views.retain(|view| view.case.words.is_some());
    judge_bodies(subject, &views, tally)
}

/// Files without 7s: each body has the tags, and between them the words, that the body of the file as it stands has.
fn judge_bodies(
    subject: &mut dyn Subject,
    views: &[View],
    tally: &mut Tally,
) -> Result<(), Stop<Unlike>> {
    let mut standing = Vec::new();
    for (view, body) in views.iter().zip(view::bodies(subject, views)?) {
        let bare = bare::body(&body);
        tally.bodies += 1;
        match view.width {
            None => standing = bare,
            Some(_) => view.judge_body(&bare, &standing)?,
        }
    }
    let as_they_stand = views.iter().filter(|view| view.width.is_none());
    tally.without_7s += as_they_stand.count() as u64;
    tally.laid_out_unlike += view::laid_out_unlike(views) as u64;
    Ok(())
}

/// How an accepted file fails, if it does, asked for alone and at one width.
fn alone(subject: &mut dyn Subject, layout: &Request) -> Option<Unlike> {
    check(&layout.file).ok()?;
    let case = Case::new(layout.file.clone(), vec![layout.width]);
    match judge_all(subject, &[case], &mut Tally::default()) {
        Err(Stop::Differs(unlike)) => Some(*unlike),
        Ok(()) | Err(Stop::CannotAsk(_)) => None,
    }
}

/// The smallest file that fails; the file itself if only a whole batch did.
fn smallest(subject: &mut dyn Subject, unlike: Unlike) -> Unlike {
    if alone(subject, &unlike.request).is_none() {
        return unlike;
    }
    let layout = shrink(unlike.request.clone(), &mut |tried| {
        let mut tried = tried.iter();
        tried.position(|layout| alone(subject, layout).is_some())
    });
    alone(subject, &layout).unwrap_or(unlike)
}
