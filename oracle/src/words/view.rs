//! A file as it stands or as the subject laid it out, and what the subject shows of it.

use super::{Case, Unlike, MOST_TIMES};
use crate::answers::{Answer, Operation, Outcome, Request};
use crate::bare;
use crate::compare::Stop;
use crate::hex::hex;
use crate::subject::{self, Said, Subject};
use crate::wire;

pub struct View<'a> {
    pub case: &'a Case,
    /// None if the file is as it stands.
    pub width: Option<u16>,
    pub file: Vec<u8>,
}

/// Every file as it stands and, behind it, as the subject lays it out at each of its widths.
pub fn all<'a>(
    subject: &mut dyn Subject,
    cases: &'a [Case],
) -> Result<Vec<View<'a>>, Stop<Unlike>> {
    let mut views: Vec<View> = cases.iter().flat_map(of_case).collect();
    let layout = |view: &View| Some(Request::layout(view.width?, view.file.clone()));
    let said = ask(subject, views.iter().filter_map(layout).collect())?;
    let to_lay_out = views.iter_mut().filter(|view| view.width.is_some());
    for (view, said) in to_lay_out.zip(said) {
        let outcome = said.map_err(|why| view.unlike(why))?;
        match outcome.answer {
            Answer::Accepted(_) => view.file = outcome.lent,
            refused => return Err(view.answered("its layout", refused)),
        }
    }
    Ok(views)
}

/// None of them laid out yet.
fn of_case(case: &Case) -> Vec<View<'_>> {
    let widths = case.widths.iter().copied().map(Some);
    let file = &case.file;
    let view = |width| View {
        case,
        width,
        file: file.clone(),
    };
    std::iter::once(None).chain(widths).map(view).collect()
}

/// How often a file is laid out otherwise than at its width before.
pub fn laid_out_unlike(views: &[View]) -> usize {
    let unlike = |pair: &&[View]| {
        let both = pair.iter().all(|view| view.width.is_some());
        both && pair[0].file != pair[1].file
    };
    views.windows(2).filter(unlike).count()
}

/// Lent no more than they may need, so that a longer one is refused by 10.
pub fn plain_pages(
    subject: &mut dyn Subject,
    views: &[View],
) -> Result<Vec<Vec<u8>>, Stop<Unlike>> {
    let request = |view: &View| {
        let room = MOST_TIMES * view.file.len();
        Request::page(Operation::Plain, room, view.file.clone())
    };
    let said = ask(subject, views.iter().map(request).collect())?;
    let name = format!("its plain page, lent {MOST_TIMES} times the file,");
    let pages = views.iter().zip(said);
    pages.map(|(view, said)| view.page(&name, said)).collect()
}

/// Lent what the subject says that they need.
pub fn bodies(subject: &mut dyn Subject, views: &[View]) -> Result<Vec<Vec<u8>>, Stop<Unlike>> {
    let request = |view: &View, room| Request::page(Operation::Body, room, view.file.clone());
    let without_room = views.iter().map(|view| request(view, 0)).collect();
    let mut requests = Vec::new();
    for (view, said) in views.iter().zip(ask(subject, without_room)?) {
        requests.push(request(view, view.needed(said)?));
    }
    let said = ask(subject, requests)?;
    let pages = views.iter().zip(said);
    let body = |(view, said): (&View, Said)| view.page("its body, lent what it needs,", said);
    pages.map(body).collect()
}

fn ask(subject: &mut dyn Subject, requests: Vec<Request>) -> Result<Vec<Said>, Stop<Unlike>> {
    subject::ask(subject, &requests).map_err(Stop::CannotAsk)
}

impl View<'_> {
    /// The words of the plain page are those of the texts, if the file has no 7.
    pub fn judge_page(&self, page: &[u8]) -> Result<(), Stop<Unlike>> {
        let shown = bare::page(page);
        match &self.case.words {
            Some(words) if *words != shown => {
                let [words, shown] = [words, &shown].map(|bytes| hex(bytes));
                let why = format!("the texts have the words {words}, the plain page has {shown}");
                Err(self.unlike(why))
            }
            _ => Ok(()),
        }
    }

    /// Both without the spaces and newlines outside tags.
    pub fn judge_body(&self, body: &[u8], standing: &[u8]) -> Result<(), Stop<Unlike>> {
        if body == standing {
            return Ok(());
        }
        let [standing, body] = [standing, body].map(String::from_utf8_lossy);
        let why = format!("the body has {body}, that of the file as it stands {standing}");
        Err(self.unlike(why))
    }

    /// The page that was said.
    fn page(&self, name: &str, said: Said) -> Result<Vec<u8>, Stop<Unlike>> {
        let Outcome { answer, mut lent } = said.map_err(|why| self.unlike(why))?;
        match answer {
            Answer::Accepted(length) if length <= lent.len() => {
                lent.truncate(length);
                Ok(lent)
            }
            other => Err(self.answered(name, other)),
        }
    }

    /// How long the page is that was asked for without room.
    fn needed(&self, said: Said) -> Result<usize, Stop<Unlike>> {
        let outcome = said.map_err(|why| self.unlike(why))?;
        match outcome.answer {
            Answer::Refused { number: 10, place } => Ok(place),
            other => Err(self.answered("its body, lent no byte,", other)),
        }
    }

    fn answered(&self, name: &str, answer: Answer) -> Stop<Unlike> {
        let answer = wire::answer_words(answer);
        self.unlike(format!("{name} is answered by {answer}"))
    }

    fn unlike(&self, why: String) -> Stop<Unlike> {
        let (widths, file) = (&self.case.widths, self.case.file.clone());
        let (width, which) = match self.width {
            Some(width) => (width, format!("laid out at width {width}")),
            None => (widths[0], "as it stands".to_string()),
        };
        Stop::Differs(Box::new(Unlike {
            request: Request::layout(width, file),
            why: format!("{which}: {why}"),
        }))
    }
}
