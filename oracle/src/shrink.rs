//! Makes a failing request small: drops, opens and shortens fields, then bytes, widths and rooms.

mod cut;

use crate::answers::{rendered, Request};
use crate::field::{self, Field};
use crate::tags::{BREAKING_ONLY_SPACE, IF_BLOCK_LAYOUT, TEXT_BYTES};
use cut::{Cut, CUTS};

/// Answers the first of some requests that still fails.
pub type Fails<'a> = dyn FnMut(&[Request]) -> Option<usize> + 'a;

/// At most so many requests are asked at once: a subject may cost a start each time.
const LARGEST_BATCH: usize = 64;

/// So many steps are tried in all, then the best so far has to do.
const MOST_STEPS: usize = 60_000;

/// The smallest failing request that the steps lead to; `request` itself fails.
pub fn shrink(request: Request, fails: &mut Fails) -> Request {
    let mut search = Search {
        best: request,
        tried: 0,
        from: 0,
    };
    while search.better(fails) {}
    search.best
}

struct Search {
    best: Request,
    tried: usize,
    /// The step that led on last: those before it were of no use then, and come last now.
    from: usize,
}

impl Search {
    /// Finds a smaller request; false if there is none, or enough was tried.
    fn better(&mut self, fails: &mut Fails) -> bool {
        let start = Start::new(&self.best);
        let mut steps = start.steps();
        let from = self.from.min(steps.len() - 1);
        steps.rotate_left(from);
        // Small batches where success is near, larger ones the longer it takes.
        let (mut at, mut batch) = (0, 2);
        while at < steps.len() && self.tried < MOST_STEPS {
            let some = &steps[at..steps.len().min(at + batch)];
            self.tried += some.len();
            if let Some(smaller) = start.first(some, fails) {
                self.best = smaller;
                self.from = (from + at) % steps.len();
                return true;
            }
            at += batch;
            batch = LARGEST_BATCH.min(batch * 2);
        }
        false
    }
}

/// Every step makes this smaller, so the steps come to an end.
fn size(request: &Request) -> (usize, usize, u16, usize) {
    let file = &request.file;
    let interesting = |byte: &&u8| **byte != 0 && **byte != b'a';
    let count = file.iter().filter(interesting).count();
    (file.len(), count, request.width, request.room)
}

#[derive(Clone, Copy)]
enum Width {
    /// Less by the columns lost, and by so many more.
    Less(usize),
    Just(u16),
}

const WIDTHS: [Width; 6] = [
    Width::Just(0),
    Width::Just(1),
    Width::Just(2),
    Width::Less(0),
    Width::Less(1),
    Width::Less(2),
];

#[derive(Clone, Copy)]
enum Step {
    Field(usize, Cut),
    /// The same at another width: most faults of a layout show at few widths.
    AtWidth(usize, Cut, Width),
    DropBytes(usize, usize),
    ZeroByte(usize),
    Width(u16),
    Room(usize),
}

/// A request with what the steps from it need.
struct Start<'a> {
    best: &'a Request,
    fields: Vec<Field>,
    page: Option<usize>,
}

/// The length of the page asked for, if there is one.
fn page_length(request: &Request) -> Option<usize> {
    let asked = request.operation.is_page();
    let page = asked.then(|| rendered(request.operation, &request.file));
    Some(page?.ok()?.len())
}

impl<'a> Start<'a> {
    fn new(best: &'a Request) -> Self {
        Self {
            fields: field::parse(&best.file),
            page: page_length(best),
            best,
        }
    }

    /// All steps, the bold ones first.
    fn steps(&self) -> Vec<Step> {
        let width = self.best.width;
        let mut steps = vec![Step::Width(0), Step::Width(width / 2)];
        let count = field::count(&self.fields);
        for number in 0..count {
            steps.extend(CUTS.map(|cut| Step::Field(number, cut)));
        }
        for number in (0..count).filter(|_| width > 0) {
            for width in WIDTHS {
                steps.extend(CUTS.map(|cut| Step::AtWidth(number, cut, width)));
            }
        }
        let length = self.best.file.len();
        let mut chunk = length / 2;
        while chunk > 0 {
            let starts = (0..length).step_by(chunk);
            steps.extend(starts.map(|at| Step::DropBytes(at, chunk)));
            chunk /= 2;
        }
        steps.extend((0..length).map(Step::ZeroByte));
        steps.push(Step::Width(width.saturating_sub(1)));
        let (room, exact) = (self.best.room, self.page.unwrap_or(0));
        steps.extend([0, exact, room / 2, room.saturating_sub(1)].map(Step::Room));
        steps
    }

    /// The first step to a smaller request that still fails.
    fn first(&self, steps: &[Step], fails: &mut Fails) -> Option<Request> {
        let new = steps.iter().filter_map(|step| self.take(*step));
        let mut new: Vec<Request> = new.filter(|new| size(new) < size(self.best)).collect();
        if new.is_empty() {
            return None;
        }
        fails(&new).map(|index| new.swap_remove(index))
    }

    fn take(&self, step: Step) -> Option<Request> {
        let mut new = self.best.clone();
        match step {
            Step::Field(number, cut) => new.file = field::encode(&self.fewer(number, cut)?),
            Step::AtWidth(number, cut, width) => {
                let fewer = self.fewer(number, cut)?;
                new.file = field::encode(&fewer);
                new.width = width.after(new.width, columns(&self.fields), columns(&fewer));
            }
            Step::DropBytes(at, length) => {
                let end = (at + length).min(new.file.len());
                new.file.drain(at..end);
            }
            Step::ZeroByte(at) => new.file[at] = 0,
            Step::Width(width) => new.width = width,
            Step::Room(room) => new.room = room,
        }
        // A fault that needs a page to fit just so, or to miss by one, stays
        // only if the room follows the page's length.
        if let (Some(old), Some(page)) = (self.page, page_length(&new)) {
            new.room = (new.room + page).saturating_sub(old);
        }
        Some(new)
    }

    /// The fields after a cut that changes something.
    fn fewer(&self, number: usize, cut: Cut) -> Option<Vec<Field>> {
        let mut fewer = self.fields.clone();
        let (list, index) = field::holder(&mut fewer, number)?;
        cut.make(list, index);
        (fewer != self.fields).then_some(fewer)
    }
}

impl Width {
    fn after(self, width: u16, before: usize, now: usize) -> u16 {
        match self {
            Self::Just(width) => width,
            Self::Less(more) => {
                let less = before.saturating_sub(now) + more;
                width.saturating_sub(u16::try_from(less).unwrap_or(u16::MAX))
            }
        }
    }
}

/// About how wide all texts and spaces are together.
fn columns(fields: &[Field]) -> usize {
    let width = |field: &Field| match field {
        Field::Leaf(TEXT_BYTES | IF_BLOCK_LAYOUT, value) => value.len(),
        Field::Leaf(BREAKING_ONLY_SPACE, _) => 1,
        other => columns(field::inside(other)),
    };
    fields.iter().map(width).sum()
}
