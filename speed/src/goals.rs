//! What is aimed at, and which of the files meet it.

use crate::inputs::{CODE_LIKE, SIZES};
use crate::table::ratio;
use crate::timing::{Job, Row};

/// The library is to be so many times as fast as the Rust at least.
struct Goal {
    what: &'static str,
    rust: Job,
    ours: Job,
    least: f64,
}

/// For every file: from bytes, and faster than the Rust's layout and printing of a tree that is there.
const OF_EVERY_FILE: [Goal; 4] = [
    Goal {
        what: "plain page, from bytes",
        rust: Job::RustPlain,
        ours: Job::OursPlain,
        least: 4.0,
    },
    Goal {
        what: "plain page, of a tree",
        rust: Job::RustPlainOfTree,
        ours: Job::OursPlain,
        least: 1.0,
    },
    Goal {
        what: "HTML, from bytes",
        rust: Job::RustHtml,
        ours: Job::OursHtml,
        least: 4.0,
    },
    Goal {
        what: "HTML, of a tree",
        rust: Job::RustHtmlOfTree,
        ours: Job::OursHtml,
        least: 1.0,
    },
];

/// For the largest code-like file.
const OF_A_LONG_LISTING: Goal = Goal {
    what: "writing a long listing, beside building its tree",
    rust: Job::RustBuild,
    ours: Job::OursWrite,
    least: 2.0,
};

/// The largest file is to take at most so many times what the middle one does.
const LARGEST_OVER_MIDDLE: f64 = 6.5;

/// Each goal with how many files meet it, and those that do not.
pub fn words(rows: &[Row]) -> String {
    let every = OF_EVERY_FILE.iter().map(|goal| goal.words(rows.iter()));
    let every: String = every.collect();
    let listings = rows.iter().filter(|row| row.kind == CODE_LIKE);
    let writing = OF_A_LONG_LISTING.words(listings.max_by_key(|row| row.length).into_iter());
    format!("\nGoals\n\n{every}{writing}{}", linear(rows))
}

impl Goal {
    fn words<'a>(&self, rows: impl Iterator<Item = &'a Row>) -> String {
        let meets = |row: &&Row| ratio(row, self.rust, self.ours) >= self.least;
        let (met, missed): (Vec<&Row>, Vec<&Row>) = rows.partition(meets);
        let goal = format!("{}: at least {} times as fast", self.what, self.least);
        let named = missed
            .iter()
            .map(|row| format!("{} of {}", row.kind, row.length));
        line(&goal, met.len() + missed.len(), named.collect())
    }
}

/// Whether time grows as the file does.
fn linear(rows: &[Row]) -> String {
    let largest = rows.chunks(SIZES.len()).filter_map(|kind| growth(kind));
    let slow: Vec<String> = largest
        .filter(|(_, growth)| *growth > LARGEST_OVER_MIDDLE)
        .map(|(kind, growth)| format!("{kind} {growth:.2}"))
        .collect();
    let goal = format!("the largest file at most {LARGEST_OVER_MIDDLE} times the middle one");
    line(&goal, rows.len() / SIZES.len(), slow)
}

/// The time of the largest file over that of the middle one, for the plain page.
fn growth(kind: &[Row]) -> Option<(&'static str, f64)> {
    let [_, middle, largest] = kind else {
        return None;
    };
    Some((
        largest.kind,
        largest.time(Job::OursPlain) / middle.time(Job::OursPlain),
    ))
}

fn line(goal: &str, all: usize, missed: Vec<String>) -> String {
    let met = all - missed.len();
    match missed.is_empty() {
        true => format!("- {goal}: {met} of {all}\n"),
        false => format!("- {goal}: {met} of {all}; not {}\n", missed.join(", ")),
    }
}
