//! The jobs, timed in turn on one file.

use crate::inputs::Input;
use crate::quartiles::Quartiles;
use crate::steps::Steps;
use hazomeny::{HTML_FRAME, HTML_PER_BYTE, MOST_BYTES};
use oracle::tree;
use std::hint::black_box;
use std::time::{Duration, Instant};

/// The width that files are laid out at.
pub const WIDTH: usize = 80;

/// The longest page that a file can have, an HTML document: where it is lent no page is measured before it is written.
const ROOM: usize = HTML_PER_BYTE * MOST_BYTES + HTML_FRAME;

/// What is timed. Each entry of the library checks the file that it is given, so ours has two checks in `OursPlain`.
#[derive(Clone, Copy, PartialEq, Eq)]
pub enum Job {
    /// The file check alone.
    OursCheck,
    /// Layout on a copy of the file, then its plain page.
    OursPlain,
    /// The plain page at a width in one call, which only reads the file and checks it once.
    OursPrint,
    /// From the file's bytes: the tree is built, laid out, printed and dropped.
    RustPlain,
    /// Layout and printing of a tree that is there.
    RustPlainOfTree,
    /// The HTML document of a file that is laid out.
    OursHtml,
    /// From the file's bytes: the tree is built, printed as a document and dropped.
    RustHtml,
    /// Printing a tree that is there as a document.
    RustHtmlOfTree,
    /// A file written by its steps, one call for each, into a buffer that is long enough. Which steps, and with which texts and styles, is
    /// prepared; none is one of a join.
    OursWrite,
    /// The same tree built from as much that is prepared: every node and list of nodes is made and allocated, and no text is copied but an
    /// anchor's name. That the tree is dropped is not timed.
    RustBuild,
}

impl Job {
    pub const ALL: [Self; 10] = [
        Self::OursCheck,
        Self::OursPlain,
        Self::OursPrint,
        Self::RustPlain,
        Self::RustPlainOfTree,
        Self::OursHtml,
        Self::RustHtml,
        Self::RustHtmlOfTree,
        Self::OursWrite,
        Self::RustBuild,
    ];
}

/// The library's entries.
#[derive(Clone, Copy)]
pub enum Entry {
    CheckFile,
    LayoutFile,
    PlainPage,
    Print,
    HtmlBody,
    HtmlDocument,
    Writer,
}

impl Entry {
    pub const ALL: [Self; 7] = [
        Self::CheckFile,
        Self::LayoutFile,
        Self::PlainPage,
        Self::Print,
        Self::HtmlBody,
        Self::HtmlDocument,
        Self::Writer,
    ];

    pub fn name(self) -> &'static str {
        match self {
            Self::CheckFile => "check_file",
            Self::LayoutFile => "layout_file",
            Self::PlainPage => "plain_page",
            Self::Print => "hazomeny_print",
            Self::HtmlBody => "html_body",
            Self::HtmlDocument => "html_document",
            Self::Writer => "Writer",
        }
    }
}

/// A file, its laid out copy, its steps, and room for pages.
pub struct Bench {
    file: Vec<u8>,
    steps: Steps,
    laid_out: Vec<u8>,
    copy: Vec<u8>,
    page: Vec<u8>,
    /// What is printed in one call is appended, so it has a vector of its own.
    printed: Vec<u8>,
}

impl Bench {
    pub fn new(file: Vec<u8>) -> Self {
        let mut laid_out = file.clone();
        hazomeny::layout_file(&mut laid_out, WIDTH).expect("the inputs are accepted");
        let mut bench = Self {
            copy: file.clone(),
            page: vec![0; ROOM],
            printed: Vec::with_capacity(ROOM),
            laid_out,
            steps: Steps::of(&file),
            file,
        };
        bench.hold_steps_to_file();
        bench
    }

    /// What is timed as writing gives this file, what is timed as building gives its tree, seen by its page, and printing in one call gives that page.
    fn hold_steps_to_file(&mut self) {
        self.call(Entry::Writer);
        assert_eq!(self.page[..self.file.len()], self.file);
        let tree = self.steps.build().layout_with_max_line_width(WIDTH);
        assert_eq!(tree.to_string().into_bytes(), self.plain_page());
        self.call(Entry::Print);
        assert_eq!(self.printed, self.plain_page());
    }

    /// The plain page of the file that is laid out.
    pub fn plain_page(&self) -> Vec<u8> {
        let mut page = Vec::new();
        let answer = hazomeny::append_plain_page(&self.laid_out, &mut page);
        answer.expect("the inputs are accepted");
        page
    }

    /// How long the job took, once.
    pub fn time(&mut self, job: Job) -> Duration {
        match job {
            Job::RustPlainOfTree => tree::time_of_layout_and_plain(&self.file, WIDTH as u16),
            Job::RustHtmlOfTree => tree::time_of_document(&self.laid_out),
            Job::RustBuild => {
                let start = Instant::now();
                let tree = black_box(self.steps.build());
                let took = start.elapsed();
                drop(tree);
                took
            }
            _ => {
                let start = Instant::now();
                self.run(job);
                start.elapsed()
            }
        }
    }

    pub fn run(&mut self, job: Job) {
        match job {
            Job::OursCheck => self.call(Entry::CheckFile),
            Job::OursPlain => {
                self.copy.copy_from_slice(&self.file);
                self.call(Entry::LayoutFile);
                self.call(Entry::PlainPage);
            }
            Job::OursPrint => self.call(Entry::Print),
            Job::RustPlain | Job::RustPlainOfTree => {
                drop(black_box(tree::laid_out_plain(&self.file, WIDTH as u16)));
            }
            Job::OursHtml => self.call(Entry::HtmlDocument),
            Job::RustHtml | Job::RustHtmlOfTree => {
                drop(black_box(tree::document(&self.laid_out)));
            }
            Job::OursWrite => self.call(Entry::Writer),
            Job::RustBuild => drop(black_box(self.steps.build())),
        }
    }

    /// One call of an entry: layout and plain page of the copy, HTML of the file that is laid out; or all calls of a writer.
    pub fn call(&mut self, entry: Entry) {
        let answer = match entry {
            Entry::CheckFile => hazomeny::check_file(&self.file),
            Entry::LayoutFile => hazomeny::layout_file(&mut self.copy, WIDTH),
            Entry::PlainPage => hazomeny::plain_page(&self.copy, &mut self.page),
            Entry::Print => {
                self.printed.clear();
                hazomeny::append_page_at(&self.file, WIDTH, &mut self.printed)
            }
            Entry::HtmlBody => hazomeny::html_body(&self.laid_out, &mut self.page),
            Entry::HtmlDocument => hazomeny::html_document(&self.laid_out, &mut self.page),
            Entry::Writer => self.steps.write(&mut self.page),
        };
        black_box(answer).expect("the inputs are accepted");
    }
}

/// A file's times, in nanoseconds: of each job one for every round, in the rounds' order.
pub struct Row {
    pub kind: &'static str,
    pub length: usize,
    times: [Vec<f64>; Job::ALL.len()],
}

impl Row {
    /// The median.
    pub fn time(&self, job: Job) -> f64 {
        Quartiles::of(self.of(job)).median
    }

    /// The Rust's time over ours in the same round.
    pub fn ratios(&self, rust: Job, ours: Job) -> Quartiles {
        let rounds = self.of(rust).zip(self.of(ours));
        Quartiles::of(rounds.map(|(rust, ours)| rust / ours))
    }

    fn of(&self, job: Job) -> impl Iterator<Item = f64> + '_ {
        self.times[job as usize].iter().copied()
    }
}

/// Every job in each round, so that what else the machine does meets all of them alike.
pub fn row(input: Input, rounds: usize) -> Row {
    let length = input.file.len();
    let mut bench = Bench::new(input.file);
    let mut times = Job::ALL.map(|_| Vec::with_capacity(rounds));
    for _ in 0..rounds {
        for job in Job::ALL {
            times[job as usize].push(bench.time(job).as_nanos() as f64);
        }
    }
    Row {
        kind: input.kind,
        length,
        times,
    }
}
