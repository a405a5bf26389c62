//! What the command takes: one definition for parsing, help, completion and the manual.

use crate::page::Kind;
use crate::product::Product;
use clap::{Args, Parser, Subcommand};
use clap_complete::Shell;
use std::num::NonZeroUsize;
use std::path::PathBuf;

const NOTES: &str = "\
Exit status: 0 all is done; 1 a file was refused; 2 wrong arguments;
3 something could not be read or written. Where several apply, the largest.

A refusal is told on standard error by its number, its place (a byte of the
file) and what stands there, such as

  a.fragment: refused 9 at 3: quote in an anchor's name (anchor definition, tag 18, length 8)

docs/FORMAT.md describes fragment files, widths and refusals.";

/// Checks, lays out, prints and masks listings of shader modules (fragment files), by a library that is proved to follow its rules
#[derive(Parser)]
#[command(name = "hazomeny", version, propagate_version = true, after_help = NOTES)]
pub struct Arguments {
    #[command(subcommand)]
    pub task: Task,
}

#[derive(Subcommand)]
pub enum Task {
    /// Print the plain page of a file laid out at a width, or of every *.fragment file below a folder
    Print(Printing),
    /// Print the HTML document of a file laid out at a width, or of every *.fragment file below a folder
    Html(Html),
    /// Check files: a line for each, `FILE: accepted` on standard output or the refusal on standard error
    Check(Check),
    /// Write a file laid out at a width: blocks that do not fit become indented ones
    Layout(Layout),
    /// Mask a file, or every *.fragment file below a folder: each byte of a text but newlines becomes x, the names of anchors stay
    Mask(Files),
    /// Write a script to standard output that lets a shell complete the arguments of this command
    Completion {
        /// The shell to write it for
        shell: Shell,
    },
    /// Write the manual page to standard output, for `man -l -`
    Manual,
}

#[derive(Args)]
pub struct Html {
    /// Print the body alone, one `pre` element, to stand in a document that has the style element
    #[arg(long)]
    body: bool,
    /// Write a CR of a text as `&#13;` and refuse a NUL in a text: a browser then gives the plain page back byte for byte
    #[arg(long)]
    strict: bool,
    #[command(flatten)]
    pub printing: Printing,
}

impl Html {
    pub fn product(&self) -> Product {
        self.printing.product(match (self.body, self.strict) {
            (true, false) => Kind::Body,
            (false, false) => Kind::Document,
            (true, true) => Kind::StrictBody,
            (false, true) => Kind::StrictDocument,
        })
    }
}

/// What `print` and `html` share.
#[derive(Args)]
pub struct Printing {
    #[command(flatten)]
    width: Width,
    #[command(flatten)]
    pub files: Files,
}

impl Printing {
    pub fn product(&self, kind: Kind) -> Product {
        Product::Page(kind, self.width.columns)
    }
}

/// What each task has that makes something of a file, or of every file of a folder.
#[derive(Args)]
pub struct Files {
    /// Write there, whole or not at all, in place of standard output; for a folder, the folder that gets the pages (.txt or .html) or masks (.fragment)
    #[arg(short, long, value_name = "OUT")]
    pub output: Option<PathBuf>,
    /// How many files of a folder are worked on at a time; if not given, as many as there are processors
    #[arg(short, long, value_name = "N")]
    pub jobs: Option<NonZeroUsize>,
    /// The fragment file, or the folder; `-` or nothing is standard input
    #[arg(value_name = "FILE")]
    pub file: Option<PathBuf>,
}

#[derive(Args)]
pub struct Check {
    /// Refuse what `html --strict` refuses: a NUL in a text too
    #[arg(long)]
    pub strict: bool,
    /// The fragment files; `-` or nothing is standard input
    #[arg(value_name = "FILE")]
    pub files: Vec<PathBuf>,
}

#[derive(Args)]
pub struct Layout {
    #[command(flatten)]
    pub width: Width,
    /// Write there, whole or not at all; `-` is standard output, and FILE itself may be given
    #[arg(short, long, value_name = "OUT")]
    pub output: PathBuf,
    /// The fragment file; `-` or nothing is standard input
    #[arg(value_name = "FILE")]
    pub file: Option<PathBuf>,
}

#[derive(Args)]
pub struct Width {
    /// The columns that a line may take, up to 6553
    #[arg(
        short = 'w',
        long = "width",
        value_name = "WIDTH",
        default_value_t = 80
    )]
    pub columns: usize,
}
