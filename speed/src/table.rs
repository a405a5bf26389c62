//! The tables, as text.

use crate::inputs::LONG_TEXT;
use crate::memory::Taken;
use crate::timing::{Entry, Job, Row};
use crate::{counts, memcpy};

/// How many times ours the Rust takes.
pub fn ratio(row: &Row, rust: Job, ours: Job) -> f64 {
    row.time(rust) / row.time(ours)
}

/// The Rust's times over ours: above 1 the library is faster.
pub fn times(rows: &[Row]) -> String {
    let mut out = String::from(
        "The Rust's time over ours (above 1 the library is faster), medians; `check`: the share of ours that one file check takes\n\n\
         | Files | Bytes | Plain page, from bytes | Plain page, in one call | Plain page, of a tree | HTML, from bytes | HTML, of a tree | check |\n\
         |---|---|---|---|---|---|---|---|\n",
    );
    for row in rows {
        let plain = ratio(row, Job::RustPlain, Job::OursPlain);
        let print = ratio(row, Job::RustPlain, Job::OursPrint);
        let plain_of_tree = ratio(row, Job::RustPlainOfTree, Job::OursPlain);
        let html = ratio(row, Job::RustHtml, Job::OursHtml);
        let html_of_tree = ratio(row, Job::RustHtmlOfTree, Job::OursHtml);
        let check = row.time(Job::OursCheck) / row.time(Job::OursPlain);
        out += &format!(
            "| {} | {} | {plain:.2} | {print:.2} | {plain_of_tree:.2} | {html:.2} | {html_of_tree:.2} | {check:.2} |\n",
            row.kind, row.length
        );
    }
    out
}

/// How far the times' ratios move from round to round.
pub fn quartiles(rows: &[Row]) -> String {
    let mut out = String::from(
        "\nThe Rust's time over ours in the same round: median (lower to upper quartile)\n\n\
         | Files | Bytes | Plain page, from bytes | Plain page, in one call | HTML, from bytes |\n|---|---|---|---|---|\n",
    );
    for row in rows {
        let plain = row.ratios(Job::RustPlain, Job::OursPlain);
        let print = row.ratios(Job::RustPlain, Job::OursPrint);
        let html = row.ratios(Job::RustHtml, Job::OursHtml);
        out += &format!(
            "| {} | {} | {plain} | {print} | {html} |\n",
            row.kind, row.length
        );
    }
    out
}

/// Writing a file beside the Rust's building of its tree.
pub fn writing(rows: &[Row]) -> String {
    let mut out = String::from(
        "\nWriting a file by its steps: the Rust's time for building the same tree over ours in the same round, median (lower to upper quartile)\n\n\
         | Files | Bytes | Writing |\n|---|---|---|\n",
    );
    for row in rows {
        let writing = row.ratios(Job::RustBuild, Job::OursWrite);
        out += &format!("| {} | {} | {writing} |\n", row.kind, row.length);
    }
    out
}

/// One long text beside one copy of its page.
pub fn memcpy(rows: &[memcpy::Row]) -> String {
    let mut out = format!(
        "\nOur time for {LONG_TEXT} over that of one memcpy of its page in the same round: median (lower to upper quartile)\n\n\
         | Bytes | Bytes of the page | Plain page, from bytes |\n|---|---|---|\n",
    );
    for row in rows {
        out += &format!("| {} | {} | {} |\n", row.length, row.page, row.over_copy);
    }
    out
}

/// The instructions of each call, or why they were not counted.
pub fn counts(rows: &Result<Vec<counts::Row>, String>) -> String {
    let rows = match rows {
        Ok(rows) => rows,
        Err(why) => return format!("\nInstructions: not counted ({why})\n"),
    };
    let mut out = String::from(
        "\nInstructions of one call, counted by callgrind: the file check, which the Rust has not; layout and plain page, the same in one call, and the HTML document, from bytes\n\n\
         | Files | Bytes | Ours: check | Ours: plain page | Ours: in one call | The Rust: plain page | Ours: HTML | The Rust: HTML |\n\
         |---|---|---|---|---|---|---|---|\n",
    );
    for row in rows {
        let counts = row.counts.map(|count| count.to_string());
        out += &format!(
            "| {} | {} | {} |\n",
            row.kind,
            row.length,
            counts.join(" | ")
        );
    }
    out
}

/// What each took of memory.
pub fn memory(rows: &[Taken]) -> String {
    let mut out = String::from(
        "\nMemory at the most, in bytes; the page is the caller's\n\n\
         | Files | Bytes | Ours: stack | Ours: heap | The Rust: stack | The Rust: heap |\n|---|---|---|---|---|---|\n",
    );
    for row in rows {
        out += &format!(
            "| {} | {} | {} | {} | {} | {} |\n",
            row.kind, row.length, row.ours.stack, row.ours.heap, row.rust.stack, row.rust.heap
        );
    }
    out
}

/// The stack of each entry.
pub fn stacks(rows: &[(Entry, usize)]) -> String {
    let mut out = String::from(
        "\nStack at the most on any of these files, in bytes\n\n| Entry | Stack |\n|---|---|\n",
    );
    for (entry, stack) in rows {
        out += &format!("| `{}` | {stack} |\n", entry.name());
    }
    out
}
