//! Instructions of single calls, counted by valgrind's callgrind: the difference between two runs of this program under it, of which one makes the
//! call once more. Callgrind can also collect inside one function alone, but on aarch64 valgrind 3.19 did not notice when the function returned.

use crate::inputs::{self, Input};
use crate::timing::{Bench, Job};
use std::env;
use std::process::Command;

/// The first argument of a run that is counted; a kind follows, and which of the jobs is called once more.
pub const ARGUMENT: &str = "counted";

/// What is counted, in the order of the table's columns.
const JOBS: [Job; 6] = [
    Job::OursCheck,
    Job::OursPlain,
    Job::OursPrint,
    Job::RustPlain,
    Job::OursHtml,
    Job::RustHtml,
];

/// In place of a job's number: none is called once more.
const NONE: usize = JOBS.len();

/// A file with how many instructions one call of each job takes.
pub struct Row {
    pub kind: &'static str,
    pub length: usize,
    pub counts: [u64; JOBS.len()],
}

/// The largest file of each kind, or why nothing was counted.
pub fn rows() -> Result<Vec<Row>, String> {
    inputs::largest().map(row).collect()
}

fn row(input: Input) -> Result<Row, String> {
    let without = instructions(input.kind, NONE)?;
    let mut counts = [0; JOBS.len()];
    for (job, count) in counts.iter_mut().enumerate() {
        *count = instructions(input.kind, job)? - without;
    }
    Ok(Row {
        kind: input.kind,
        length: input.file.len(),
        counts,
    })
}

/// All instructions of a run that is counted.
fn instructions(kind: &str, again: usize) -> Result<u64, String> {
    let program = env::current_exe().map_err(|e| e.to_string())?;
    let mut valgrind = Command::new("valgrind");
    valgrind.args(["--tool=callgrind", "--callgrind-out-file=/dev/null"]);
    valgrind
        .arg(program)
        .args([ARGUMENT, kind, &again.to_string()]);
    let ended = valgrind.output().map_err(|e| format!("valgrind: {e}"))?;
    if !ended.status.success() {
        return Err(format!("valgrind: {}", ended.status));
    }
    let told = String::from_utf8_lossy(&ended.stderr);
    let collected = told
        .lines()
        .find_map(|line| line.split_once("Collected : "));
    let number = collected.and_then(|(_, number)| number.parse().ok());
    number.ok_or(String::from("valgrind told no number"))
}

/// A run that is counted. Each job is called once, so that the one called once more finds memory as it is in a later round, and not as a program
/// finds it that has just started.
pub fn run(kind: &str, again: &str) -> Result<(), String> {
    let input = inputs::largest_of(kind).ok_or("no such kind")?;
    let again: usize = again.parse().map_err(|_| "which job once more?")?;
    let mut bench = Bench::new(input.file);
    for job in JOBS.iter().chain(JOBS.get(again)) {
        bench.run(*job);
    }
    Ok(())
}
