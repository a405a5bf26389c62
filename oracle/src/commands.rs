//! The commands: what each reads, prints and exits with.

mod pairing;
mod writing;

use crate::answers::{answer, rendered, Answer, Operation, Request};
use crate::check::{check, strict_check, Refusal};
use crate::compare::{self, Disagreement, Stop, Tally};
use crate::damage::every;
use crate::examples;
use crate::extent::Extent;
use crate::folder;
use crate::hex::hex;
use crate::masks::{self, Unlike};
use crate::numbers::{self, Misprint};
use crate::options::Options;
use crate::pair;
use crate::random::Random;
use crate::record;
use crate::selftest;
use crate::subject::{Child, Oneself, Subject};
use crate::tags::{FULL_OPACITY, LEAST_OPACITY};
use crate::wire;
use crate::words;
use std::fs;
use std::io::{self, Read, Write};
use std::num::NonZeroUsize;
use std::path::Path;
use std::process::ExitCode;
use std::time::{Duration, Instant, SystemTime, UNIX_EPOCH};

const USAGE: &str = "\
oracle COMMAND: the Rust original's answers for fragment files

  examples                     checks the judge by the examples of document 01
  ask OP [--width W] [--room N] FILE
                               OP is check, layout, plain, body, document,
                               check-strict, body-strict or document-strict;
                               prints `accepted`, the raw file or the raw page,
                               or `refused N at P`
  print [--width W] DIR OUT    prints every *.fragment file below DIR to OUT, as
                               `hazomeny print DIR -o OUT` does
  answers < REQUESTS > ANSWERS answers a request batch, a line for each
  respond < REQUESTS > RESPONSES
                               the same as a response batch: the judge as a
                               subject of another judge
  record DIR                   writes the recorded answers
  lines [--of WHAT] [--seed S] [--files N]
                               prints files in hex with the check's answer, or
                               where WHAT is `check-strict` that of strict mode,
                               where it is `mask` with the mask
  compare --subject WHAT [--parts P,P] [--seed S] [--files N | --seconds N]
                               WHAT is `self`, `library` (the proved library,
                               where it is linked to this program) or a command
                               that reads a request batch and writes the
                               response batch
  masks --subject WHAT [--seed S] [--files N | --seconds N]
                               accepted files and masks of them get the same
                               answers, and one list of bytes gives their pages,
                               strict ones too
  pairs --subject WHAT [--seed S] [--files N | --seconds N]
                               masks of files, and couples of files that are
                               pairs or not, are answered as the judge's own
                               tree of fields says; WHAT is `self` or `library`
  words --subject WHAT [--seed S] [--files N | --seconds N]
                               accepted files without a 7 show the words of
                               their texts, and the same tags, at two widths
                               and not laid out; with 7s too a plain page has
                               at most 67 times the bytes of its file
  scripts --subject WHAT [--seed S] [--files N | --seconds N]
                               steps of a writer, most scripts of them wrong
                               somewhere, are answered as the judge's own
                               writers answer; the files are the trees asked
                               for, those of the original's joins too; WHAT is
                               `self` or `library`
  lister [--width W]           shows a listing that the original's functions
                               build, by the original and, written in the
                               library's steps, by the library
  numbers --subject WHAT [--every N] [--from K]
                               compares every opacity, size and weight in HTML
                               bodies; of the opacities from 1/1024 to 1 only
                               each Nth, beginning with the one numbered K
  selftest [--seed S] [--files N]
                               tests the judge itself
  help                         prints this

Exit: 0 well, 1 something does not hold or is refused, 2 used wrongly.
";

/// Something that the one who called did wrong.
type Mistake = String;

pub fn run(words: &[String]) -> Result<ExitCode, Mistake> {
    let (command, rest) = words.split_first().ok_or("which command?")?;
    match command.as_str() {
        "examples" => run_examples(&Options::new(rest, &[])?),
        "ask" => run_ask(&Options::new(rest, &["width", "room"])?),
        "print" => run_print(&Options::new(rest, &["width"])?),
        "answers" => run_answers(&Options::new(rest, &[])?),
        "respond" => run_respond(&Options::new(rest, &[])?),
        "record" => run_record(&Options::new(rest, &[])?),
        "lines" => run_lines(&Options::new(rest, &["of", "seed", "files"])?),
        "compare" => {
            let allowed = ["subject", "parts", "seed", "files", "seconds"];
            run_compare(&Options::new(rest, &allowed)?)
        }
        "masks" => {
            let allowed = ["subject", "seed", "files", "seconds"];
            run_masks(&Options::new(rest, &allowed)?)
        }
        "pairs" => {
            let allowed = ["subject", "seed", "files", "seconds"];
            pairing::run_pairs(&Options::new(rest, &allowed)?)
        }
        "words" => {
            let allowed = ["subject", "seed", "files", "seconds"];
            run_words(&Options::new(rest, &allowed)?)
        }
        "scripts" => {
            let allowed = ["subject", "seed", "files", "seconds"];
            writing::run_scripts(&Options::new(rest, &allowed)?)
        }
        "lister" => writing::run_lister(&Options::new(rest, &["width"])?),
        "numbers" => run_numbers(&Options::new(rest, &["subject", "every", "from"])?),
        "selftest" => run_selftest(&Options::new(rest, &["seed", "files"])?),
        "help" | "--help" => print(USAGE.as_bytes()),
        other => Err(format!("no command {other}")),
    }
}

/// A reader that stops early, such as `head`, is no fault.
fn print(bytes: &[u8]) -> Result<ExitCode, Mistake> {
    match io::stdout().lock().write_all(bytes) {
        Err(e) if e.kind() != io::ErrorKind::BrokenPipe => Err(e.to_string()),
        _ => Ok(ExitCode::SUCCESS),
    }
}

fn run_examples(options: &Options) -> Result<ExitCode, Mistake> {
    let [] = options.words()?;
    let examples = examples::all();
    let failures = examples::failures(&examples);
    for failure in &failures {
        println!("does not hold: {failure}");
    }
    println!("{} examples hold", examples.len() - failures.len());
    Ok(ExitCode::from(u8::from(!failures.is_empty())))
}

fn run_ask(options: &Options) -> Result<ExitCode, Mistake> {
    let [operation, path] = options.words()?;
    let operation = named(operation)?;
    let file = fs::read(path).map_err(|e| format!("{path}: {e}"))?;
    let width = options.number("width")?.unwrap_or(80);
    let length = || rendered(operation, &file).map_or(0, |page| page.len());
    let room = match options.number("room")? {
        Some(room) => room,
        None if operation.is_page() => length(),
        None => 0,
    };
    let said = answer(&Request {
        operation,
        width,
        room,
        file,
    });
    match said.answer {
        Answer::Accepted(count) if operation.is_page() => print(&said.lent[..count]),
        Answer::Accepted(_) if operation.is_check() => print(b"accepted\n"),
        Answer::Accepted(_) => print(&said.lent),
        refused => {
            println!("{}", wire::answer_words(refused));
            Ok(ExitCode::FAILURE)
        }
    }
}

fn run_print(options: &Options) -> Result<ExitCode, Mistake> {
    let [folder, out] = options.words()?;
    let width = options.number("width")?.unwrap_or(80);
    let printed = folder::print(Path::new(folder), Path::new(out), width)?;
    println!("{printed} files printed");
    Ok(ExitCode::SUCCESS)
}

fn named(name: &str) -> Result<Operation, Mistake> {
    Operation::named(name).ok_or(format!("no operation {name}"))
}

/// The request batch on standard input.
fn batch() -> Result<Vec<Request>, Mistake> {
    let mut batch = Vec::new();
    let read = io::stdin().lock().read_to_end(&mut batch);
    read.map_err(|e| format!("standard input: {e}"))?;
    wire::requests(&batch)
}

fn run_answers(options: &Options) -> Result<ExitCode, Mistake> {
    let [] = options.words()?;
    let requests = batch()?;
    let lines = requests
        .iter()
        .map(|request| wire::answer_line(&answer(request)) + "\n");
    print(lines.collect::<String>().as_bytes())
}

fn run_respond(options: &Options) -> Result<ExitCode, Mistake> {
    let [] = options.words()?;
    let mut responses = Vec::new();
    for request in batch()? {
        wire::put_outcome(&mut responses, &answer(&request));
    }
    print(&responses)
}

fn run_record(options: &Options) -> Result<ExitCode, Mistake> {
    let [folder] = options.words()?;
    for line in record::write(Path::new(folder))? {
        println!("{line}");
    }
    Ok(ExitCode::SUCCESS)
}

/// The seed asked for, else one from the clock.
fn seed(options: &Options) -> Result<u64, Mistake> {
    let clock = || SystemTime::now().duration_since(UNIX_EPOCH);
    match options.number("seed")? {
        Some(seed) => Ok(seed),
        None => Ok(clock().map_or(0, |time| time.as_micros() as u64)),
    }
}

fn run_lines(options: &Options) -> Result<ExitCode, Mistake> {
    let [] = options.words()?;
    let said_of = match options.text("of") {
        None | Some("check") => |file: &[u8]| checked_words(check(file)),
        Some("check-strict") => |file: &[u8]| checked_words(strict_check(file)),
        Some("mask") => mask_words,
        Some(other) => return Err(format!("no lines of {other}")),
    };
    let seed = seed(options)?;
    let files = options.number("files")?.unwrap_or(1_000_u64);
    eprintln!("seed {seed}");
    let random = (0..files).map(|index| compare::any_file(&mut Random::new(seed, index)));
    let mut out = io::BufWriter::new(io::stdout().lock());
    for file in every::files().chain(random) {
        match writeln!(out, "{} {}", hex(&file), said_of(&file)) {
            Err(e) if e.kind() == io::ErrorKind::BrokenPipe => break,
            done => done.map_err(|e| e.to_string())?,
        }
    }
    Ok(ExitCode::SUCCESS)
}

fn checked_words(checked: Result<(), Refusal>) -> String {
    match checked {
        Ok(()) => "accepted".into(),
        Err(refusal) => wire::answer_words(refusal.into()),
    }
}

fn mask_words(file: &[u8]) -> String {
    match pair::mask(file) {
        Ok(mask) => format!("masked {}", hex(&mask)),
        Err(refusal) => wire::answer_words(refusal.into()),
    }
}

fn parts(options: &Options) -> Result<Vec<Operation>, Mistake> {
    match options.text("parts") {
        Some(names) => names.split(',').map(named).collect(),
        None => Ok(Operation::ALL.to_vec()),
    }
}

/// How long to go on: so many files, or so many seconds.
fn extent(options: &Options) -> Result<Extent, Mistake> {
    match (options.number("files")?, options.number("seconds")?) {
        (files, None) => Ok(Extent::Files(files.unwrap_or(20_000))),
        (None, Some(seconds)) => Ok(Extent::For(Duration::from_secs(seconds))),
        (Some(_), Some(_)) => Err("either --files or --seconds".into()),
    }
}

#[cfg(not(feature = "linked"))]
const WITHOUT_LIBRARY: &str =
    "this judge was built without the library; tests/linked/compare builds one with it";

#[cfg(feature = "linked")]
fn library() -> Result<Box<dyn Subject>, Mistake> {
    Ok(Box::new(crate::library::Library::new()))
}

#[cfg(not(feature = "linked"))]
fn library() -> Result<Box<dyn Subject>, Mistake> {
    Err(WITHOUT_LIBRARY.into())
}

/// The subject asked for.
fn subject(options: &Options, parts: &[Operation]) -> Result<Box<dyn Subject>, Mistake> {
    match options.text("subject") {
        Some("self") => Ok(Box::new(Oneself)),
        Some("library") => library(),
        Some(command) => Ok(Box::new(Child::new(command, parts)?)),
        None => Err("a --subject is needed".into()),
    }
}

fn run_compare(options: &Options) -> Result<ExitCode, Mistake> {
    let [] = options.words()?;
    let parts = parts(options)?;
    let seed = seed(options)?;
    let mut subject = subject(options, &parts)?;
    if let Some(part) = parts.iter().find(|part| !subject.parts().contains(part)) {
        return Err(format!("the subject does not answer {}", part.name()));
    }
    let extent = extent(options)?;
    println!("seed {seed}");
    match compare_all(&mut *subject, &parts, seed, extent) {
        Ok(()) => {
            println!("no disagreement");
            Ok(ExitCode::SUCCESS)
        }
        Err(stop) => stopped(stop, Disagreement::words),
    }
}

/// Prints a difference; a subject that cannot be asked is the caller's mistake.
fn stopped<D>(stop: Stop<D>, words: fn(&D) -> String) -> Result<ExitCode, Mistake> {
    match stop {
        Stop::Differs(difference) => {
            println!("disagreement: {}", words(&difference));
            Ok(ExitCode::FAILURE)
        }
        Stop::CannotAsk(why) => Err(why),
    }
}

/// All small files, then the random ones.
fn compare_all(
    subject: &mut dyn Subject,
    parts: &[Operation],
    seed: u64,
    extent: Extent,
) -> Result<(), Stop> {
    let small = compare::run_small(subject, parts)?;
    println!("small files: {}", tally_words(&small));
    let start = Instant::now();
    let random = compare::run(subject, parts, seed, extent)?;
    let rate = per_minute(random.files, start);
    println!("random files: {}; {rate}", tally_words(&random));
    Ok(())
}

fn per_minute(files: u64, start: Instant) -> String {
    let rate = files as f64 * 60.0 / start.elapsed().as_secs_f64();
    format!("{rate:.0} files per minute")
}

fn tally_words(tally: &Tally) -> String {
    let (files, accepted, requests) = (tally.files, tally.accepted, tally.requests);
    format!("{files}, of them accepted {accepted}, requests {requests}")
}

fn run_masks(options: &Options) -> Result<ExitCode, Mistake> {
    on_subject(options, Unlike::words, |subject, seed, extent| {
        let masks::Tally { files, requests } = masks::run(subject, seed, extent)?;
        let words = format!("alike: {files} files with their masks, requests {requests}");
        Ok((files, words))
    })
}

fn run_words(options: &Options) -> Result<ExitCode, Mistake> {
    on_subject(options, words::Unlike::words, |subject, seed, extent| {
        let tally = words::run(subject, seed, extent)?;
        Ok((tally.files, format!("the same words: {}", tally.words())))
    })
}

/// Runs something on a subject, and says what came of it: of how many files, in words.
fn on_subject<Difference>(
    options: &Options,
    in_words: fn(&Difference) -> String,
    run: impl FnOnce(&mut dyn Subject, u64, Extent) -> Result<(u64, String), Stop<Difference>>,
) -> Result<ExitCode, Mistake> {
    let [] = options.words()?;
    let seed = seed(options)?;
    let extent = extent(options)?;
    let mut subject = subject(options, &Operation::ALL)?;
    println!("seed {seed}");
    let start = Instant::now();
    match run(&mut *subject, seed, extent) {
        Ok((files, words)) => {
            println!("{words}; {}", per_minute(files, start));
            Ok(ExitCode::SUCCESS)
        }
        Err(stop) => stopped(stop, in_words),
    }
}

fn run_numbers(options: &Options) -> Result<ExitCode, Mistake> {
    let [] = options.words()?;
    let every = options.number("every")?.unwrap_or(NonZeroUsize::MIN);
    let from = options.number("from")?.unwrap_or(0);
    if from > (FULL_OPACITY - LEAST_OPACITY) as usize {
        return Err(format!("--from {from} is past the last opacity"));
    }
    let mut subject = subject(options, &[Operation::Body])?;
    let start = Instant::now();
    match numbers::run(&mut *subject, numbers::opacities(every, from)) {
        Ok(tally) => {
            println!("{}", number_words(&tally, start.elapsed().as_secs_f64()));
            Ok(ExitCode::SUCCESS)
        }
        Err(stop) => stopped(stop, Misprint::words),
    }
}

fn number_words(tally: &numbers::Tally, seconds: f64) -> String {
    let (opacities, sizes, weights) = (tally.opacities, tally.sizes, tally.weights);
    let per_second = (opacities + sizes + weights) as f64 / seconds;
    format!(
        "no disagreement: {opacities} opacities, {sizes} sizes, {weights} weights; \
         {per_second:.0} numbers per second"
    )
}

fn run_selftest(options: &Options) -> Result<ExitCode, Mistake> {
    let [] = options.words()?;
    let seed = seed(options)?;
    let files = options.number("files")?.unwrap_or(20_000);
    println!("seed {seed}");
    let start = Instant::now();
    match selftest::run(seed, files) {
        Ok(found) => {
            println!("{}", found.join("\n"));
            println!("all holds, in {:.1} s", start.elapsed().as_secs_f64());
            Ok(ExitCode::SUCCESS)
        }
        Err(why) => {
            println!("{why}");
            Ok(ExitCode::FAILURE)
        }
    }
}
