//! Times the proved library beside the Rust original: the same files, one run, medians and quartiles. Prints ratios, instructions and memory, and
//! draws time against size.

mod counts;
mod goals;
mod inputs;
mod memcpy;
mod memory;
mod plot;
mod quartiles;
mod stack;
mod steps;
mod table;
mod timing;

use std::fs;
use std::process::ExitCode;

fn main() -> ExitCode {
    match run() {
        Ok(()) => ExitCode::SUCCESS,
        Err(why) => {
            eprintln!("speed: {why}");
            ExitCode::FAILURE
        }
    }
}

fn run() -> Result<(), String> {
    let words: Vec<String> = std::env::args().skip(1).collect();
    match &words[..] {
        [word, kind, again] if word == counts::ARGUMENT => counts::run(kind, again),
        [picture, rounds] => tell(picture, rounds.parse().map_err(|_| "how many rounds?")?),
        _ => Err("usage: speed PICTURE.svg ROUNDS".into()),
    }
}

/// Times, counts and measures everything, prints the tables and draws the picture.
fn tell(picture: &str, rounds: usize) -> Result<(), String> {
    let rows: Vec<timing::Row> = inputs::all()
        .map(|input| timing::row(input, rounds))
        .collect();
    print!("{}", table::times(&rows));
    print!("{}", table::quartiles(&rows));
    print!("{}", table::writing(&rows));
    print!("{}", table::memcpy(&memcpy::rows(rounds)));
    print!("{}", goals::words(&rows));
    print!("{}", table::counts(&counts::rows()));
    print!("{}", table::memory(&memory::rows()));
    print!("{}", table::stacks(&memory::entries()));
    fs::write(picture, plot::svg(&rows)).map_err(|e| format!("{picture}: {e}"))
}
