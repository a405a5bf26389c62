//! The judge as a program: `oracle help` says how it is used.

use oracle::commands;
use std::process::ExitCode;

#[cfg(feature = "linked")]
#[global_allocator]
static ALLOCATOR: oracle::lists::Lists = oracle::lists::Lists;

fn main() -> ExitCode {
    let words: Vec<String> = std::env::args().skip(1).collect();
    match commands::run(&words) {
        Ok(code) => code,
        Err(mistake) => {
            eprintln!("oracle: {mistake}\n`oracle help` says how it is used");
            ExitCode::from(2)
        }
    }
}
