//! `hazomeny`: checks, lays out, prints and masks fragment files by the proved library.
//!
//! A new subcommand is a case of [`Task`], which help, completion and manual follow, and a line in [`run`].

mod arguments;
mod check;
mod failure;
mod folder;
mod input;
mod layout;
mod make;
mod manual;
mod output;
mod page;
mod place;
mod product;
mod signals;
mod whole;

use arguments::{Arguments, Task};
use clap::{CommandFactory, Parser};
use clap_complete::Shell;
use failure::{Failure, Status};
use page::Kind;
use product::Product;
use std::process::ExitCode;

fn main() -> ExitCode {
    let status = match Arguments::try_parse() {
        Ok(arguments) => run(arguments.task),
        Err(said) => explain(&said),
    };
    status.unwrap_or_else(|failure| failure.tell()).into()
}

/// A task that goes on past a failure tells it itself, and answers the worst status.
fn run(task: Task) -> Result<Status, Failure> {
    match task {
        Task::Print(asked) => make::make(asked.product(Kind::Plain), &asked.files),
        Task::Html(asked) => make::make(asked.product(), &asked.printing.files),
        Task::Check(asked) => check::check(asked),
        Task::Layout(asked) => layout::layout(asked),
        Task::Mask(asked) => make::make(Product::Mask, &asked),
        Task::Completion { shell } => output::standard(&completion(shell)),
        Task::Manual => output::standard(manual::written(Arguments::command()).as_bytes()),
    }
}

/// Help and version go to standard output, and what is wrong with the arguments to standard error.
fn explain(said: &clap::Error) -> Result<Status, Failure> {
    match said.use_stderr() {
        true => Err(Failure::of_arguments(&said.to_string())),
        false => output::standard(said.to_string().as_bytes()),
    }
}

fn completion(shell: Shell) -> Vec<u8> {
    let mut script = Vec::new();
    clap_complete::generate(shell, &mut Arguments::command(), "hazomeny", &mut script);
    script
}
