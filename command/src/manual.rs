//! The manual page, made from the same definitions as the help (Debian has no crate for it).

use clap::builder::StyledStr;
use clap::{Arg, Command};

pub fn written(mut command: Command) -> String {
    command.build();
    let notes = text(command.get_after_help());
    let tasks = command.get_subcommands_mut();
    let sections: String = tasks
        .filter(|task| task.get_name() != "help")
        .map(section)
        .collect();
    format!(
        "{}.SH COMMANDS\n{sections}.SH NOTES\n.nf\n{notes}\n.fi\n",
        heading(&command)
    )
}

fn heading(command: &Command) -> String {
    let (name, about) = (command.get_name(), text(command.get_about()));
    let title = name.to_uppercase();
    let version = command.get_version().unwrap_or_default();
    [
        format!(".TH {title} 1 \"\" \"{name} {version}\" \"User Commands\"\n"),
        format!(".SH NAME\n{name} \\- {about}\n"),
        format!(".SH SYNOPSIS\n{} {} ...\n", bold(name), italic("COMMAND")),
    ]
    .concat()
}

/// A subcommand: how it is called, what it does, what it takes.
fn section(command: &mut Command) -> String {
    let usage = command.render_usage().to_string();
    let usage = escaped(usage.trim_start_matches("Usage: ").trim_end());
    let about = text(command.get_about());
    let entries: String = command.get_arguments().map(entry).collect();
    format!(".SS {usage}\n{about}\n{entries}")
}

fn entry(argument: &Arg) -> String {
    let (called, help) = (called(argument), text(argument.get_help()));
    let default = match argument.get_default_values() {
        [value] if takes_values(argument) => format!(" [default: {}]", value.to_string_lossy()),
        _ => String::new(),
    };
    format!(".TP\n{called}\n{help}{default}\n")
}

/// The argument's names, and what stands behind them.
fn called(argument: &Arg) -> String {
    let short = argument
        .get_short()
        .map(|letter| bold(&format!("-{letter}")));
    let long = argument.get_long().map(|word| bold(&format!("--{word}")));
    let names: Vec<String> = short.into_iter().chain(long).collect();
    let values = argument
        .get_value_names()
        .filter(|_| takes_values(argument));
    let values = values.unwrap_or_default().iter().map(|value| italic(value));
    let names = (!names.is_empty()).then(|| names.join(", "));
    names
        .into_iter()
        .chain(values)
        .collect::<Vec<_>>()
        .join(" ")
}

fn takes_values(argument: &Arg) -> bool {
    argument.get_action().takes_values()
}

fn bold(text: &str) -> String {
    format!("\\fB{}\\fR", escaped(text))
}

fn italic(text: &str) -> String {
    format!("\\fI{}\\fR", escaped(text))
}

fn text(said: Option<&StyledStr>) -> String {
    escaped(&said.map(ToString::to_string).unwrap_or_default())
}

/// The text as roff has to have it: a line that begins with a dot or a quote would be a request.
fn escaped(text: &str) -> String {
    let text = text.replace('\\', "\\e").replace('-', "\\-");
    let line = |line: &str| match line.starts_with(['.', '\'']) {
        true => format!("\\&{line}"),
        false => line.to_string(),
    };
    text.lines().map(line).collect::<Vec<_>>().join("\n")
}
