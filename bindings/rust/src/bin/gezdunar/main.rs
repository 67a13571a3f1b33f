//! gezdunar: the library's calls on files, from the command line.

#![deny(unsafe_code)]

mod answer;
mod arguments;
mod commands;
mod edges;
mod failure;
mod files;
mod help;
mod image;
mod output;
mod parts;
mod picture;
mod preview;
mod progress;
mod streams;
mod widths;
mod words;

use arguments::Given;
use commands::{Command, COMMANDS};
use failure::Failure;
use std::env;
use std::ffi::OsString;
use std::process::ExitCode;

fn main() -> ExitCode {
    let arguments: Vec<OsString> = env::args_os().skip(1).collect();
    let Some((first, rest)) = arguments.split_first() else {
        streams::print_error(&help::overview());
        return ExitCode::from(failure::ARGUMENTS);
    };
    let named = COMMANDS.into_iter().find(|command| first == command.name);
    let result = match named {
        Some(command) => run(command, rest),
        None => without_command(first, rest),
    };
    match result {
        Ok(()) => ExitCode::SUCCESS,
        Err(failure) => {
            streams::print_error(&failure.told(named.map(|command| command.name)));
            ExitCode::from(failure.code())
        }
    }
}

/// Runs a command, or shows its help where that is asked for.
fn run(command: &Command, arguments: &[OsString]) -> Result<(), Failure> {
    if arguments.iter().any(|argument| argument == "--help" || argument == "-h") {
        return streams::print(&help::of(command));
    }
    let given = Given::read(arguments, command.options)?;
    (command.run)(&given)
}

/// What may stand in a command's place: a call for help or for the version.
fn without_command(first: &OsString, rest: &[OsString]) -> Result<(), Failure> {
    match first.to_str() {
        Some("--version") => streams::print(concat!("gezdunar ", env!("CARGO_PKG_VERSION"), "\n")),
        Some("--help" | "-h" | "help") => match rest.first() {
            None => streams::print(&help::overview()),
            Some(name) => help::by_name(name),
        },
        _ => Err(help::no_command(first)),
    }
}
