//! What --help shows.

use crate::commands::{Command, COMMANDS};
use crate::failure::Failure;
use crate::streams;
use std::ffi::OsStr;

const HEAD: &str = "\
gezdunar reads and writes the uncompressed image blocks of NITF 2.1 files.

usage: gezdunar COMMAND OPTIONS
       gezdunar COMMAND --help

commands:
";

const TAIL: &str = "
A picture is described by its grid: rows, columns, bands, bits of a sample,
mode, edge rule and the sides of a block. All of it is given as options, or the
bands and the edge rule as options and the rest by three parts of an image
subheader; nothing is guessed. An option is written --name VALUE or
--name=VALUE. Rows, columns, bands and blocks are counted from 0.

exit codes: 0  done
            1  refused: the number, its question and the facts are printed
            2  the arguments are wrong
            3  a file cannot be read or written, or there is no memory for it
An output file is written beside its place and then renamed: where a command
fails there is no new file, and an old one of that name is as it was. A command
that is killed while it writes may leave a file .gezdunar-*.part there.
";

/// The help of the tool.
pub fn overview() -> String {
    let line = |command: &&Command| format!("  {:11}{}\n", command.name, command.summary);
    format!("{HEAD}{}{TAIL}", COMMANDS.iter().map(line).collect::<String>())
}

/// The help of a command.
pub fn of(command: &Command) -> String {
    format!("gezdunar {}: {}\n\n{}", command.name, command.summary, command.help.join("\n"))
}

/// Shows the help of a command that is named.
pub fn by_name(name: &OsStr) -> Result<(), Failure> {
    match COMMANDS.into_iter().find(|command| name == command.name) {
        Some(command) => streams::print(&of(command)),
        None => Err(no_command(name)),
    }
}

/// The failure of a name that is no command.
pub fn no_command(name: &OsStr) -> Failure {
    let names = COMMANDS.map(|command| command.name).join(", ");
    Failure::Arguments(format!("there is no command '{}'; the commands are {names}", name.to_string_lossy()))
}

#[cfg(test)]
mod tests {
    use super::*;
    use std::collections::BTreeSet;

    /// The options that a text names.
    fn named(text: &str) -> BTreeSet<&str> {
        let words = text.split(|c: char| !(c.is_ascii_lowercase() || c == '-'));
        words.filter(|word| word.starts_with("--") && word.len() > 2).collect()
    }

    #[test]
    fn help_names_the_options_that_a_command_takes_and_no_other() {
        for command in COMMANDS {
            let text = of(command);
            let taken = command.options.iter().flat_map(|part| part.iter()).map(|known| known.name).collect();
            assert_eq!(named(&text), taken, "{}", command.name);
        }
    }

    #[test]
    fn help_fits_a_terminal() {
        for text in COMMANDS.map(of).into_iter().chain([overview()]) {
            for line in text.lines() {
                assert!(line.chars().count() <= 80, "{line}");
            }
        }
    }
}
