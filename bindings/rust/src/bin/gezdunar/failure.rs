//! Why a command ended without its answer.

use crate::words::question;
use gezdunar::Refusal;
use std::io;
use std::path::Path;

/// The exit code of a refusal.
const REFUSED: u8 = 1;
/// The exit code of wrong arguments.
pub const ARGUMENTS: u8 = 2;
/// The exit code of a file that cannot be read or written.
const FILE: u8 = 3;

/// Why a command ended without its answer.
#[derive(Debug)]
pub enum Failure {
    /// The arguments are wrong: what is wrong with them.
    Arguments(String),
    /// The call was refused: why, and the facts that it was decided on.
    Refused(Refusal, String),
    /// A file cannot be read or written, or there is no memory for it: which, and why.
    File(String),
    /// The reader of standard output has gone away: it has read what it wanted, and nobody is told.
    Closed,
}

impl Failure {
    /// A file that cannot be read or written.
    pub fn file(what: &str, path: &Path, error: io::Error) -> Failure {
        Failure::File(format!("cannot {what} {}: {error}", path.display()))
    }

    /// The exit code.
    pub fn code(&self) -> u8 {
        match self {
            Failure::Refused(..) => REFUSED,
            Failure::Arguments(_) => ARGUMENTS,
            Failure::File(_) => FILE,
            Failure::Closed => 0,
        }
    }

    /// The failure in words, for standard error.
    pub fn told(&self, command: Option<&str>) -> String {
        let tool = match command {
            Some(name) => format!("gezdunar {name}"),
            None => "gezdunar".to_owned(),
        };
        match self {
            Failure::Arguments(what) => format!("{tool}: {what}\ntry: {tool} --help\n"),
            Failure::File(what) => format!("{tool}: {what}\n"),
            Failure::Closed => String::new(),
            Failure::Refused(refusal, facts) => {
                let number = refusal.number();
                format!("{tool}: refused with {refusal}\nquestion {number}: {}\n{facts}\n", question(number))
            }
        }
    }
}
