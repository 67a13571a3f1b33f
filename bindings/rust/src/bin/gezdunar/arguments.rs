//! The options of a command and their values.

use crate::failure::Failure;
use std::ffi::{OsStr, OsString};
use std::path::Path;
use std::slice::Iter;

/// The most bytes that a file has.
const FILE: u64 = i64::MAX as u64;

/// How an option may be given.
#[derive(Debug, Clone, Copy, PartialEq, Eq)]
enum Kind {
    /// Once, with a value.
    Required,
    /// Once or not at all, with a value.
    Optional,
    /// Any number of times, with a value.
    Repeated,
    /// Once or not at all, without a value.
    Flag,
}

/// An option that a command takes.
#[derive(Debug)]
pub struct Known {
    /// The name, with its two hyphens.
    pub name: &'static str,
    kind: Kind,
    /// Options that may be given in its place, and not beside it.
    others: &'static [&'static str],
}

impl Known {
    /// The option, in whose place one of these may be given, and not beside it.
    pub const fn or(self, others: &'static [&'static str]) -> Known {
        Known { others, ..self }
    }
}

/// The options that a command takes.
pub type Options = &'static [&'static [Known]];

/// An option that must be given.
pub const fn required(name: &'static str) -> Known {
    Known { name, kind: Kind::Required, others: &[] }
}

/// An option that may be left out.
pub const fn optional(name: &'static str) -> Known {
    Known { name, kind: Kind::Optional, others: &[] }
}

/// An option that may be given any number of times.
pub const fn repeated(name: &'static str) -> Known {
    Known { name, kind: Kind::Repeated, others: &[] }
}

/// An option without a value.
pub const fn flag(name: &'static str) -> Known {
    Known { name, kind: Kind::Flag, others: &[] }
}

/// The options that were given, with their values.
#[derive(Debug)]
pub struct Given {
    values: Vec<(&'static str, OsString)>,
}

impl Given {
    /// Reads a command's arguments: only options that it takes and that can stand together, each with its value, and
    /// all that it requires.
    pub fn read(arguments: &[OsString], options: Options) -> Result<Given, Failure> {
        let mut given = Given { values: Vec::new() };
        let mut rest = arguments.iter();
        while let Some(argument) = rest.next() {
            let (known, joined) = option(argument, options)?;
            if known.kind != Kind::Repeated && given.has(known.name) {
                return Err(Failure::Arguments(format!("{} is given twice", known.name)));
            }
            let value = value(known, joined, &mut rest)?;
            given.values.push((known.name, value));
        }
        given.nothing_in_two_ways(options)?;
        given.nothing_missing(options)?;
        Ok(given)
    }

    fn nothing_in_two_ways(&self, options: Options) -> Result<(), Failure> {
        let given = all(options).filter(|known| self.has(known.name));
        let mut pairs = given.flat_map(|known| known.others.iter().map(|other| (known.name, *other)));
        match pairs.find(|(_, other)| self.has(other)) {
            None => Ok(()),
            Some((name, other)) => {
                let why = "one is given in the place of the other";
                Err(Failure::Arguments(format!("{name} and {other} cannot stand together: {why}")))
            }
        }
    }

    fn nothing_missing(&self, options: Options) -> Result<(), Failure> {
        let required = all(options).filter(|known| known.kind == Kind::Required);
        let needed = required.filter(|known| !known.others.iter().any(|other| self.has(other)));
        let missing: Vec<&str> = needed.map(|known| known.name).filter(|name| !self.has(name)).collect();
        match missing.as_slice() {
            [] => Ok(()),
            [name] => Err(missing_one(name)),
            [names @ .., last] => Err(Failure::Arguments(format!("{} and {last} are missing", names.join(", ")))),
        }
    }

    /// Was the option given?
    pub fn has(&self, name: &str) -> bool {
        self.value(name).is_some()
    }

    /// The value of an option.
    pub fn value(&self, name: &str) -> Option<&OsStr> {
        self.values.iter().find(|(given, _)| *given == name).map(|(_, value)| value.as_os_str())
    }

    /// All values of an option.
    pub fn all<'a>(&'a self, name: &'a str) -> impl Iterator<Item = &'a OsStr> {
        self.values.iter().filter(move |(given, _)| *given == name).map(|(_, value)| value.as_os_str())
    }

    /// The value of an option that must be given.
    pub fn needed(&self, name: &str) -> Result<&OsStr, Failure> {
        self.value(name).ok_or_else(|| missing_one(name))
    }

    /// The files that options name, in the order of the options here.
    pub fn files(&self, names: &[&str]) -> Vec<&Path> {
        names.iter().filter_map(|name| self.value(name)).map(Path::new).collect()
    }

    /// The number of an option that must be given.
    pub fn number(&self, name: &str) -> Result<u32, Failure> {
        number(name, self.needed(name)?)
    }

    /// The count of bytes of an option, or another where it is not given.
    pub fn bytes(&self, name: &str, otherwise: u64) -> Result<u64, Failure> {
        self.value(name).map_or(Ok(otherwise), |text| whole(name, text, FILE))
    }
}

/// All options that a command takes.
fn all(options: Options) -> impl Iterator<Item = &'static Known> {
    options.iter().flat_map(|part| part.iter())
}

/// The failure of an option that is not given.
pub fn missing_one(name: &str) -> Failure {
    Failure::Arguments(format!("{name} is missing"))
}

/// The option that an argument names, and the value after its equals sign.
fn option(argument: &OsStr, options: Options) -> Result<(&'static Known, Option<OsString>), Failure> {
    let wrong = |why: &str| Failure::Arguments(format!("'{}' {why}", argument.to_string_lossy()));
    if !argument.as_encoded_bytes().starts_with(b"-") {
        return Err(wrong("is not an option; options begin with --"));
    }
    let text = argument.to_str().ok_or_else(|| wrong("is not UTF-8; write the value apart from the option's name"))?;
    let (name, joined) = match text.split_once('=') {
        Some((name, value)) => (name, Some(OsString::from(value))),
        None => (text, None),
    };
    let known = all(options).find(|known| known.name == name);
    known.map(|known| (known, joined)).ok_or_else(|| Failure::Arguments(format!("there is no option {name}")))
}

/// The value of an option: after its equals sign, or the next argument.
fn value(known: &Known, joined: Option<OsString>, rest: &mut Iter<OsString>) -> Result<OsString, Failure> {
    let name = known.name;
    if known.kind == Kind::Flag {
        return match joined {
            None => Ok(OsString::new()),
            Some(_) => Err(Failure::Arguments(format!("{name} takes no value"))),
        };
    }
    let next = joined.or_else(|| rest.next().filter(|text| !text.as_encoded_bytes().starts_with(b"--")).cloned());
    next.ok_or_else(|| Failure::Arguments(format!("{name} has no value (an empty one is written {name} \"\")")))
}

/// A number of 32 bits.
pub fn number(name: &str, text: &OsStr) -> Result<u32, Failure> {
    let number = whole(name, text, u64::from(u32::MAX))?;
    u32::try_from(number).map_err(|_| too_large(name, &number.to_string(), u64::from(u32::MAX)))
}

/// Numbers with commas between; none in an empty text.
pub fn numbers(name: &str, text: &OsStr) -> Result<Vec<u32>, Failure> {
    if text.is_empty() {
        return Ok(Vec::new());
    }
    text.to_string_lossy().split(',').map(|part| number(name, OsStr::new(part))).collect()
}

/// A block's row and column with a comma between.
pub fn pair(name: &str, text: &OsStr) -> Result<(u32, u32), Failure> {
    match numbers(name, text)?.as_slice() {
        [row, column] => Ok((*row, *column)),
        _ => Err(Failure::Arguments(format!("{name}: '{}' is not ROW,COLUMN", text.to_string_lossy()))),
    }
}

/// Three offsets in a file with commas between.
pub fn offsets(name: &str, text: &OsStr) -> Result<[u64; 3], Failure> {
    let shown = text.to_string_lossy();
    let numbers: Vec<u64> =
        shown.split(',').map(|part| whole(name, OsStr::new(part), FILE)).collect::<Result<_, Failure>>()?;
    <[u64; 3]>::try_from(numbers)
        .map_err(|_| Failure::Arguments(format!("{name}: '{shown}' is not three offsets A,B,C")))
}

/// A whole number up to `most`, in digits.
fn whole(name: &str, text: &OsStr, most: u64) -> Result<u64, Failure> {
    let text = text.to_string_lossy();
    if text.is_empty() || !text.bytes().all(|byte| byte.is_ascii_digit()) {
        return Err(Failure::Arguments(format!("{name}: '{text}' is not a whole number in digits, 0 to {most}")));
    }
    text.parse().ok().filter(|number| *number <= most).ok_or_else(|| too_large(name, &text, most))
}

fn too_large(name: &str, text: &str, most: u64) -> Failure {
    Failure::Arguments(format!("{name}: {text} is too large; it takes at most {most}"))
}
