//! What the original says when it does not answer.

use std::cell::Cell;
use std::fmt;
use std::panic::{catch_unwind, set_hook, take_hook, AssertUnwindSafe};

use crate::error::CodecError;

/// An error by its kind, with the original's text, or a panic with its message.
#[derive(Debug)]
pub enum Refusal {
    Level(String),
    Block(String),
    Decode(String),
    Encode(String),
    /// The first block that is not written.
    Missing(u32, u32),
    Parse(String),
    Other(String),
    Panic(String),
}

thread_local! {
    /// Is a part of the original running?
    static GUARDED: Cell<bool> = const { Cell::new(false) };
}

/// Keeps the original's panics from being printed: they are answers.
pub fn silence_panics() {
    let print = take_hook();
    set_hook(Box::new(move |panic| {
        if !GUARDED.get() {
            print(panic);
        }
    }));
}

/// Runs a part of the original, with its panics caught.
pub(crate) fn guarded<T>(work: impl FnOnce() -> Result<T, CodecError>) -> Result<T, Refusal> {
    GUARDED.set(true);
    let caught = catch_unwind(AssertUnwindSafe(work));
    GUARDED.set(false);
    match caught {
        Ok(answer) => answer.map_err(Refusal::from),
        Err(payload) => {
            let text = payload.downcast_ref::<&str>().map(|text| text.to_string());
            let text = text.or_else(|| payload.downcast_ref::<String>().cloned());
            Err(Refusal::Panic(text.unwrap_or_default()))
        }
    }
}

impl From<CodecError> for Refusal {
    fn from(error: CodecError) -> Refusal {
        let text = error.to_string();
        match error {
            CodecError::InvalidBlockCoordinates(_, _, 0) => Refusal::Block(text),
            CodecError::InvalidBlockCoordinates(..) => Refusal::Level(text),
            CodecError::Decode(_) => Refusal::Decode(text),
            CodecError::Encode(_) => match missing_block(&text) {
                Some((row, column)) => Refusal::Missing(row, column),
                None => Refusal::Encode(text),
            },
            CodecError::Parse(_) => Refusal::Parse(text),
            _ => Refusal::Other(text),
        }
    }
}

/// The block in "Incomplete encoding: block (1, 2) not encoded".
fn missing_block(text: &str) -> Option<(u32, u32)> {
    let block = text.split_once("Incomplete encoding: block (")?.1.split_once(')')?.0;
    let (row, column) = block.split_once(", ")?;
    Some((row.parse().ok()?, column.parse().ok()?))
}

impl Refusal {
    /// Document 01's number for it: `cases::PANIC` for a panic, `cases::UNKNOWN` if no question has
    /// this text.
    pub fn number(&self) -> u8 {
        let texts: &[(&str, u8)] = match self {
            Refusal::Level(_) => return 5,
            Refusal::Block(_) => return 6,
            Refusal::Missing(..) => return 15,
            Refusal::Panic(_) => return cases::PANIC,
            Refusal::Decode(_) => &[("out of bounds", 7), ("Band index", 8), ("Data size mismatch", 14)],
            Refusal::Encode(_) => &[("shape mismatch", 13), ("data size mismatch", 14)],
            Refusal::Parse(_) => &[("at least 10 bytes", 16), ("too short", 19)],
            Refusal::Other(_) => &[],
        };
        let text = self.to_string();
        texts.iter().find(|(part, _)| text.contains(part)).map_or(cases::UNKNOWN, |&(_, n)| n)
    }
}

impl fmt::Display for Refusal {
    fn fmt(&self, f: &mut fmt::Formatter<'_>) -> fmt::Result {
        match self {
            Refusal::Missing(row, column) => write!(f, "block ({row}, {column}) is missing"),
            Refusal::Panic(text) => write!(f, "panic: {text}"),
            Refusal::Level(text)
            | Refusal::Block(text)
            | Refusal::Decode(text)
            | Refusal::Encode(text)
            | Refusal::Parse(text)
            | Refusal::Other(text) => f.write_str(text),
        }
    }
}
