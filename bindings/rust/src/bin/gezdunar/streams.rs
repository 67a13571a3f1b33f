//! Text on standard output and standard error.

use crate::failure::Failure;
use std::io::{self, ErrorKind, Write};

/// Writes text to standard output.
pub fn print(text: &str) -> Result<(), Failure> {
    let mut out = io::stdout().lock();
    let written = out.write_all(text.as_bytes()).and_then(|()| out.flush());
    written.map_err(|error| match error.kind() {
        ErrorKind::BrokenPipe => Failure::Closed,
        _ => not_written(error),
    })
}

/// Writes bytes to standard output.
pub fn print_bytes(parts: &[&[u8]]) -> Result<(), Failure> {
    let mut out = io::stdout().lock();
    for part in parts {
        out.write_all(part).map_err(not_written)?;
    }
    out.flush().map_err(not_written)
}

/// Writes text to standard error. Where that is not possible there is nobody to tell.
pub fn print_error(text: &str) {
    let _ = io::stderr().lock().write_all(text.as_bytes());
}

fn not_written(error: io::Error) -> Failure {
    Failure::File(format!("cannot write to standard output: {error}"))
}
