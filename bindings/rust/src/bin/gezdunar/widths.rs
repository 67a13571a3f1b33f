//! A site's own widths, from their option.

use crate::arguments::{optional, Given, Known};
use crate::failure::Failure;
use crate::files;
use crate::words::count;
use gezdunar::{Refusal, Widths};
use std::path::{Path, PathBuf};

/// The option of the table.
pub const OPTIONS: [Known; 1] = [optional("--widths")];

/// What help says of the table.
pub const HELP: &str = "\
widths:
  --widths FILE       a site's table, in which widths are barred: 68 bytes, the
                      length 66 in two, version 1, and for 0 to 64 bits the
                      bytes of a sample, or 0. A picture of barred bits is
                      refused with 2, a file that is no such table with 33.
                      If not given, no width is barred
";

/// The table that calls are handed, and the file that it is from.
#[derive(Debug)]
pub struct Table {
    /// The table.
    pub widths: Widths,
    file: Option<PathBuf>,
}

impl Table {
    /// The table of the file that the options name, or the constant one.
    pub fn new(given: &Given) -> Result<Table, Failure> {
        let Some(name) = given.value("--widths") else {
            return Ok(Table { widths: Widths::STANDARD, file: None });
        };
        let path = Path::new(name);
        // One byte more than a table has, so that a longer file is seen.
        let bytes = files::read(path, 0, Widths::STORED_BYTES as u64 + 1)?;
        let widths = Widths::load(&bytes).map_err(|refusal| Failure::Refused(refusal, wrong(path, &bytes)))?;
        Ok(Table { widths, file: Some(path.to_owned()) })
    }

    /// What the table has to do with a refusal of a picture of so many bits.
    pub fn facts(&self, refusal: Refusal, nbpp: u32) -> String {
        let entry = usize::try_from(nbpp).ok().and_then(|nbpp| self.widths.entries().get(nbpp));
        match (&self.file, refusal, entry) {
            (Some(path), Refusal::Width, Some(0)) => {
                format!("; {} has 0 for {}", path.display(), count(nbpp as usize, "bit"))
            }
            _ => String::new(),
        }
    }
}

/// What is wrong with a file that is no table.
fn wrong(path: &Path, bytes: &[u8]) -> String {
    let path = path.display();
    let stored = Widths::STANDARD.to_bytes();
    if bytes.len() != stored.len() {
        let more = if bytes.len() > stored.len() { "more than 68".to_owned() } else { bytes.len().to_string() };
        return format!("{path} has {more} bytes; a table has 68");
    }
    let is_wrong = |(place, (byte, right)): &(usize, (&u8, &u8))| byte != right && (*place < 3 || **byte != 0);
    match bytes.iter().zip(&stored).enumerate().find(is_wrong) {
        Some((place @ 0..=1, _)) => format!("{path}: the length has {} in byte {place}; it is 0, 66", bytes[place]),
        Some((2, (byte, _))) => format!("{path}: the version is {byte}; it is 1"),
        Some((place, (byte, 0))) => format!("{path}: the entry for {} is {byte}; it is 0", bits(place)),
        Some((place, (byte, right))) => format!("{path}: the entry for {} is {byte}; it is {right} or 0", bits(place)),
        None => path.to_string(),
    }
}

/// The bits of the entry that stands at a place of a stored table.
fn bits(place: usize) -> String {
    count(place.saturating_sub(3), "bit")
}
