//! A directory for a test's files, and runs of the tool in it.

use gezdunar::{Grid, ImageSubheader, Widths};
use std::path::PathBuf;
use std::process::{Command, Output, Stdio};
use std::sync::atomic::{AtomicU32, Ordering};
use std::{env, fs, process};

static PLACES: AtomicU32 = AtomicU32::new(0);

/// A directory that is removed in the end.
pub struct Place(PathBuf);

impl Drop for Place {
    fn drop(&mut self) {
        let _ = fs::remove_dir_all(&self.0);
    }
}

impl Place {
    pub fn new() -> Place {
        let name = format!("gezdunar-tool-{}-{}", process::id(), PLACES.fetch_add(1, Ordering::Relaxed));
        let path = env::temp_dir().join(name);
        fs::create_dir(&path).expect("a directory of a name that is not taken");
        Place(path)
    }

    /// A place with a file.
    pub fn with(name: &str, bytes: &[u8]) -> Place {
        let place = Place::new();
        place.put(name, bytes);
        place
    }

    pub fn path(&self, name: &str) -> PathBuf {
        self.0.join(name)
    }

    pub fn put(&self, name: &str, bytes: &[u8]) {
        fs::write(self.path(name), bytes).expect("a file can be written");
    }

    pub fn get(&self, name: &str) -> Vec<u8> {
        fs::read(self.path(name)).unwrap_or_else(|error| panic!("{name}: {error}"))
    }

    /// The names of all files, hidden ones too.
    pub fn names(&self) -> Vec<String> {
        let entries = fs::read_dir(&self.0).expect("the directory is there");
        let mut names: Vec<String> =
            entries.flatten().map(|entry| entry.file_name().to_string_lossy().into_owned()).collect();
        names.sort();
        names
    }

    /// The tool with these words as arguments and standard input closed, not yet started.
    pub fn tool(&self, words: &str) -> Command {
        let mut command = Command::new(env!("CARGO_BIN_EXE_gezdunar"));
        command.current_dir(&self.0).stdin(Stdio::null()).args(words.split_whitespace().map(unquoted));
        command
    }

    /// Runs the tool.
    pub fn run(&self, words: &str) -> Ran {
        Ran::new(self.tool(words).output().expect("the tool can be started"))
    }
}

/// An argument; two quotation marks stand for an empty one.
fn unquoted(word: &str) -> &str {
    match word {
        "\"\"" => "",
        _ => word,
    }
}

/// The options of a grid.
pub fn options(grid: &Grid) -> String {
    let Grid { nrows, ncols, bands, nbpp, imode, nppbh, nppbv, .. } = grid;
    let block = format!("--block-rows {nppbv} --block-columns {nppbh}");
    format!(" --rows {nrows} --columns {ncols} --bands {bands} --bits {nbpp} --mode {imode} {block} {}", rule(grid))
}

/// The option of a grid's edge rule, where it must be given.
fn rule(grid: &Grid) -> String {
    if grid.nbpp.is_multiple_of(8) {
        return String::new();
    }
    format!("--edges {} ", grid.edges)
}

/// Bytes in hexadecimal.
pub fn hex(bytes: &[u8]) -> String {
    bytes.iter().map(|byte| format!("{byte:02X}")).collect()
}

/// The options of a grid by the parts of a subheader, in hexadecimal.
pub fn parts(subheader: &ImageSubheader) -> String {
    let (first, second, third) = subheader.to_parts(&Widths::STANDARD).expect("the subheader is accepted");
    let parts = [hex(&first), hex(&second), hex(&third)].join(",");
    format!(" --bands {} --parts {parts} {}", subheader.grid.bands, rule(&subheader.grid))
}

/// What a run left.
#[derive(Debug)]
pub struct Ran {
    pub code: Option<i32>,
    pub bytes: Vec<u8>,
    pub out: String,
    pub err: String,
}

impl Ran {
    pub fn new(output: Output) -> Ran {
        Ran {
            code: output.status.code(),
            out: String::from_utf8_lossy(&output.stdout).into_owned(),
            err: String::from_utf8_lossy(&output.stderr).into_owned(),
            bytes: output.stdout,
        }
    }

    /// What standard output holds after a run without complaint.
    pub fn done(self) -> String {
        assert_eq!((self.code, self.err.as_str()), (Some(0), ""), "{}", self.out);
        self.out
    }

    /// The run ended with this code, printed nothing, and its complaint holds each of these texts.
    pub fn failed(&self, code: i32, texts: &[&str]) {
        assert_eq!((self.code, self.out.as_str()), (Some(code), ""), "{}", self.err);
        for text in texts {
            assert!(self.err.contains(text), "'{text}' is not in: {}", self.err);
        }
        assert!(!self.err.contains("panicked"), "{}", self.err);
    }
}
