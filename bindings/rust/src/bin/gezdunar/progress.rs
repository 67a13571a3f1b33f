//! Lines on standard error while work goes on.

use crate::arguments::Given;
use crate::failure::Failure;
use crate::streams;
use std::io::{self, IsTerminal};
use std::time::{Duration, Instant};

/// The time between two lines on a terminal.
const PAUSE: Duration = Duration::from_millis(500);
/// Work that takes no longer is told nothing of in a file.
const SHORT: Duration = Duration::from_secs(1);

/// When there is a line.
#[derive(Debug, Clone, Copy, PartialEq, Eq)]
enum When {
    Never,
    /// At every tenth of the work.
    Tenths,
    /// At every tenth of the work, once it has taken a second.
    LongTenths,
    /// One line that is written anew every half second.
    Terminal,
}

/// How far work on blocks has come.
#[derive(Debug)]
pub struct Progress {
    when: When,
    blocks: usize,
    passed: usize,
    tenths: usize,
    begun: Instant,
    told: Instant,
    open: bool,
}

impl Progress {
    /// The progress that the option asks for, of work on so many blocks.
    pub fn new(given: &Given, blocks: usize) -> Result<Progress, Failure> {
        let text = given.value("--progress").map(|text| text.to_string_lossy());
        let when = match text.as_deref() {
            None | Some("auto") if io::stderr().is_terminal() => When::Terminal,
            None | Some("auto") => When::LongTenths,
            Some("always") => When::Tenths,
            Some("never") => When::Never,
            Some(other) => {
                return Err(Failure::Arguments(format!("--progress: '{other}' is not auto, always or never")))
            }
        };
        let now = Instant::now();
        Ok(Progress { when, blocks, passed: 0, tenths: 0, begun: now, told: now, open: false })
    }

    /// One block more has been passed: is a line due?
    pub fn pass(&mut self) -> bool {
        self.passed += 1;
        let tenths = self.passed * 10 / self.blocks.max(1);
        let due = match self.when {
            When::Never => false,
            When::Tenths => tenths > self.tenths,
            When::LongTenths => tenths > self.tenths && self.begun.elapsed() > SHORT,
            When::Terminal => self.told.elapsed() > PAUSE,
        };
        self.tenths = tenths;
        due
    }

    /// Writes a line: so many blocks are marked.
    pub fn tell(&mut self, marked: usize) {
        self.told = Instant::now();
        self.line(&format!("{marked} of {} blocks", self.blocks));
    }

    /// Writes a line on what comes next, if there were lines before.
    pub fn next(&mut self, what: &str) {
        if self.open || (self.when != When::Never && self.begun.elapsed() > SHORT) {
            self.line(what);
        }
    }

    fn line(&mut self, text: &str) {
        let terminal = self.when == When::Terminal;
        streams::print_error(&if terminal { format!("\rpack: {text:<40}") } else { format!("pack: {text}\n") });
        self.open = terminal;
    }
}

impl Drop for Progress {
    /// Ends the line of a terminal.
    fn drop(&mut self) {
        if self.open {
            streams::print_error("\n");
        }
    }
}
