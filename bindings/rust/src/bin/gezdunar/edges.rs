//! The edge rule, from its option.

use crate::arguments::{optional, Given, Known};
use crate::failure::Failure;
use crate::words::count;
use gezdunar::{EdgeRule, Grid};

/// The option of the rule.
pub const OPTIONS: [Known; 1] = [optional("--edges")];

/// What help says of the rule.
pub const HELP: &str = "\
edge rule:
  --edges RULE        how the samples of a block lie that is partly outside the
                      picture, where the bits are no multiple of 8:
                      full   those of a whole block, zeros outside the picture;
                             for files by the standard and of other writers
                      tight  those inside the picture, without gaps; for files
                             of gezdunar 0.4 and earlier
  At such bits it must be given: no file tells its rule, and a wrong guess gives
  believable samples. At multiples of 8 it may be left out: both lie the same.
";

/// The edge rule, if it is given.
#[derive(Debug, Clone, Copy)]
pub struct Edges(Option<EdgeRule>);

impl Edges {
    /// The rule that the options give.
    pub fn new(given: &Given) -> Result<Edges, Failure> {
        Ok(Edges(given.value("--edges").map(|text| rule(&text.to_string_lossy())).transpose()?))
    }

    /// The rule, or one of the two where none is given; whether that will do is told by `check`.
    pub fn rule(self) -> EdgeRule {
        self.0.unwrap_or(EdgeRule::Full)
    }

    /// A rule is given, or none is needed at these bits.
    pub fn check(self, nbpp: u32) -> Result<(), Failure> {
        if self.0.is_some() || !matter(nbpp) {
            return Ok(());
        }
        let why = format!(
            "at {} a block that is partly outside the picture lies otherwise under tight than under full, \
             and a wrong guess gives believable samples",
            count(nbpp as usize, "bit")
        );
        let which = "--edges full is for files by the standard and of other writers, \
                     --edges tight for files of gezdunar 0.4 and earlier";
        Err(Failure::Arguments(format!("--edges is missing: {why}; {which}")))
    }
}

fn rule(text: &str) -> Result<EdgeRule, Failure> {
    text.parse().map_err(|_| Failure::Arguments(format!("--edges: '{text}' is neither tight nor full")))
}

/// Do the rules differ at these bits?
pub fn matter(nbpp: u32) -> bool {
    !nbpp.is_multiple_of(8)
}

/// The rule as a fact, where the rules differ.
pub fn fact(grid: &Grid) -> Option<(&'static str, String)> {
    let words = match grid.edges {
        EdgeRule::Tight => "tight, only samples inside the picture, without gaps",
        EdgeRule::Full => "full, whole blocks with zeros outside the picture",
    };
    matter(grid.nbpp).then(|| ("edge rule, as given", words.to_owned()))
}
