//! Holds the original against the model of the documents. Stops at the first difference and prints the
//! smallest input found that shows it.
//!
//! `model-check [SEED [CASES]]`: CASES random cases of each kind; 1 and 20000 if not given.

use std::process::ExitCode;

use cases::{model, run, Comparison, Domain, Side};

fn main() -> ExitCode {
    original::silence_panics();
    let words: Vec<String> = std::env::args().skip(1).collect();
    let sides = [Side::new("the original", original::answer), Side::new("the model", |case| Some(model::answer(case)))];
    run(Comparison::new(sides), Domain::Compared, &words)
}
