//! Holds the library against the original, or against the model of the documents. Stops at the first
//! difference and prints the smallest input found that shows it.
//!
//! `library-check [SEED [CASES]]`: against the original, on the compared domain, with the constant width table and with
//! tables that bar other widths, and with the enums of a subheader's fields; CASES random cases of each kind; 1 and
//! 20000 if not given.
//! `library-check model [SEED [CASES]]`: against the model, also outside the compared domain.
//! `library-check differences`: small inputs outside the compared domain, and what both do with them.

mod differences;
mod library;
mod subheader;
mod types;

use std::process::ExitCode;

use cases::{model, run, Comparison, Domain, Side};

fn main() -> ExitCode {
    original::silence_panics();
    let words: Vec<String> = std::env::args().skip(1).collect();
    let library = Side::new("the library", |case| Some(library::answer(case)));
    match words.first().map(String::as_str) {
        Some("differences") => {
            differences::print();
            ExitCode::SUCCESS
        }
        Some("model") => {
            let model = Side::new("the model", |case| Some(model::answer(case)));
            run(Comparison::new([library, model]), Domain::Any, &words[1..])
        }
        _ => {
            if let Err(difference) = types::compare() {
                println!("{difference}");
                return ExitCode::FAILURE;
            }
            let library = Side::new("the library", |case| Some(library::answer_with_others_barred(case)));
            let original = Side::new("the original", original::answer);
            run(Comparison::new([library, original]), Domain::Compared, &words)
        }
    }
}
