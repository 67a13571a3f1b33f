//! The original Rust and the product on the same inputs, with memcpy of the same bytes beside them.
//!
//!     bench [WORD...]     only the rows whose names hold every word
//!     bench --large       only the rows of more than 32,000,000 bytes
//!     bench --page        the page docs/PERFORMANCE.md

mod blocks;
mod buffers;
mod marks;
mod masks;
mod measure;
mod moves;
mod original;
mod page;
mod relays;
mod reorderings;
mod report;
mod rows;
mod windows;

use measure::release;
use rows::Row;

const LARGE: usize = 32_000_000;
/// A row is measured so often, each time in other buffers: which pages of memory they get tells on its times.
const TRIES: u32 = 3;

fn is_wanted(row: &Row, words: &[String]) -> bool {
    words.iter().all(|word| match word.as_str() {
        "--large" => row.bytes > LARGE,
        _ => row.name.contains(word.as_str()),
    })
}

/// glibc's malloc keeps released memory of up to the largest size that it saw released, at most 32 MB. Shown that size
/// at the start, the original's times do not depend on the rows before.
fn settle_malloc() {
    release(vec![0u8; 33_000_000]);
}

/// The tables of the rows that are wanted; then the rows that miss their target.
fn print_tables(words: &[String]) {
    let mut missed = Vec::new();
    for (title, rows) in rows::sections() {
        let wanted: Vec<Row> = rows.into_iter().filter(|row| is_wanted(row, words)).collect();
        if wanted.is_empty() {
            continue;
        }
        println!("{}", report::heading(title));
        for row in wanted {
            let times = (1..TRIES).fold((row.work)(), |times, _| times.best((row.work)()));
            println!("{}", report::line(&row, &times));
            if report::is_missed(&row.target, &times) {
                missed.push(row.name);
            }
        }
    }
    if !words.iter().any(|word| word == "--large") {
        println!("{}", report::missed(&missed));
    }
}

fn main() {
    settle_malloc();
    let words: Vec<String> = std::env::args().skip(1).collect();
    match words.as_slice() {
        [word] if word == "--page" => page::print(),
        _ => print_tables(&words),
    }
}
