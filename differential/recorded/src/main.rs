//! Writes a file of the original's answers, or replays one against the model. See FORMAT.md.
//!
//! `recorded write FILE [SEED]`: the same seed gives the same file; 1 if not given.
//! `recorded replay FILE`

mod choose;
mod record;
mod replay;

use std::fs;
use std::process::ExitCode;

use record::Ask;

/// Most bytes of a file.
const MOST: usize = 600_000;

fn main() -> ExitCode {
    let words: Vec<String> = std::env::args().skip(1).collect();
    let words: Vec<&str> = words.iter().map(String::as_str).collect();
    match words[..] {
        ["write", path] => write(path, 1),
        ["write", path, seed] => write(path, seed.parse().expect("a number")),
        ["replay", path] => replay(path),
        _ => {
            eprintln!("recorded write FILE [SEED], or recorded replay FILE");
            ExitCode::FAILURE
        }
    }
}

fn write(path: &str, seed: u64) -> ExitCode {
    let mut records = Vec::new();
    for case in choose::cases(seed) {
        let answer = original::answer(&case).expect("an answer to every case that is chosen");
        assert!(answer.number < cases::UNKNOWN, "no number for {case:?}");
        records.extend(record::records(&case, &answer));
    }
    let mut file = record::HEADER.to_vec();
    file.extend((records.len() as u32).to_be_bytes());
    records.iter().for_each(|record| file.extend(record));
    assert!(file.len() <= MOST, "{} bytes are too many", file.len());
    fs::write(path, &file).expect("the file can be written");
    println!("{} records, {} bytes", records.len(), file.len());
    ExitCode::SUCCESS
}

fn replay(path: &str) -> ExitCode {
    let file = fs::read(path).expect("the file can be read");
    match replay::replay(&file) {
        Ok(counts) => {
            for ask in Ask::ALL {
                println!("{:5} {ask:?}", counts[ask as usize]);
            }
            println!("{:5} in all, as the model", counts.iter().sum::<u32>());
            ExitCode::SUCCESS
        }
        Err(i) => {
            println!("record {i} is not as the model");
            ExitCode::FAILURE
        }
    }
}
