//! Refusals, their numbers and their words.

use gezdunar::{EdgeRule, Grid, InterleaveMode, Refusal, Widths};
use std::collections::HashSet;
use std::error::Error;

const HEADER: &str = include_str!("../../../include/gezdunar.h");

fn known() -> Vec<u32> {
    (1..=24).chain([26, 27, 99]).collect()
}

/// The C header's words for a number: the text of the name that the number has there.
fn words_of_header(number: u32) -> &'static str {
    let mut names = HEADER.lines().filter_map(|line| line.trim().trim_end_matches(',').split_once(" = "));
    let (name, _) = names.find(|(_, value)| *value == number.to_string()).expect("the number has a name");
    let (_, case) = HEADER.split_once(&format!("case {name}:")).expect("the name has a case");
    case.split('"').nth(1).expect("the case has a text")
}

#[test]
fn every_number_has_its_own_refusal() {
    for number in known() {
        let refusal = Refusal::from_number(number).expect("a number other than 0");
        assert_eq!(refusal.number(), number);
        assert!(!matches!(refusal, Refusal::Unknown(_)), "{number} has no name");
    }
    assert_eq!(known().into_iter().map(Refusal::from_number).collect::<HashSet<_>>().len(), 27);
    assert_eq!(Refusal::from_number(0), None);
}

#[test]
fn every_number_is_told_in_words() {
    let mut told = HashSet::new();
    for number in known() {
        let text = Refusal::from_number(number).expect("a number other than 0").to_string();
        let words = text.strip_prefix(&format!("{number}: ")).expect("the number comes first").to_owned();
        assert!(words.split(' ').count() >= 5, "{text}");
        assert!(words.chars().any(char::is_lowercase), "{text}");
        assert!(told.insert(words), "{text} is told twice");
    }
    assert_eq!(Refusal::ImageEnds.to_string(), "7: the image ends before the block does");
    assert_eq!(Refusal::SampleBits.to_string(), "26: a sample has a bit above NBPP");
    let no_name = "99: the mode is none of B, P, R and S, or the edge rule none of T and F";
    assert_eq!(Refusal::NoMode.to_string(), no_name);
}

#[test]
fn the_header_has_the_same_words() {
    for number in known() {
        let refusal = Refusal::from_number(number).expect("a number other than 0");
        let text = refusal.to_string();
        let words = text.strip_suffix(": row 0, column 0").unwrap_or(&text);
        assert_eq!(words, format!("{number}: {}", words_of_header(number)));
    }
    let unknown = Refusal::Unknown(98).to_string();
    assert!(HEADER.contains(&format!("default: return \"{}\";", &unknown["98: ".len()..])));
}

#[test]
fn beside_15_stands_the_block() {
    let refusal = Refusal::UnmarkedBlock { row: 12, column: 345 };
    assert_eq!(refusal.to_string(), "15: a block was neither written nor skipped: row 12, column 345");
    assert_eq!(refusal.number(), 15);
}

#[test]
fn other_numbers_have_words_too() {
    for number in [25, 28, 98, 100, u32::MAX] {
        let refusal = Refusal::from_number(number);
        assert_eq!(refusal, Some(Refusal::Unknown(number)));
        let text = refusal.map(|refusal| refusal.to_string()).unwrap_or_default();
        assert_eq!(text, format!("{number}: refused with a number that has no name here"));
    }
}

#[test]
fn a_refusal_is_an_error_that_can_be_matched() {
    fn check() -> Result<(), Box<dyn Error>> {
        Grid::new(3, 5, 2, 17, InterleaveMode::B, EdgeRule::Full, 4, 2).check(&Widths::STANDARD)?;
        Ok(())
    }
    let error = check().expect_err("17 is no width");
    assert!(matches!(error.downcast_ref::<Refusal>(), Some(Refusal::Width)));
}
