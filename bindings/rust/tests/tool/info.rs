//! `info`.

use crate::common::small;
use crate::place::{options, Place};
use gezdunar::{EdgeRule, Grid, InterleaveMode};

/// The value of a line that begins so.
fn value<'a>(text: &'a str, name: &str) -> &'a str {
    let line = text.lines().find(|line| line.starts_with(name)).unwrap_or_else(|| panic!("no {name} in: {text}"));
    line[36..].trim()
}

#[test]
fn the_sizes_of_a_small_picture() {
    let text = Place::new().run(&format!("info {}", options(&small(InterleaveMode::R)))).done();
    let facts = [
        ("rows (NROWS)", "3"),
        ("columns (NCOLS)", "5"),
        ("bands", "2"),
        ("bits of a sample", "8"),
        ("mode", "R, row after row"),
        ("rows of a block", "2"),
        ("columns of a block", "4"),
        ("blocks down", "2"),
        ("blocks across", "2"),
        ("blocks in all", "4"),
        ("actual rows", "1"),
        ("actual columns", "1"),
        ("bytes of a sample", "1"),
        ("bytes of all samples", "30"),
        ("bytes of one band of a block", "8"),
        ("bytes of a block", "16"),
        ("bytes of the image", "64"),
        ("64-bit words", "1"),
    ];
    for (name, number) in facts {
        assert_eq!(value(&text, name), number, "{name}");
    }
    assert_eq!(text.lines().count(), facts.len());
}

#[test]
fn the_sizes_at_12_bits() {
    let grid = Grid::new(203, 317, 5, 12, InterleaveMode::S, EdgeRule::Full, 48, 64);
    let text = Place::new().run(&format!("info {}", options(&grid))).done();
    let names = ["bytes of a sample", "bytes of one band", "bytes of a block", "bytes of the image"];
    assert_eq!(names.map(|name| value(&text, name)), ["2", "4608", "23040", "645120"]);
    assert_eq!((value(&text, "actual rows"), value(&text, "actual columns")), ("11", "29"));
    assert_eq!(value(&text, "edge rule, as given"), "full, whole blocks with zeros outside the picture");
}

/// Question 1.
const ONE: &str = "Are NROWS and NCOLS 1 to 99,999,999, NPPBH 1 to 8,192 or NCOLS, NPPBV 1 to 8,192 or NROWS, bands";

#[test]
fn one_block_of_any_size() {
    let grid = Grid::new(9_000, 10_000, 1, 1, InterleaveMode::B, EdgeRule::Full, 10_000, 9_000);
    let text = Place::new().run(&format!("info {}", options(&grid))).done();
    let names = ["rows of a block", "columns of a block", "blocks in all", "bytes of the image"];
    assert_eq!(names.map(|name| value(&text, name)), ["9000", "10000", "1", "11250000"]);
}

#[test]
fn a_refused_grid_is_told_in_words() {
    let grid = small(InterleaveMode::P);
    let cases = [
        (Grid { nrows: 0, ..grid }, 1, ONE, "NROWS 0, NCOLS 5, bands 2"),
        (Grid { nppbh: 0, ..grid }, 1, ONE, "NPPBH 0, NPPBV 2, NBPR 0"),
        (Grid { nppbh: 8193, ..grid }, 1, ONE, "NPPBH 8193, NPPBV 2"),
        (Grid { nbpp: 17, ..grid }, 2, "Is NBPP 1 to 16, 24 to 32, 40, 48, 56 or 64,", "NBPP 17"),
        (
            Grid::new(1, 10_000, 1, 8, InterleaveMode::B, EdgeRule::Full, 1, 1),
            3,
            "Is NBPR = NCOLS / NPPBH",
            "NBPR 10000",
        ),
        (
            Grid::new(99_999, 99_999, 1, 8, InterleaveMode::P, EdgeRule::Full, 8192, 8192),
            4,
            "Is the image at most",
            "NROWS 99999",
        ),
    ];
    for (grid, number, question, fact) in cases {
        let told = format!("gezdunar info: refused with {number}: ");
        let question = format!("\nquestion {number}: {question}");
        Place::new().run(&format!("info {}", options(&grid))).failed(1, &[&told, &question, "\nthe grid: ", fact]);
    }
}
