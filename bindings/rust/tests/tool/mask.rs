//! `mask`.

use crate::common::exact;
use crate::place::{options, Place};
use gezdunar::{mask_write_vec, EdgeRule, Grid, ImageDataMask, InterleaveMode, Widths, EMPTY_BLOCK_OFFSET};

/// A table with block records, of 1 by 1 blocks.
fn table(grid: &Grid, offsets: &[u32]) -> Vec<u8> {
    let mask = ImageDataMask { block_mask_record_length: 4, ..ImageDataMask::default() };
    mask_write_vec(grid, &Widths::STANDARD, &mask, &exact(offsets), &exact(&[])).expect("the table is accepted")
}

fn grid(rows: u32, columns: u32, bands: u32, imode: InterleaveMode) -> Grid {
    Grid::new(rows, columns, bands, 8, imode, EdgeRule::Full, 1, 1)
}

#[test]
fn figure_n() {
    let grid = grid(1, 2, 1, InterleaveMode::B);
    let place = Place::with("table", &table(&grid, &[0, EMPTY_BLOCK_OFFSET]));
    assert_eq!(place.get("table"), [0, 0, 0, 18, 0, 4, 0, 0, 0, 0, 0, 0, 0, 0, 255, 255, 255, 255]);
    let text = place.run(&format!("mask --table table --records {}", options(&grid))).done();
    let expected = "\
first block after (IMDATOFF)    18 bytes
block record (BMRLNTH)          4 bytes
pad record (TMRLNTH)            0 bytes
pad code length (TPXCDLNTH)     0 bits
pad code (TPXCD)                none
the table takes                 18 bytes
present blocks                  1
empty blocks                    1
  #.
block row 0, block column 0: offset 0
block row 0, block column 1: empty
";
    assert_eq!(text, expected);
}

#[test]
fn a_map_by_rows() {
    let grid = grid(2, 3, 2, InterleaveMode::P);
    let empty = EMPTY_BLOCK_OFFSET;
    let place = Place::with("table", &table(&grid, &[empty, 0, 2, 4, empty, empty]));
    let text = place.run(&format!("mask --table table {}", options(&grid))).done();
    assert!(
        text.ends_with("present blocks                  3\nempty blocks                    3\n  .##\n  #..\n"),
        "{text}"
    );
}

#[test]
fn without_block_records_all_are_present() {
    let grid = grid(2, 2, 1, InterleaveMode::B);
    let place = Place::with("table", &[0, 0, 0, 12, 0, 0, 0, 0, 0, 12, 0x0F, 0xFF]);
    let text = place.run(&format!("mask --table table --records {}", options(&grid))).done();
    assert!(
        text.contains("pad code (TPXCD)                4095\n") && text.contains("TPXCDLNTH)     12 bits"),
        "{text}"
    );
    assert!(text.contains("empty blocks                    0\n  ##\n  ##\n"), "{text}");
    assert_eq!(text.matches("present, no record").count(), 4);
}

#[test]
fn in_mode_s_each_band_has_a_map() {
    let grid = grid(1, 2, 2, InterleaveMode::S);
    let empty = EMPTY_BLOCK_OFFSET;
    let place = Place::with("table", &table(&grid, &[0, empty, 1, 1]));
    let text = place.run(&format!("mask --table table {}", options(&grid))).done();
    let maps: Vec<&str> = text.lines().filter(|line| line.starts_with("  ") || line.starts_with("band")).collect();
    assert_eq!(maps, ["band 0", "  #.", "band 1", "  .#"]);
}

#[test]
fn a_large_grid_is_counted() {
    for (columns, lines) in [(128, 1), (129, 0)] {
        let grid = grid(1, columns, 1, InterleaveMode::R);
        let offsets: Vec<u32> = (0..columns).map(|i| if i == 5 { EMPTY_BLOCK_OFFSET } else { i }).collect();
        let place = Place::with("table", &table(&grid, &offsets));
        let text = place.run(&format!("mask --table table {}", options(&grid))).done();
        assert!(text.contains("empty blocks                    1\n"), "{text}");
        assert!(text.contains(&format!("present blocks                  {}\n", columns - 1)), "{text}");
        assert_eq!(text.lines().filter(|line| line.starts_with("  #####.###")).count(), lines);
    }
}

#[test]
fn a_table_inside_a_file() {
    let grid = grid(1, 2, 1, InterleaveMode::B);
    let bytes = table(&grid, &[EMPTY_BLOCK_OFFSET, 0]);
    let place = Place::with("file", &[&[1; 99], &bytes[..], &[1; 99]].concat());
    let text = place.run(&format!("mask --table file --offset 99 {}", options(&grid))).done();
    assert!(text.contains("the table takes                 18 bytes\n") && text.ends_with("  .#\n"), "{text}");
}

#[test]
fn tables_that_are_refused() {
    let grid = grid(1, 2, 1, InterleaveMode::B);
    let tables: [(u32, &[u8], &str); 5] = [
        (16, &[0; 9], "question 16: Has the mask table ten bytes?"),
        (17, &[0, 0, 0, 0, 0, 3, 0, 0, 0, 0, 0], "question 17: Is each record length 0 or 4?"),
        (18, &[0, 0, 0, 0, 0, 4, 0, 0, 0, 33], "question 18: Is the pad code at most 32 bits?"),
        (19, &[0, 0, 0, 0, 0, 4, 0, 0, 0, 0, 0, 0, 0, 0, 0, 0, 0], "question 19: Is the rest of the mask table there?"),
        (16, &[], "table: 0 bytes were read from byte 0 on"),
    ];
    for (number, bytes, told) in tables {
        let ran = Place::with("table", bytes).run(&format!("mask --table table {}", options(&grid)));
        ran.failed(1, &[&format!("gezdunar mask: refused with {number}: "), told]);
    }
    let wrong = Grid { nbpp: 0, ..grid };
    Place::with("table", &[0; 10]).run(&format!("mask --table table {}", options(&wrong))).failed(1, &["with 2: "]);
}
