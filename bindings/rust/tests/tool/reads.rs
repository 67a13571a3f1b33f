//! `block` and `window`.

use crate::common::{counting, modes_and_rules, samples, small};
use crate::place::{options, Place};
use gezdunar::{EdgeRule, Frame, Grid, InterleaveMode, Widths};

const CORNER: &str = "block --image image --row 1 --column 1";

/// A place with an image of bytes 0, 1, 2 and so on.
fn image(length: usize) -> Place {
    Place::with("image", &counting(length))
}

#[test]
fn figures_a_to_d_as_numbers() {
    let place = image(64);
    for (imode, [first, second]) in InterleaveMode::ALL.into_iter().zip([[48, 56], [48, 49], [48, 52], [24, 56]]) {
        let text = place.run(&format!("{CORNER} {}", options(&small(imode)))).done();
        let shape = "2 bands, 1 row, 1 column, 1 byte a sample: 2 bytes";
        assert_eq!(text, format!("{shape}\nband 0:\n {first}\nband 1:\n {second}\n"));
    }
}

#[test]
fn figures_e_to_j() {
    let grid = options(&small(InterleaveMode::P));
    let block = format!("{CORNER} {grid}");
    assert!(image(50).run(&block).done().contains("band 1:\n 49\n"));
    let facts =
        "asked for: block row 1, block column 1; image holds 49 bytes of the image from byte 0 on, of 64 in all";
    image(49).run(&block).failed(1, &["refused with 7: the image ends before the block does\nquestion 7: ", facts]);
    let place = image(64);
    let outside = place.run(&format!("block --image image --row 2 --column 0 {grid}"));
    outside
        .failed(1, &["refused with 6: ", "block row 2, block column 0; block rows are 0 to 1, block columns 0 to 1"]);
    assert!(place.run(&format!("{block} --list 1,1")).done().ends_with("band 1:\n 49\nband 1:\n 49\n"));
    place.run(&format!("{block} --list 0,2")).failed(1, &["refused with 8: ", "the bands are 0 to 1"]);
    let none = "0 bands, 1 row, 1 column, 1 byte a sample: 0 bytes";
    assert_eq!(place.run(&format!("{block} --list \"\"")).done(), format!("{none}\n"));
    assert_eq!(place.run(&format!("{block} --list=")).done(), format!("{none}\n"));
}

#[test]
fn an_empty_list_gives_an_empty_file() {
    let place = image(64);
    for imode in InterleaveMode::ALL {
        for read in [CORNER, "window --image image --row 0 --column 0 --window-rows 3 --window-columns 5"] {
            let text = place.run(&format!("{read} {} --list \"\" --output none", options(&small(imode)))).done();
            assert!(text.starts_with("wrote none: 0 bands, ") && text.ends_with(": 0 bytes\n"), "{text}");
            assert_eq!(place.get("none"), []);
        }
    }
}

#[test]
fn a_window_across_blocks() {
    let place = image(64);
    let grid = options(&small(InterleaveMode::B));
    let window = format!("window --image image --row 0 --column 0 --window-rows 3 --window-columns 5 {grid}");
    let text = place.run(&format!("{window} --list 1")).done();
    let numbers = "  8  9 10 11 24\n 12 13 14 15 28\n 40 41 42 43 56\n";
    assert_eq!(text, format!("1 band, 3 rows, 5 columns, 1 byte a sample: 15 bytes\nband 1:\n{numbers}"));
    let text = place.run(&format!("{window} --list 1 --output raw")).done();
    assert_eq!(text, "wrote raw: 1 band, 3 rows, 5 columns, 1 byte a sample: 15 bytes\n");
    assert_eq!(place.get("raw"), [8, 9, 10, 11, 24, 12, 13, 14, 15, 28, 40, 41, 42, 43, 56]);
}

#[test]
fn windows_that_are_refused() {
    let place = image(64);
    let grid = options(&small(InterleaveMode::R));
    let largest = u32::MAX;
    for [row, column, rows, columns] in [[0, 0, 0, 5], [0, 0, 3, 0], [0, 0, 4, 5], [3, 0, 1, 1], [largest; 4]] {
        let part = format!("--row {row} --column {column} --window-rows {rows} --window-columns {columns}");
        let ran = place.run(&format!("window --image image {part} {grid} --output raw"));
        let asked = format!("asked for: {rows} rows from row {row}, {columns} columns from column {column}");
        ran.failed(1, &["refused with 10: ", "question 10: ", &asked, "rows are 0 to 2, its columns 0 to 4"]);
    }
    let whole = format!("window --image image --row 0 --column 0 --window-rows 3 --window-columns 5 {grid}");
    place.run(&format!("{whole} --list 2")).failed(1, &["refused with 8: "]);
    place.run(&format!("{whole} --length 63 --output raw")).done();
    place.run(&format!("{whole} --length 52 --output raw2")).failed(1, &["refused with 7: ", "holds 52 bytes"]);
    assert_eq!(place.names(), ["image", "raw"]);
}

#[test]
fn only_the_blocks_that_are_crossed_must_be_there() {
    for (imode, needed) in InterleaveMode::ALL.into_iter().zip([32, 32, 32, 48]) {
        let grid = options(&small(imode));
        let upper = format!("window --row 0 --column 0 --window-rows 2 --window-columns 5 {grid} --image");
        let whole = image(64).run(&format!("{upper} image")).done();
        assert_eq!(image(needed).run(&format!("{upper} image")).done(), whole);
        image(needed - 8).run(&format!("{upper} image")).failed(1, &["refused with 7: "]);
    }
}

#[test]
fn an_image_inside_a_longer_file() {
    let (grid, bytes) = (options(&small(InterleaveMode::P)), counting(64));
    let place = Place::with("file", &[&[9; 1000], &bytes[..], &[9; 1000]].concat());
    let block = format!("block --image file --row 1 --column 1 {grid}");
    assert!(place.run(&format!("{block} --offset 1000")).done().contains("band 1:\n 49\n"));
    assert!(place.run(&format!("{block} --offset 1000 --length 50")).done().contains("band 1:\n 49\n"));
    let short = place.run(&format!("{block} --offset 1000 --length 49"));
    short.failed(1, &["refused with 7: ", "file holds 49 bytes of the image from byte 1000 on"]);
    place.run(&format!("{block} --offset 5000")).failed(1, &["refused with 7: ", "holds 0 bytes"]);
}

#[test]
fn samples_on_standard_output() {
    let grid = options(&small(InterleaveMode::P));
    let ran = image(64).run(&format!("{CORNER} {grid} --output -"));
    assert_eq!((ran.code, ran.bytes), (Some(0), vec![48, 49]));
    assert_eq!(ran.err, "wrote to standard output: 2 bands, 1 row, 1 column, 1 byte a sample: 2 bytes\n");
}

#[test]
fn numbers_of_every_size_are_printed_and_not_too_many() {
    let grid = Grid::new(1, 2, 1, 64, InterleaveMode::B, EdgeRule::Full, 2, 1);
    let place = Place::with("image", &[255, 255, 255, 255, 255, 255, 255, 255, 0, 0, 0, 0, 0, 0, 1, 2]);
    let text = place.run(&format!("block --image image --row 0 --column 0 {}", options(&grid))).done();
    assert!(text.ends_with("band 0:\n 18446744073709551615                  258\n"), "{text}");
    for (columns, printed) in [(1024, true), (1025, false)] {
        let grid = Grid::new(1, columns, 1, 8, InterleaveMode::B, EdgeRule::Full, 2000, 1);
        let place = Place::with("image", &[7; 2000]);
        let text = place.run(&format!("block --image image --row 0 --column 0 {}", options(&grid))).done();
        assert_eq!(text.contains(" 7 7 7"), printed, "{text}");
        assert_eq!(text.contains("more than 1024 samples are not printed"), !printed, "{text}");
    }
}

#[test]
fn the_lower_right_block_at_12_bits() {
    for (imode, edges) in modes_and_rules() {
        let grid = Grid::new(7, 11, 3, 12, imode, edges, 4, 3);
        let mut frame = Frame::new(grid, Widths::STANDARD).expect("the grid is accepted");
        for (row, column) in crate::common::blocks(&grid) {
            let data = crate::common::block_samples(&grid, &[0, 1, 2], row, column);
            frame.encode_block(row, column, grid.block_shape(row, column), &data).expect("the block is accepted");
        }
        let place = Place::with("image", frame.image());
        let block = format!("block --image image --row 2 --column 2 {} --list 2,0 --output raw", options(&grid));
        assert_eq!(place.run(&block).done(), "wrote raw: 2 bands, 1 row, 3 columns, 2 bytes a sample: 12 bytes\n");
        assert_eq!(place.get("raw"), *samples(&grid, &[2, 0], 6, 8, 1, 3));
    }
}
