//! `pack`.

use crate::common::{block_samples, blocks, largest, modes_and_rules, samples};
use crate::place::{options, Place};
use gezdunar::{EdgeRule, Frame, Grid, InterleaveMode, Widths};

const PACK: &str = "pack --input raw --output image";

/// 7 rows by 11 columns, 3 bands of 12 bits, in blocks of 3 rows by 4 columns.
fn odd(imode: InterleaveMode) -> Grid {
    Grid::new(7, 11, 3, 12, imode, EdgeRule::Full, 4, 3)
}

/// All samples of the plain picture.
fn raw(grid: &Grid) -> Vec<u8> {
    let bands: Vec<u32> = (0..grid.bands).collect();
    samples(grid, &bands, 0, 0, grid.nrows as usize, grid.ncols as usize).into_vec()
}

/// The image of the plain picture, written block by block, with some blocks skipped.
fn image(grid: &Grid, skipped: &[(u32, u32)]) -> Vec<u8> {
    let bands: Vec<u32> = (0..grid.bands).collect();
    let mut frame = Frame::new(*grid, Widths::STANDARD).expect("the grid is accepted");
    for (row, column) in blocks(grid).into_iter().filter(|block| !skipped.contains(block)) {
        let data = block_samples(grid, &bands, row, column);
        frame.encode_block(row, column, grid.block_shape(row, column), &data).expect("the block is accepted");
    }
    frame.into_image()
}

#[test]
fn what_is_packed_comes_back_in_every_mode() {
    for (imode, edges) in modes_and_rules() {
        let grid = Grid { edges, ..odd(imode) };
        let place = Place::with("raw", &raw(&grid));
        let text = place.run(&format!("{PACK} {}", options(&grid))).done();
        let words = format!("3 bands, 7 rows, 11 columns, 12 bits, mode {imode}, edges {edges}");
        assert_eq!(text, format!("wrote image: {words}: 9 blocks, 0 skipped, 486 bytes\n"));
        assert_eq!(place.get("image"), image(&grid, &[]));
        let window = "window --image image --output back --row 0 --column 0 --window-rows 7 --window-columns 11";
        place.run(&format!("{window} {}", options(&grid))).done();
        assert_eq!(place.get("back"), raw(&grid));
        let part = "window --image image --output part --row 2 --column 3 --window-rows 5 --window-columns 8";
        place.run(&format!("{part} {} --list 2,0,2", options(&grid))).done();
        assert_eq!(place.get("part"), *samples(&grid, &[2, 0, 2], 2, 3, 5, 8));
        assert_eq!(place.names(), ["back", "image", "part", "raw"]);
    }
}

#[test]
fn every_width_is_packed() {
    for nbpp in crate::common::WIDTHS {
        for edges in EdgeRule::ALL {
            let grid = Grid { nbpp, edges, ..odd(InterleaveMode::R) };
            let place = Place::with("raw", &raw(&grid));
            place.run(&format!("{PACK} {}", options(&grid))).done();
            assert_eq!(place.get("image"), image(&grid, &[]), "{nbpp}");
        }
    }
}

#[test]
fn an_input_that_ends_early_leaves_a_hole() {
    let grid = odd(InterleaveMode::P);
    let whole = raw(&grid);
    // Bytes that are missing, and the first block that is not held: a row of a band has 22 bytes.
    let holes = [(1, (2, 2)), (6, (2, 2)), (7, (2, 1)), (22, (2, 0)), (23, (1, 2)), (154, (0, 0)), (462, (0, 0))];
    for (missing, (row, column)) in holes {
        let place = Place::with("raw", &whole[..whole.len() - missing]);
        let ran = place.run(&format!("{PACK} {}", options(&grid)));
        let block = format!("refused with 15: a block was neither written nor skipped: row {row}, column {column}\n");
        let facts = format!("raw has {} bytes; the picture's samples take 462", 462 - missing);
        ran.failed(1, &[&block, "question 15: Is every block written or skipped?", &facts]);
        assert_eq!(place.names(), ["raw"], "{missing}");
    }
}

#[test]
fn a_refused_pack_keeps_the_old_file() {
    let grid = odd(InterleaveMode::B);
    let place = Place::with("raw", &raw(&grid)[..461]);
    place.put("image", b"old");
    place.run(&format!("{PACK} {}", options(&grid))).failed(1, &["refused with 15"]);
    assert_eq!((place.get("image"), place.names()), (b"old".to_vec(), vec!["image".to_owned(), "raw".to_owned()]));
    place.put("raw", &raw(&grid));
    place.run(&format!("{PACK} {}", options(&grid))).done();
    assert_eq!(place.get("image"), image(&grid, &[]));
    assert_eq!(place.names(), ["image", "raw"]);
}

#[test]
fn a_longer_input_is_refused() {
    let grid = odd(InterleaveMode::S);
    let place = Place::with("raw", &[raw(&grid), vec![0]].concat());
    let ran = place.run(&format!("{PACK} {}", options(&grid)));
    ran.failed(1, &["refused with 14: ", "question 14: ", "raw has 463 bytes; the picture's samples take 462"]);
    assert_eq!(place.names(), ["raw"]);
}

/// The plain picture with one sample replaced.
fn raw_with(grid: &Grid, [band, row, column]: [usize; 3], sample: u32) -> Vec<u8> {
    let (mut bytes, size) = (raw(grid), grid.nbpp.div_ceil(8) as usize);
    let place = (band * grid.nrows as usize + row) * grid.ncols as usize + column;
    bytes[place * size..(place + 1) * size].copy_from_slice(&sample.to_be_bytes()[4 - size..]);
    bytes
}

#[test]
fn a_sample_that_does_not_fit_is_named() {
    for imode in InterleaveMode::ALL {
        // The sample's place in the picture, the sample, and its block: the first, one inside, the last.
        let wrong = [
            ([0, 0, 0], 0x1000, "4096 (0x1000)", (0, 0)),
            ([1, 4, 9], 0xF123, "61731 (0xF123)", (1, 2)),
            ([2, 6, 10], 0xFFFF, "65535 (0xFFFF)", (2, 2)),
        ];
        for (sample, number, words, (block_row, block_col)) in wrong {
            let grid = odd(imode);
            let place = Place::with("raw", &raw_with(&grid, sample, number));
            place.put("image", b"old");
            let ran = place.run(&format!("{PACK} {}", options(&grid)));
            let [band, row, column] = sample;
            let refused = "gezdunar pack: refused with 26: a sample has a bit above NBPP\n";
            let question = "question 26: Is every bit above NBPP zero in each sample?\n";
            let block = format!("block row {block_row}, block column {block_col}");
            let found = format!("band {band}, row {row}, column {column} of the picture has the sample {words}");
            let facts = format!("{block}: {found}; the largest of 12 bits is 4095\n");
            ran.failed(1, &[]);
            assert_eq!(ran.err, format!("{refused}{question}{facts}"));
            assert_eq!(place.get("image"), b"old");
            assert_eq!(place.names(), ["image", "raw"]);
        }
    }
}

#[test]
fn of_several_samples_that_do_not_fit_the_first_is_named() {
    let grid = Grid { nbpp: 1, ..odd(InterleaveMode::P) };
    let mut bytes = raw(&grid);
    // In band 2 from row 0, column 3 to row 1, column 3.
    bytes[2 * 77 + 3..2 * 77 + 15].fill(2);
    let place = Place::with("raw", &bytes);
    let facts = "block row 0, block column 0: band 2, row 0, column 3 of the picture has the sample 2 (0x2)";
    place.run(&format!("{PACK} {}", options(&grid))).failed(1, &[&format!("{facts}; the largest of 1 bit is 1\n")]);
    assert_eq!(place.names(), ["raw"]);
    // A block that is skipped is not looked at.
    let facts = "block row 0, block column 1: band 2, row 0, column 4 of the picture has the sample 2 (0x2)";
    place.run(&format!("{PACK} {} --skip 0,0", options(&grid))).failed(1, &[facts]);
    place.run(&format!("{PACK} {} --skip 0,0 --skip 0,1 --skip 0,2", options(&grid))).done();
    assert_eq!(place.get("image"), image(&grid, &[(0, 0), (0, 1), (0, 2)]));
}

#[test]
fn the_largest_samples_are_packed() {
    for nbpp in crate::common::WIDTHS {
        let grid = Grid { nbpp, ..odd(InterleaveMode::S) };
        let place = Place::with("raw", &largest(&grid, 3 * 7 * 11));
        place.run(&format!("{PACK} {}", options(&grid))).done();
        let window = "window --image image --output back --row 0 --column 0 --window-rows 7 --window-columns 11";
        place.run(&format!("{window} {}", options(&grid))).done();
        assert_eq!(place.get("back"), place.get("raw"), "{nbpp}");
    }
}

#[test]
fn a_refused_grid_makes_no_file() {
    let grid = Grid { nbpp: 17, ..odd(InterleaveMode::S) };
    let place = Place::with("raw", &[0; 462]);
    place.run(&format!("{PACK} {}", options(&grid))).failed(1, &["refused with 2: ", "NBPP 17"]);
    assert_eq!(place.names(), ["raw"]);
}

#[test]
fn skipped_blocks_are_zeros() {
    let grid = odd(InterleaveMode::P);
    let place = Place::with("raw", &raw(&grid));
    let text = place.run(&format!("{PACK} {} --skip 0,1 --skip 2,2 --skip 0,1", options(&grid))).done();
    assert!(text.contains("9 blocks, 2 skipped"), "{text}");
    assert_eq!(place.get("image"), image(&grid, &[(0, 1), (2, 2)]));
    // A skipped block need not be in the input.
    place.put("raw", &raw(&grid)[..456]);
    place.run(&format!("{PACK} {} --skip 2,2", options(&grid))).done();
    assert_eq!(place.get("image"), image(&grid, &[(2, 2)]));
}

#[test]
fn skips_that_are_wrong() {
    let grid = odd(InterleaveMode::P);
    let place = Place::with("raw", &raw(&grid));
    let pack = format!("{PACK} {}", options(&grid));
    place.run(&format!("{pack} --skip 3,0")).failed(1, &["refused with 6: ", "--skip 3,0; block rows are 0 to 2"]);
    for skip in ["1", "1,2,3", "\"\""] {
        place.run(&format!("{pack} --skip {skip}")).failed(2, &["--skip: '", "' is not ROW,COLUMN"]);
    }
    place.run(&format!("{pack} --skip 1,x")).failed(2, &["--skip: 'x' is not a whole number in digits"]);
    assert_eq!(place.names(), ["raw"]);
}

#[test]
fn progress_counts_the_marked_blocks() {
    let grid = odd(InterleaveMode::P);
    let place = Place::with("raw", &raw(&grid));
    let pack = format!("{PACK} {} --skip 0,0", options(&grid));
    let ran = place.run(&format!("{pack} --progress always"));
    let lines: String = (1..=9).map(|marked| format!("pack: {marked} of 9 blocks\n")).collect();
    assert_eq!((ran.code, ran.err), (Some(0), lines));
    for when in ["auto", "never"] {
        place.run(&format!("{pack} --progress {when}")).done();
    }
    place.run(&format!("{pack} --progress often")).failed(2, &["--progress: 'often' is not auto, always or never"]);
}
