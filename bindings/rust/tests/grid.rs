//! The grid record, its check, its sizes, IMODE and the edge rule.

mod common;

use common::{modes_and_rules, refused_grids, small, WIDTHS};
use gezdunar::{EdgeRule, Grid, InterleaveMode, Refusal, Sizes, Widths};

/// One sample of one bit, in one block.
const ONE: Grid = Grid {
    nrows: 1,
    ncols: 1,
    bands: 1,
    nbpp: 1,
    imode: InterleaveMode::B,
    edges: EdgeRule::Full,
    nppbh: 1,
    nppbv: 1,
    nbpr: 1,
    nbpc: 1,
};

fn number(grid: Grid) -> u32 {
    grid.check(&Widths::STANDARD).map_or_else(Refusal::number, |()| 0)
}

#[test]
fn block_counts_are_rounded_up() {
    let grid = Grid::new(3, 5, 2, 8, InterleaveMode::R, EdgeRule::Full, 4, 2);
    assert_eq!((grid.nbpr, grid.nbpc), (2, 2));
    let grid = Grid::new(4, 8, 2, 8, InterleaveMode::R, EdgeRule::Full, 4, 2);
    assert_eq!((grid.nbpr, grid.nbpc), (2, 2));
    let grid = Grid::new(u32::MAX, u32::MAX, 1, 8, InterleaveMode::R, EdgeRule::Full, 1, u32::MAX);
    assert_eq!((grid.nbpr, grid.nbpc), (u32::MAX, 1));
}

#[test]
fn a_block_side_of_0_gives_0_blocks() {
    let grid = Grid::new(3, 5, 2, 8, InterleaveMode::B, EdgeRule::Full, 0, 0);
    assert_eq!((grid.nbpr, grid.nbpc, number(grid)), (0, 0, 1));
}

#[test]
fn question_1() {
    let grid = small(InterleaveMode::B);
    for (limit, picture) in [(0, 1), (1, 3), (99_999_999, 3), (100_000_000, 1), (u32::MAX, 1)] {
        assert_eq!(number(Grid { nrows: limit, ..grid }), picture);
        assert_eq!(number(Grid { ncols: limit, ..grid }), picture);
    }
    for (limit, block) in [(0, 1), (1, 3), (8_192, 3), (8_193, 1), (u32::MAX, 1)] {
        assert_eq!(number(Grid { nppbh: limit, ..grid }), block);
        assert_eq!(number(Grid { nppbv: limit, ..grid }), block);
    }
    for (limit, bands) in [(0, 1), (1, 0), (99_999, 0), (100_000, 1), (u32::MAX, 1)] {
        assert_eq!(number(Grid { bands: limit, ..grid }), bands);
    }
}

#[test]
fn a_block_side_above_8_192_is_the_pictures() {
    for side in [8_193, 9_000, 65_536, 99_999_999] {
        let (wide, tall) = (Grid { ncols: side, ..ONE }, Grid { nrows: side, ..ONE });
        assert_eq!(number(Grid { nppbh: side, ..wide }), 0, "{side}");
        assert_eq!(number(Grid { nppbv: side, ..tall }), 0, "{side}");
        // One column or row more or less, and the other side of the picture.
        assert_eq!(number(Grid { nppbh: side + 1, ..wide }), 1, "{side}");
        assert_eq!(number(Grid { nppbh: side, ncols: side - 1, ..wide }), 1, "{side}");
        assert_eq!(number(Grid { nppbv: side + 1, ..tall }), 1, "{side}");
        assert_eq!(number(Grid { nppbv: side, nrows: side - 1, ..tall }), 1, "{side}");
        assert_eq!(number(Grid { nppbh: side, ..tall }), 1, "{side}");
        assert_eq!(number(Grid { nppbv: side, ..wide }), 1, "{side}");
        // It is one block.
        assert_eq!(number(Grid { nppbh: side, nbpr: 2, ..wide }), 3, "{side}");
        assert_eq!(number(Grid { nppbv: side, nbpc: 2, ..tall }), 3, "{side}");
    }
    assert_eq!(number(Grid { ncols: 100_000_000, nppbh: 100_000_000, ..ONE }), 1);
    for grid in [Grid { nppbh: 0, ..ONE }, Grid { nppbv: 0, ..ONE }, Grid { nppbh: 0, ncols: 0, ..ONE }] {
        assert_eq!(number(grid), 1);
    }
}

#[test]
fn question_2_at_every_width() {
    for nbpp in (0..=70).chain([255, 256, 264, u32::MAX]) {
        let expected = if WIDTHS.contains(&nbpp) { 0 } else { 2 };
        assert_eq!(number(Grid { nbpp, ..small(InterleaveMode::B) }), expected, "NBPP {nbpp}");
    }
}

#[test]
fn question_3() {
    let grid = small(InterleaveMode::B);
    for wrong in [0, 1, 3, u32::MAX] {
        assert_eq!(number(Grid { nbpr: wrong, ..grid }), 3);
        assert_eq!(number(Grid { nbpc: wrong, ..grid }), 3);
    }
    assert_eq!(number(Grid::new(1, 9_999, 1, 8, InterleaveMode::B, EdgeRule::Full, 1, 1)), 0);
    assert_eq!(number(Grid::new(1, 10_000, 1, 8, InterleaveMode::B, EdgeRule::Full, 1, 1)), 3);
    assert_eq!(number(Grid::new(9_999, 1, 1, 8, InterleaveMode::B, EdgeRule::Full, 1, 1)), 0);
    assert_eq!(number(Grid::new(10_000, 1, 1, 8, InterleaveMode::B, EdgeRule::Full, 1, 1)), 3);
}

#[test]
fn question_4() {
    // One block of 34,359,738,345 bits, and one of 34,359,738,360.
    let largest = Grid::new(286_515, 119_923, 1, 1, InterleaveMode::B, EdgeRule::Full, 119_923, 286_515);
    assert_eq!(largest.sizes(&Widths::STANDARD).map(|sizes| (sizes.blocks, sizes.image_bytes)), Ok((1, 4_294_967_294)));
    assert_eq!(number(Grid::new(65_535, 524_296, 1, 1, InterleaveMode::B, EdgeRule::Full, 524_296, 65_535)), 4);
    let bands = Grid::new(1_143, 3_253, 9_241, 1, InterleaveMode::B, EdgeRule::Full, 3_253, 1_143);
    assert_eq!(
        bands.sizes(&Widths::STANDARD).map(|sizes| (sizes.band_bytes, sizes.image_bytes)),
        Ok((464_773, 4_294_967_293))
    );
    // 4,294,967,295 bytes: 65,535 bands of 65,537 bytes, and 15 by 4,369 blocks of 65,537 bands of one byte.
    let bands = Grid::new(191, 2_745, 65_535, 1, InterleaveMode::B, EdgeRule::Full, 2_745, 191);
    let fewer = Grid { bands: 65_534, ..bands }.sizes(&Widths::STANDARD);
    assert_eq!((number(bands), fewer.map(|sizes| sizes.image_bytes)), (4, Ok(65_537 * 65_534)));
    assert_eq!(number(Grid::new(15, 4_369, 65_537, 8, InterleaveMode::S, EdgeRule::Full, 1, 1)), 4);
    assert_eq!(number(Grid::new(15, 4_369, 65_536, 8, InterleaveMode::S, EdgeRule::Full, 1, 1)), 0);
}

#[test]
fn question_4_beyond_64_bits() {
    let side = 67_108_864;
    // 2 to the power of 67 bits, and so of 64 bytes.
    assert_eq!(number(Grid::new(side, side, 512, 64, InterleaveMode::B, EdgeRule::Full, side, side)), 4);
    assert_eq!(
        number(Grid::new(
            99_999_999,
            99_999_999,
            99_999,
            64,
            InterleaveMode::S,
            EdgeRule::Full,
            99_999_999,
            99_999_999
        )),
        4
    );
    let square = Grid::new(65_536, 65_536, 1, 1, InterleaveMode::P, EdgeRule::Full, 65_536, 65_536);
    assert_eq!(square.sizes(&Widths::STANDARD).map(|sizes| sizes.image_bytes), Ok(536_870_912));
}

#[test]
fn questions_are_asked_in_order() {
    let wrong = Grid { nrows: 0, nbpp: 17, nbpr: 9, ..small(InterleaveMode::B) };
    assert_eq!(number(wrong), 1);
    assert_eq!(number(Grid { nrows: 3, ..wrong }), 2);
    assert_eq!(number(Grid { nrows: 3, nbpp: 8, ..wrong }), 3);
}

#[test]
fn check_and_sizes_are_refused_alike() {
    for (grid, number) in refused_grids() {
        for edges in EdgeRule::ALL {
            let grid = Grid { edges, ..grid };
            assert_eq!(grid.check(&Widths::STANDARD).map_err(Refusal::number), Err(number));
            assert_eq!(grid.sizes(&Widths::STANDARD).map_err(Refusal::number), Err(number));
        }
    }
}

#[test]
fn sizes_of_the_small_picture() {
    for imode in InterleaveMode::ALL {
        let sizes =
            Sizes { sample_bytes: 1, band_bytes: 8, block_bytes: 16, image_bytes: 64, blocks: 4, mark_words: 1 };
        assert_eq!(small(imode).sizes(&Widths::STANDARD), Ok(sizes));
    }
}

#[test]
fn sizes_at_every_width() {
    for nbpp in WIDTHS {
        let band_bytes = (6 * nbpp as usize).div_ceil(8);
        let sizes = Sizes {
            sample_bytes: (nbpp as usize).div_ceil(8),
            band_bytes,
            block_bytes: 3 * band_bytes,
            image_bytes: 27 * band_bytes,
            blocks: 9,
            mark_words: 1,
        };
        for (imode, edges) in modes_and_rules() {
            assert_eq!(Grid::new(5, 7, 3, nbpp, imode, edges, 3, 2).sizes(&Widths::STANDARD), Ok(sizes));
        }
    }
}

#[test]
fn words_for_the_marks() {
    for (ncols, words) in [(1, 1), (63, 1), (64, 1), (65, 2), (128, 2), (129, 3), (9_999, 157)] {
        let sizes = Grid::new(1, ncols, 1, 8, InterleaveMode::B, EdgeRule::Full, 1, 1).sizes(&Widths::STANDARD);
        assert_eq!(sizes.map(|sizes| (sizes.blocks, sizes.mark_words)), Ok((ncols as usize, words)));
    }
}

#[test]
fn actual_rows_and_columns_fill_the_picture() {
    for side in 1..20 {
        for block in 1..22 {
            let grid = Grid::new(side, side, 1, 8, InterleaveMode::B, EdgeRule::Full, block, block);
            assert_eq!((0..grid.nbpc).map(|row| grid.actual_rows(row)).sum::<usize>(), side as usize);
            assert_eq!((0..grid.nbpr).map(|column| grid.actual_columns(column)).sum::<usize>(), side as usize);
            assert_eq!((grid.actual_rows(grid.nbpc), grid.actual_columns(grid.nbpr)), (0, 0));
        }
    }
}

#[test]
fn actual_rows_of_any_number() {
    let grid = Grid::new(u32::MAX, u32::MAX, u32::MAX, u32::MAX, InterleaveMode::S, EdgeRule::Full, u32::MAX, u32::MAX);
    assert_eq!(grid.actual_rows(0), u32::MAX as usize);
    assert_eq!((grid.actual_rows(1), grid.actual_columns(u32::MAX)), (0, 0));
    assert_eq!(grid.block_shape(0, 0).bytes(usize::MAX), usize::MAX);
    assert_eq!(Grid { nppbv: 0, ..grid }.actual_rows(0), 0);
}

#[test]
fn modes_and_their_letters() {
    for (imode, letter) in InterleaveMode::ALL.into_iter().zip(["B", "P", "R", "S"]) {
        assert_eq!(imode.to_string(), letter);
        assert_eq!([imode.letter()], letter.as_bytes());
        assert_eq!(letter.parse(), Ok(imode));
        assert_eq!(InterleaveMode::from_letter(imode.letter()), Ok(imode));
    }
    let accepted = (0..=255).filter(|&byte| InterleaveMode::from_letter(byte).is_ok()).collect::<Vec<u8>>();
    assert_eq!(accepted, b"BPRS");
    for text in ["", "b", "BP", " B", "B ", "é", "Q"] {
        assert_eq!(text.parse::<InterleaveMode>().map_err(Refusal::number), Err(99));
    }
}

#[test]
fn rules_their_letters_and_their_names() {
    for (edges, (letter, name)) in EdgeRule::ALL.into_iter().zip([(b'T', "tight"), (b'F', "full")]) {
        assert_eq!((edges.letter(), edges.to_string()), (letter, name.to_owned()));
        assert_eq!((EdgeRule::from_letter(letter), name.parse()), (Ok(edges), Ok(edges)));
    }
    let accepted = (0..=255).filter(|&byte| EdgeRule::from_letter(byte).is_ok()).collect::<Vec<u8>>();
    assert_eq!(accepted, b"FT");
    for text in ["", "T", "F", "t", "f", "Tight", "FULL", " full", "tight ", "é"] {
        assert_eq!(text.parse::<EdgeRule>().map_err(Refusal::number), Err(99));
    }
}

#[test]
fn a_grid_has_the_rule_that_it_was_made_with() {
    for (imode, edges) in modes_and_rules() {
        let grid = Grid::new(3, 5, 2, 12, imode, edges, 4, 2);
        assert_eq!((grid.imode, grid.edges, number(grid)), (imode, edges, 0));
    }
}
