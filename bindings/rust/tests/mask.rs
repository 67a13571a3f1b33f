//! The image data mask table.

mod common;

use common::{exact, refused_grids};
use gezdunar::{
    get_block_offset, has_block, mask_from_marks, mask_from_marks_vec, mask_parse, mask_write, mask_write_vec,
    EdgeRule, Grid, ImageDataMask, InterleaveMode, Parsed, Refusal, Widths, EMPTY_BLOCK_OFFSET,
};

/// Figure n: two blocks in B, the second empty.
const FIGURE_N: [u8; 18] = [0, 0, 0, 0x12, 0, 4, 0, 0, 0, 0, 0, 0, 0, 0, 0xFF, 0xFF, 0xFF, 0xFF];

fn two_blocks() -> Grid {
    Grid::new(1, 2, 1, 8, InterleaveMode::B, EdgeRule::Full, 1, 1)
}

fn mask(block: u16, pad: u16, bits: u16, code: u32) -> ImageDataMask {
    ImageDataMask {
        image_data_offset: 0,
        block_mask_record_length: block,
        pad_pixel_mask_record_length: pad,
        pad_pixel_code_length: bits,
        pad_pixel_code: code,
    }
}

#[test]
fn figure_n() {
    let (header, offsets) =
        mask_from_marks_vec(&exact(&[1]), &two_blocks(), &Widths::STANDARD).expect("marks for two blocks");
    assert_eq!((header, &offsets[..]), (mask(4, 0, 0, 0), &[0, EMPTY_BLOCK_OFFSET][..]));
    let mut table = exact(&[0xAA; 18]);
    assert_eq!(
        mask_write(&two_blocks(), &Widths::STANDARD, &header, &exact(&offsets), &exact(&[]), &mut table),
        Ok(18)
    );
    assert_eq!(*table, FIGURE_N);
    assert_eq!(
        mask_write_vec(&two_blocks(), &Widths::STANDARD, &header, &exact(&offsets), &exact(&[])),
        Ok(FIGURE_N.to_vec())
    );
}

#[test]
fn figure_n_parsed() {
    let header = ImageDataMask { image_data_offset: 18, ..mask(4, 0, 0, 0) };
    assert_eq!(mask_parse(&exact(&FIGURE_N), &two_blocks(), &Widths::STANDARD), Ok(Parsed { mask: header, used: 18 }));
    let longer = exact(&[&FIGURE_N[..], &[1, 2, 3]].concat());
    assert_eq!(mask_parse(&longer, &two_blocks(), &Widths::STANDARD), Ok(Parsed { mask: header, used: 18 }));
}

#[test]
fn figure_n_looked_up() {
    let (table, grid) = (exact(&FIGURE_N), two_blocks());
    assert_eq!(
        (has_block(&table, &grid, &Widths::STANDARD, 0, 0, 0), has_block(&table, &grid, &Widths::STANDARD, 0, 1, 0)),
        (Ok(true), Ok(false))
    );
    assert_eq!(get_block_offset(&table, &grid, &Widths::STANDARD, 0, 0, 0), Ok(Some(0)));
    assert_eq!(get_block_offset(&table, &grid, &Widths::STANDARD, 0, 1, 0), Ok(None));
}

#[test]
fn without_block_records_every_block_is_present() {
    let table = exact(&[0, 0, 0, 10, 0, 0, 0, 0, 0, 0]);
    for column in 0..2 {
        assert_eq!(has_block(&table, &two_blocks(), &Widths::STANDARD, 0, column, 0), Ok(true));
        assert_eq!(get_block_offset(&table, &two_blocks(), &Widths::STANDARD, 0, column, 0), Ok(None));
    }
}

#[test]
fn a_table_with_a_code_and_both_lists_comes_back() {
    let grid = Grid::new(1, 2, 3, 8, InterleaveMode::S, EdgeRule::Full, 1, 1);
    let (blocks, pads) = (exact(&[10, 20, 30, EMPTY_BLOCK_OFFSET, 50, 60]), exact(&[1, 2, 3, 4, 5, 6]));
    let header = mask(4, 4, 12, 0xABCD);
    let table = mask_write_vec(&grid, &Widths::STANDARD, &header, &blocks, &pads)
        .expect("an accepted table")
        .into_boxed_slice();
    assert_eq!((table.len(), &table[..16]), (60, &[0, 0, 0, 60, 0, 4, 0, 4, 0, 12, 0xAB, 0xCD, 0, 0, 0, 10][..]));
    let parsed = mask_parse(&table, &grid, &Widths::STANDARD);
    assert_eq!(parsed, Ok(Parsed { mask: ImageDataMask { image_data_offset: 60, ..header }, used: 60 }));
    // In S the record of a band of a block is the block's index + the band.
    let offsets = |column| [0, 1, 2].map(|band| get_block_offset(&table, &grid, &Widths::STANDARD, 0, column, band));
    assert_eq!(offsets(0), [Ok(Some(10)), Ok(Some(20)), Ok(Some(30))]);
    assert_eq!(offsets(1), [Ok(Some(20)), Ok(Some(30)), Ok(None)]);
    assert_eq!(
        [0, 1, 2].map(|band| has_block(&table, &grid, &Widths::STANDARD, 0, 1, band)),
        [Ok(true), Ok(true), Ok(false)]
    );
}

#[test]
fn codes_of_every_length_come_back() {
    for bits in 0..=32 {
        let header = mask(0, 0, bits, (1u64 << (8 * bits.div_ceil(8))).wrapping_sub(1) as u32);
        let table = mask_write_vec(&two_blocks(), &Widths::STANDARD, &header, &exact(&[]), &exact(&[]))
            .expect("an accepted table");
        assert_eq!(table.len(), 10 + bits.div_ceil(8) as usize);
        let header = ImageDataMask { image_data_offset: table.len() as u32, ..header };
        assert_eq!(
            mask_parse(&exact(&table), &two_blocks(), &Widths::STANDARD),
            Ok(Parsed { mask: header, used: table.len() })
        );
    }
}

#[test]
fn a_longer_output_keeps_its_rest() {
    let mut out = exact(&[0xAA; 12]);
    assert_eq!(
        mask_write(&two_blocks(), &Widths::STANDARD, &mask(0, 0, 0, 0), &exact(&[]), &exact(&[]), &mut out),
        Ok(10)
    );
    assert_eq!(*out, [0, 0, 0, 10, 0, 0, 0, 0, 0, 0, 0xAA, 0xAA]);
    let mut words = exact(&[7; 3]);
    assert_eq!(
        mask_from_marks(&exact(&[2]), &two_blocks(), &Widths::STANDARD, &mut words).map(|parsed| parsed.used),
        Ok(2)
    );
    assert_eq!(*words, [EMPTY_BLOCK_OFFSET, 0, 7]);
}

/// Tables and the numbers that parse gives for them.
fn refused_tables() -> Vec<(Box<[u8]>, u32)> {
    let changed = |place: usize, byte: u8| {
        let mut table = exact(&FIGURE_N);
        table[place] = byte;
        table
    };
    vec![
        (exact(&[]), 16),
        (exact(&FIGURE_N[..9]), 16),
        (changed(5, 3), 17),
        (changed(4, 1), 17),
        (changed(7, 1), 17),
        (changed(9, 33), 18),
        (changed(8, 1), 18),
        (exact(&FIGURE_N[..10]), 19),
        (exact(&FIGURE_N[..17]), 19),
        (changed(7, 4), 19),
        (changed(9, 8), 19),
    ]
}

#[test]
fn parse_and_lookup_refuse_tables() {
    for (table, number) in refused_tables() {
        let grid = two_blocks();
        assert_eq!(mask_parse(&table, &grid, &Widths::STANDARD).map_err(Refusal::number), Err(number));
        assert_eq!(has_block(&table, &grid, &Widths::STANDARD, 9, 9, 9).map_err(Refusal::number), Err(number));
        assert_eq!(get_block_offset(&table, &grid, &Widths::STANDARD, 9, 9, 9).map_err(Refusal::number), Err(number));
    }
}

#[test]
fn parse_and_lookup_refuse_grids() {
    for (grid, number) in refused_grids() {
        assert_eq!(mask_parse(&exact(&[]), &grid, &Widths::STANDARD).map_err(Refusal::number), Err(number));
        assert_eq!(has_block(&exact(&[]), &grid, &Widths::STANDARD, 0, 0, 0).map_err(Refusal::number), Err(number));
        assert_eq!(
            get_block_offset(&exact(&[]), &grid, &Widths::STANDARD, 0, 0, 0).map_err(Refusal::number),
            Err(number)
        );
    }
}

#[test]
fn lookup_refuses_blocks_and_bands() {
    let (table, grid) = (exact(&FIGURE_N), two_blocks());
    for (row, column, band, number) in
        [(1, 0, 9, 6), (0, 2, 9, 6), (u32::MAX, u32::MAX, 0, 6), (0, 0, 1, 8), (0, 1, u32::MAX, 8)]
    {
        assert_eq!(
            has_block(&table, &grid, &Widths::STANDARD, row, column, band).map_err(Refusal::number),
            Err(number)
        );
        assert_eq!(
            get_block_offset(&table, &grid, &Widths::STANDARD, row, column, band).map_err(Refusal::number),
            Err(number)
        );
    }
}

/// The number of a mask write, with an output that must be kept.
fn refused(grid: &Grid, header: ImageDataMask, blocks: usize, pads: usize, length: usize) -> u32 {
    let (blocks, pads) = (exact(&vec![1; blocks]), exact(&vec![2; pads]));
    let mut out = exact(&vec![0xAA; length]);
    let answer = mask_write(grid, &Widths::STANDARD, &header, &blocks, &pads, &mut out);
    assert!(out.iter().all(|&byte| byte == 0xAA));
    let number = answer.map_or_else(Refusal::number, |_| 0);
    if number != 9 {
        assert_eq!(
            mask_write_vec(grid, &Widths::STANDARD, &header, &blocks, &pads).map_err(Refusal::number),
            Err(number)
        );
    }
    number
}

#[test]
fn mask_write_refuses() {
    for (grid, number) in refused_grids() {
        assert_eq!(refused(&grid, mask(1, 1, 99, 1), 9, 9, 0), number);
    }
    let grid = two_blocks();
    assert_eq!(refused(&grid, mask(1, 0, 99, 1), 9, 9, 0), 17);
    assert_eq!(refused(&grid, mask(4, u16::MAX, 0, 0), 2, 0, 99), 17);
    assert_eq!(refused(&grid, mask(4, 0, 33, 1), 9, 9, 0), 18);
    assert_eq!(refused(&grid, mask(4, 0, u16::MAX, 1), 9, 9, 0), 18);
    assert_eq!(refused(&grid, mask(4, 0, 0, 1), 9, 9, 0), 20);
    assert_eq!(refused(&grid, mask(4, 0, 8, 256), 9, 9, 0), 20);
    assert_eq!(refused(&grid, mask(4, 0, 24, u32::MAX), 9, 9, 0), 20);
    for (blocks, pads) in [(0, 0), (1, 0), (3, 0), (2, 2)] {
        assert_eq!(refused(&grid, mask(4, 0, 0, 0), blocks, pads, 99), 22);
    }
    assert_eq!(refused(&grid, mask(4, 4, 0, 0), 2, 1, 99), 22);
    for length in [0, 9, 17] {
        assert_eq!(refused(&grid, mask(4, 0, 0, 0), 2, 0, length), 9);
    }
}

#[test]
fn a_table_that_would_be_too_large_is_refused() {
    // 9,999 by 9,999 blocks of one byte in 11 bands: 1,099,780,011 records of 4 bytes.
    let grid = Grid::new(9_999, 9_999, 11, 8, InterleaveMode::S, EdgeRule::Full, 1, 1);
    assert_eq!(refused(&grid, mask(4, 0, 0, 0), 0, 0, 0), 21);
    assert_eq!(refused(&Grid { bands: 10, ..grid }, mask(4, 0, 0, 0), 0, 0, 0), 22);
    assert_eq!(refused(&Grid { bands: 10, ..grid }, mask(4, 4, 0, 0), 0, 0, 0), 21);
    assert_eq!(refused(&grid, mask(0, 0, 0, 0), 0, 0, 0), 9);
}

#[test]
fn masks_from_marks() {
    let grid = Grid::new(1, 2, 3, 8, InterleaveMode::S, EdgeRule::Full, 1, 1);
    let empty = EMPTY_BLOCK_OFFSET;
    assert_eq!(
        mask_from_marks_vec(&exact(&[2]), &grid, &Widths::STANDARD),
        Ok((mask(4, 0, 0, 0), vec![empty, empty, empty, 0, 0, 0]))
    );
    let grid = Grid { imode: InterleaveMode::P, ..grid };
    assert_eq!(mask_from_marks_vec(&exact(&[2]), &grid, &Widths::STANDARD), Ok((mask(4, 0, 0, 0), vec![empty, 0])));
    let mut words = exact(&[7; 2]);
    let parsed = mask_from_marks(&exact(&[3]), &grid, &Widths::STANDARD, &mut words);
    assert_eq!((parsed, &words[..]), (Ok(Parsed { mask: mask(4, 0, 0, 0), used: 2 }), &[0, 0][..]));
}

#[test]
fn mask_from_marks_refuses() {
    let grid = two_blocks();
    let more = [(grid, 0, 0, 12), (grid, 1, 0, 9), (grid, 1, 1, 9)];
    for (grid, words, length, number) in
        refused_grids().map(|(grid, number)| (grid, 1, 9, number)).into_iter().chain(more)
    {
        let mut out = exact(&vec![7; length]);
        let answer = mask_from_marks(&exact(&vec![1; words]), &grid, &Widths::STANDARD, &mut out);
        assert_eq!(answer.map_err(Refusal::number), Err(number));
        assert!(out.iter().all(|&word| word == 7));
        if number != 9 {
            assert_eq!(
                mask_from_marks_vec(&exact(&vec![1; words]), &grid, &Widths::STANDARD).map_err(Refusal::number),
                Err(number)
            );
        }
    }
}
