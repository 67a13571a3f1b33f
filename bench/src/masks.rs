//! Rows of the mask table: parse and lookup. The original looks up in what it parsed, the product in the table's bytes,
//! with every question of a lookup at each call.

use std::hint::black_box;

use gezdunar::{EdgeRule, Grid, InterleaveMode, Widths, EMPTY_BLOCK_OFFSET};
use original::owned_buffer::OwnedBuffer;

use crate::buffers::{copy, source_of, Output};
use crate::measure::{best, release, Side};
use crate::original::{imode, ImageDataMask};
use crate::report::Times;

/// 100,000 blocks.
pub fn grid() -> Grid {
    Grid::new(250 * 16, 400 * 16, 1, 8, InterleaveMode::B, EdgeRule::Tight, 16, 16)
}

/// Every seventh block is empty.
fn offset(block: u32) -> u32 {
    if block % 7 == 6 {
        EMPTY_BLOCK_OFFSET
    } else {
        block * 256
    }
}

fn table(grid: &Grid) -> OwnedBuffer {
    let offsets: Vec<u32> = (0..grid.nbpr * grid.nbpc).map(offset).collect();
    let mask = gezdunar::ImageDataMask { block_mask_record_length: 4, ..Default::default() };
    source_of(&gezdunar::mask_write_vec(grid, &Widths::STANDARD, &mask, &offsets, &[]).expect("one offset a record"))
}

/// The original's mask and the count of bytes used.
fn parse_original(table: &[u8], grid: &Grid) -> (ImageDataMask, usize) {
    ImageDataMask::parse(table, grid.nbpr * grid.nbpc, grid.bands, imode(grid.imode)).expect("a whole table")
}

pub fn parse() -> Times {
    let grid = grid();
    let table = table(&grid);
    let mut copied = Output::new(table.len());
    let of_product =
        || gezdunar::mask_parse(black_box(table.as_bytes()), &grid, &Widths::STANDARD).expect("a whole table");
    let of_rust = || parse_original(black_box(table.as_bytes()), &grid);

    let (mask, used) = of_rust();
    let parsed = of_product();
    assert_eq!((parsed.used, parsed.mask.image_data_offset), (used, mask.image_data_offset));
    assert_eq!(mask.block_offsets.len(), 100_000);

    Times::new(best([
        Side::Call(&mut || release(of_rust())),
        Side::Call(&mut || release(of_product())),
        Side::Call(&mut || copy(table.as_bytes(), &mut copied)),
    ]))
}

/// The sum of a lookup's answers over every block.
fn every_block(grid: &Grid, lookup: impl Fn(u32, u32) -> u64) -> u64 {
    let blocks = (0..grid.nbpc).flat_map(|row| (0..grid.nbpr).map(move |column| (row, column)));
    blocks.map(|(row, column)| lookup(row, column)).sum()
}

fn looked_up(grid: &Grid, original: impl Fn(u32, u32) -> u64, product: impl Fn(u32, u32) -> u64) -> Times {
    assert_eq!(every_block(grid, &original), every_block(grid, &product), "the answers differ");
    let [rust, product] = best([
        Side::Call(&mut || release(every_block(grid, &original))),
        Side::Call(&mut || release(every_block(grid, &product))),
    ]);
    Times { rust: Some(rust), product, memcpy: None }
}

pub fn has_block() -> Times {
    let grid = grid();
    let table = table(&grid);
    let bytes = table.as_bytes();
    let (mask, _) = parse_original(bytes, &grid);
    looked_up(
        &grid,
        |row, column| u64::from(black_box(&mask).has_block(row, column, grid.nbpr, 0, imode(grid.imode))),
        |row, column| {
            let present = gezdunar::has_block(black_box(bytes), &grid, &Widths::STANDARD, row, column, 0);
            u64::from(present.expect("a block of the grid"))
        },
    )
}

pub fn get_block_offset() -> Times {
    let grid = grid();
    let table = table(&grid);
    let bytes = table.as_bytes();
    let (mask, _) = parse_original(bytes, &grid);
    looked_up(
        &grid,
        |row, column| black_box(&mask).get_block_offset(row, column, grid.nbpr, 0, imode(grid.imode)).unwrap_or(1),
        |row, column| {
            let offset = gezdunar::get_block_offset(black_box(bytes), &grid, &Widths::STANDARD, row, column, 0);
            offset.expect("a block of the grid").map_or(1, u64::from)
        },
    )
}
