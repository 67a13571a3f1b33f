//! What the tests share: buffers of exact size, document 01's picture, refused grids, a plain picture and a subheader.
#![allow(dead_code)]

pub mod expected;

use gezdunar::{
    EdgeRule, Grid, ImageCompression, ImageSubheader, InterleaveMode, PixelJustification, PixelValueType, Shape,
};

/// The widths that question 2 takes.
pub const WIDTHS: [u32; 29] =
    [1, 2, 3, 4, 5, 6, 7, 8, 9, 10, 11, 12, 13, 14, 15, 16, 24, 25, 26, 27, 28, 29, 30, 31, 32, 40, 48, 56, 64];

/// Each mode with each edge rule.
pub fn modes_and_rules() -> impl Iterator<Item = (InterleaveMode, EdgeRule)> {
    InterleaveMode::ALL.into_iter().flat_map(|imode| EdgeRule::ALL.map(|edges| (imode, edges)))
}

/// A copy in an allocation of exact size, to be lent: an access beside it is seen. An empty one has no bytes at all.
pub fn exact<T: Clone>(values: &[T]) -> Box<[T]> {
    values.to_vec().into_boxed_slice()
}

/// Bytes 0, 1, 2 and so on.
pub fn counting(length: usize) -> Box<[u8]> {
    (0..length).map(|i| i as u8).collect()
}

/// Document 01's picture: 3 rows by 5 columns, blocks of 2 rows by 4 columns, 2 bands, NBPP 8.
pub fn small(imode: InterleaveMode) -> Grid {
    Grid::new(3, 5, 2, 8, imode, EdgeRule::Full, 4, 2)
}

/// A grid for each number of questions 1 to 4.
pub fn refused_grids() -> [(Grid, u32); 4] {
    let grid = small(InterleaveMode::P);
    [
        (Grid { bands: 0, ..grid }, 1),
        (Grid { nbpp: 17, ..grid }, 2),
        (Grid { nbpr: 1, ..grid }, 3),
        (Grid::new(99_999, 99_999, 1, 8, InterleaveMode::P, EdgeRule::Full, 8192, 8192), 4),
    ]
}

/// A subheader of a grid.
pub fn subheader(grid: Grid) -> ImageSubheader {
    ImageSubheader {
        pvtype: PixelValueType::UnsignedInt,
        irep: *b"MULTI   ",
        icat: *b"MS      ",
        abpp: 8,
        pjust: PixelJustification::Right,
        ic: ImageCompression::NC,
        grid,
    }
}

pub fn shape(bands: usize, rows: usize, columns: usize) -> Shape {
    Shape { bands, rows, columns }
}

/// The sample of a plain picture at a band, row and column: some number of NBPP bits.
pub fn sample(grid: &Grid, band: usize, row: usize, column: usize) -> u64 {
    let place = (band * grid.nrows as usize + row) * grid.ncols as usize + column + 1;
    let mixed = (place as u64).wrapping_mul(0x9E37_79B9_7F4A_7C15);
    (mixed ^ (mixed >> 29)) >> (64 - grid.nbpp)
}

/// The big-endian bytes of a rectangle of the plain picture, of these bands.
pub fn samples(grid: &Grid, bands: &[u32], row: usize, column: usize, rows: usize, columns: usize) -> Box<[u8]> {
    let bytes = grid.nbpp.div_ceil(8) as usize;
    let mut out = Vec::new();
    for &band in bands {
        for place in 0..rows * columns {
            let number = sample(grid, band as usize, row + place / columns, column + place % columns);
            out.extend_from_slice(&number.to_be_bytes()[8 - bytes..]);
        }
    }
    out.into_boxed_slice()
}

/// The big-endian bytes of so many samples that are all the largest of NBPP bits.
pub fn largest(grid: &Grid, count: usize) -> Box<[u8]> {
    let bytes = grid.nbpp.div_ceil(8) as usize;
    (u64::MAX >> (64 - grid.nbpp)).to_be_bytes()[8 - bytes..].repeat(count).into_boxed_slice()
}

/// The bytes of a block of the plain picture, of these bands.
pub fn block_samples(grid: &Grid, bands: &[u32], block_row: u32, block_col: u32) -> Box<[u8]> {
    let (row, column) = (block_row * grid.nppbv, block_col * grid.nppbh);
    let (rows, columns) = (grid.actual_rows(block_row), grid.actual_columns(block_col));
    samples(grid, bands, row as usize, column as usize, rows, columns)
}

/// The blocks of a grid, by rows, then columns.
pub fn blocks(grid: &Grid) -> Vec<(u32, u32)> {
    (0..grid.nbpc).flat_map(|row| (0..grid.nbpr).map(move |column| (row, column))).collect()
}
