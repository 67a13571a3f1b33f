//! Where a sample lies. All but `block_bytes` and `image_bytes` take a grid that passes questions 1 to 4.

use crate::{Edges, Grid, Mode};

/// s: the bytes of a sample in lent data.
pub fn sample_bytes(g: &Grid) -> u64 {
    u64::from(g.nbpp).div_ceil(8)
}

/// t: the bytes that a band of a block takes.
pub fn band_bytes(g: &Grid) -> u64 {
    (u64::from(g.nppbh) * u64::from(g.nppbv) * u64::from(g.nbpp)).div_ceil(8)
}

/// Bytes of a block in B, P and R. Takes any grid.
pub fn block_bytes(g: &Grid) -> u128 {
    let [nppbh, nppbv, nbpp] = [g.nppbh, g.nppbv, g.nbpp].map(u128::from);
    let t = (nppbh * nppbv).saturating_mul(nbpp).div_ceil(8);
    u128::from(g.bands).saturating_mul(t)
}

/// Takes any grid.
pub fn image_bytes(g: &Grid) -> u128 {
    u128::from(g.blocks()).saturating_mul(block_bytes(g))
}

pub fn block_index(g: &Grid, row: u32, column: u32) -> u64 {
    u64::from(row) * u64::from(g.nbpr) + u64::from(column)
}

/// The rows of a block that are inside the picture.
pub fn actual_rows(g: &Grid, row: u32) -> u64 {
    let first = u64::from(row) * u64::from(g.nppbv);
    (u64::from(g.nrows) - first).min(u64::from(g.nppbv))
}

/// The columns of a block that are inside the picture.
pub fn actual_columns(g: &Grid, column: u32) -> u64 {
    let first = u64::from(column) * u64::from(g.nppbh);
    (u64::from(g.ncols) - first).min(u64::from(g.nppbh))
}

pub fn byte_multiple(g: &Grid) -> bool {
    g.nbpp.is_multiple_of(8)
}

/// The byte at which a block starts in B, P and R.
pub fn block_start(g: &Grid, row: u32, column: u32) -> u64 {
    block_index(g, row, column) * u64::from(g.bands) * band_bytes(g)
}

/// The byte at which run i of a block starts, for widths that are no byte multiple.
pub fn run_start(g: &Grid, row: u32, column: u32, i: u64) -> u64 {
    let (index, t) = (block_index(g, row, column), band_bytes(g));
    match g.mode {
        Mode::S => (i * g.blocks() + index) * t,
        _ => index * u64::from(g.bands) * t + i * t,
    }
}

/// The bit of the image at which sample (b, r, c) of a block starts.
pub fn sample_bit(g: &Grid, (row, column): (u32, u32), b: u64, r: u64, c: u64) -> u64 {
    let bands = u64::from(g.bands);
    if byte_multiple(g) {
        let (nppbh, nppbv) = (u64::from(g.nppbh), u64::from(g.nppbv));
        let (s, t) = (sample_bytes(g), band_bytes(g));
        let byte = match g.mode {
            Mode::B => block_start(g, row, column) + ((b * nppbv + r) * nppbh + c) * s,
            Mode::P => block_start(g, row, column) + ((r * nppbh + c) * bands + b) * s,
            Mode::R => block_start(g, row, column) + ((r * bands + b) * nppbh + c) * s,
            Mode::S => (b * g.blocks() + block_index(g, row, column)) * t + (r * nppbh + c) * s,
        };
        return byte * 8;
    }
    let (rows, columns) = match g.edges {
        Edges::Tight => (actual_rows(g, row), actual_columns(g, column)),
        Edges::Full => (u64::from(g.nppbv), u64::from(g.nppbh)),
    };
    let place = match g.mode {
        Mode::B | Mode::S => (b * rows + r) * columns + c,
        Mode::P => (r * columns + c) * bands + b,
        Mode::R => (r * bands + b) * columns + c,
    };
    let (run, in_run) = (place / (rows * columns), place % (rows * columns));
    run_start(g, row, column, run) * 8 + in_run * u64::from(g.nbpp)
}

/// The byte that question 7 asks for: the end of the block's last actual sample, or for widths that
/// are no byte multiple the end of its last run.
pub fn block_end(g: &Grid, row: u32, column: u32) -> u64 {
    let last = u64::from(g.bands) - 1;
    if byte_multiple(g) {
        let (r, c) = (actual_rows(g, row) - 1, actual_columns(g, column) - 1);
        sample_bit(g, (row, column), last, r, c) / 8 + sample_bytes(g)
    } else {
        run_start(g, row, column, last) + band_bytes(g)
    }
}
