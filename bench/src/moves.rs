//! Samples moved by memcpy, from where they lie to where they go: one call for each run that lies together on both
//! sides.

use std::hint::black_box;
use std::ops::Range;

use gezdunar::{Grid, InterleaveMode, Window};

use crate::blocks::sizes;
use crate::buffers::Output;
use crate::original::Block;
use crate::reorderings::Pack;

/// Bytes that lie side by side, and where they go.
pub struct Move {
    from: usize,
    to: usize,
    length: usize,
}

/// What memcpy does beside a row.
#[derive(Clone, Copy, PartialEq)]
pub enum Memcpy {
    /// Moves the same bytes, where the samples of a row lie side by side in whole bytes, and otherwise as many at once.
    Runs,
    /// Moves as many bytes at once.
    AtOnce,
}

impl Memcpy {
    /// Are the same bytes moved?
    pub fn is_by_runs(self, grid: &Grid) -> bool {
        self == Memcpy::Runs && grid.imode != InterleaveMode::P && grid.nbpp.is_multiple_of(8)
    }
}

/// So many bytes from the start of the source to the start of the output.
pub fn at_once(length: usize) -> Vec<Move> {
    vec![Move { from: 0, to: 0, length }]
}

/// In the order of the bytes that are read; those that follow each other on both sides are one.
fn joined(mut moves: Vec<Move>) -> Vec<Move> {
    moves.sort_by_key(|step| step.from);
    let mut runs: Vec<Move> = Vec::new();
    for next in moves {
        match runs.last_mut() {
            Some(run) if run.from + run.length == next.from && run.to + run.length == next.to => {
                run.length += next.length;
            }
            _ => runs.push(next),
        }
    }
    runs
}

/// The way back, in the same order.
pub fn back(moves: Vec<Move>) -> Vec<Move> {
    moves.into_iter().map(|Move { from, to, length }| Move { from: to, to: from, length }).collect()
}

pub fn apply(moves: &[Move], data: &[u8], out: &mut Output) {
    let (data, out) = (black_box(data), out.bytes());
    for &Move { from, to, length } in moves {
        out[to..to + length].copy_from_slice(&data[from..from + length]);
    }
    black_box(out);
}

/// Of `length` places from `start` on, those in part `i` of parts of `side`.
fn cut(start: u32, length: u32, side: u32, i: u32) -> Range<usize> {
    start.max(i * side) as usize..(start + length).min((i + 1) * side) as usize
}

/// The blocks that a window crosses.
pub fn crossed(grid: &Grid, window: &Window) -> Vec<Block> {
    let rows = window.row / grid.nppbv..=(window.row + window.rows - 1) / grid.nppbv;
    let columns = window.column / grid.nppbh..=(window.column + window.columns - 1) / grid.nppbh;
    rows.flat_map(|row| columns.clone().map(move |column| (row, column))).collect()
}

/// What a window has of a block, row by row, in a row band by band. `place` gives the byte at which a sample of the
/// block starts, from its band, row and column.
pub fn of_block(
    grid: &Grid,
    window: &Window,
    (row, column): Block,
    place: impl Fn(usize, usize, usize) -> usize,
) -> Vec<Move> {
    let size = sizes(grid).sample_bytes;
    let [top, left] = [row * grid.nppbv, column * grid.nppbh].map(|n| n as usize);
    let [first_row, first_column, rows, columns] =
        [window.row, window.column, window.rows, window.columns].map(|n| n as usize);
    let xs = cut(window.column, window.columns, grid.nppbh, column);
    let mut moves = Vec::new();
    for y in cut(window.row, window.rows, grid.nppbv, row) {
        for band in 0..grid.bands as usize {
            moves.push(Move {
                from: place(band, y - top, xs.start - left),
                to: ((band * rows + y - first_row) * columns + xs.start - first_column) * size,
                length: xs.len() * size,
            });
        }
    }
    moves
}

/// Where a sample of a block starts in what `decode_block` answers.
pub fn in_answer(grid: &Grid, (row, column): Block) -> impl Fn(usize, usize, usize) -> usize {
    let (shape, size) = (grid.block_shape(row, column), sizes(grid).sample_bytes);
    move |band, y, x| ((band * shape.rows + y) * shape.columns + x) * size
}

/// Where a sample of a block starts in the image, at byte multiples, in B, R and S.
fn in_image(grid: &Grid, (row, column): Block) -> impl Fn(usize, usize, usize) -> usize {
    let (mode, size, blocks) = (grid.imode, sizes(grid).sample_bytes, sizes(grid).blocks);
    let [bands, rows, columns, nbpr] = [grid.bands, grid.nppbv, grid.nppbh, grid.nbpr].map(|n| n as usize);
    let index = row as usize * nbpr + column as usize;
    move |band, y, x| {
        let line = match mode {
            InterleaveMode::S => (band * blocks + index) * rows + y,
            InterleaveMode::R => (index * rows + y) * bands + band,
            _ => (index * bands + band) * rows + y,
        };
        (line * columns + x) * size
    }
}

/// What a window has of the image, at byte multiples, in B, R and S.
pub fn of_image(grid: &Grid, window: &Window) -> Vec<Move> {
    let blocks = crossed(grid, window).into_iter();
    joined(blocks.flat_map(|block| of_block(grid, window, block, in_image(grid, block))).collect())
}

/// Rows in the order of R, to band order.
pub fn to_band_sequential(pack: &Pack) -> Vec<Move> {
    let [rows, columns, bands] = [pack.rows, pack.columns, pack.bands].map(|n| n as usize);
    let length = columns * pack.size;
    let row = |y| (0..bands).map(move |band| (y * bands + band, band * rows + y));
    let lines = (0..rows).flat_map(row);
    lines.map(|(from, to)| Move { from: from * length, to: to * length, length }).collect()
}
