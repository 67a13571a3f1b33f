//! Frames: a start and the calls after it.

use super::{block, fitting, inside, refusal, Size};
use crate::model::layout;
use crate::{Call, Case, Grid, Source};

pub fn frame(grid: Grid, from: &mut Source, size: &Size) -> Case {
    let mut calls = Vec::new();
    // None, all blocks in order, or all blocks from the last to the first with some skipped.
    let before = from.below(3);
    let mut blocks: Vec<(u32, u32)> = grid.every_block().collect();
    if before == 2 {
        blocks.reverse();
    }
    for (row, column) in blocks {
        if before == 2 && from.below(2) == 1 {
            calls.push(Call::Skip { row, column });
        } else if before > 0 {
            calls.push(write(&grid, (row, column), from, size));
        }
    }
    for _ in 0..from.below(size.calls + 1) {
        calls.push(call(&grid, from, size));
    }
    Case::Frame { grid, calls }
}

fn call(grid: &Grid, from: &mut Source, size: &Size) -> Call {
    match from.below(4) {
        0 => {
            let place = block(grid, from, size);
            write(grid, place, from, size)
        }
        1 => {
            let (row, column) = block(grid, from, size);
            Call::Skip { row, column }
        }
        2 => Call::Progress,
        _ => Call::Finish,
    }
}

fn write(grid: &Grid, (row, column): (u32, u32), from: &mut Source, size: &Size) -> Call {
    let (rows, columns) = if inside(grid, (row, column)) {
        (layout::actual_rows(grid, row) as u32, layout::actual_columns(grid, column) as u32)
    } else {
        (grid.nppbv, grid.nppbh)
    };
    let mut shape = [grid.bands, rows, columns];
    if refusal(from, size, 24) {
        let side = from.below(4) as usize;
        if side == 3 {
            shape.swap(1, 2);
        } else if from.below(2) == 0 {
            shape[side] += 1;
        } else {
            shape[side] -= 1;
        }
    }
    let exact: u64 = shape.iter().map(|&n| u64::from(n)).product::<u64>() * layout::sample_bytes(grid);
    let length = if refusal(from, size, 24) { (exact + from.below(4)).saturating_sub(2) } else { exact };
    let mut data = fitting(grid, from, size, length);
    if size.outside && refusal(from, size, 8) {
        higher_bit(grid, from, &mut data);
    }
    Call::Write { row, column, shape, data }
}

/// Sets a bit above NBPP, where there is one: in the first sample, the last or any, the lowest such bit or any.
fn higher_bit(grid: &Grid, from: &mut Source, data: &mut [u8]) {
    let size = layout::sample_bytes(grid);
    let (samples, bits) = (data.len() as u64 / size, size * 8 - u64::from(grid.nbpp));
    if samples == 0 || bits == 0 {
        return;
    }
    let sample = match from.below(3) {
        0 => 0,
        1 => samples - 1,
        _ => from.below(samples),
    };
    let bit = if from.below(2) == 0 { 0 } else { from.below(bits) };
    data[(sample * size) as usize] |= 1 << (u64::from(grid.nbpp) % 8 + bit);
}
