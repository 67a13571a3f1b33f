//! Mask tables.

use super::{refusal, Size};
use crate::model::mask;
use crate::{Case, Grid, Header, Source};

/// A code of up to 32 bits in its bytes, with record lengths.
fn header(from: &mut Source) -> Header {
    let block_length = 4 * from.below(2) as u16;
    let pad_length = 4 * from.below(2) as u16;
    let code_bits = from.below(33) as u16;
    let code = (0..code_bits.div_ceil(8)).fold(0, |code, _| code * 256 + u32::from(from.byte()));
    Header { imdatoff: 0, block_length, pad_length, code_bits, code }
}

/// Records for a length: none, or offsets of which some are empty.
fn records(grid: &Grid, length: u16, from: &mut Source) -> Vec<u32> {
    let count = if length == 0 { 0 } else { mask::records(grid) };
    (0..count)
        .map(|_| match from.below(3) {
            0 => 0,
            1 => u32::MAX,
            _ => (0..4).fold(0, |word, _| word * 256 + u32::from(from.byte())),
        })
        .collect()
}

pub fn mask_write(grid: Grid, from: &mut Source) -> Case {
    let header = header(from);
    let blocks = records(&grid, header.block_length, from);
    let pads = records(&grid, header.pad_length, from);
    Case::MaskWrite { grid, header, blocks, pads }
}

/// A table, with bytes after it or cut short.
pub fn table(grid: &Grid, from: &mut Source, size: &Size) -> Vec<u8> {
    let header = header(from);
    let blocks = records(grid, header.block_length, from);
    let pads = records(grid, header.pad_length, from);
    let code = &header.code.to_be_bytes()[4 - usize::from(header.code_bits.div_ceil(8))..];
    let length = (10 + code.len() + 4 * (blocks.len() + pads.len())) as u32;
    let imdatoff = if from.below(2) == 0 { length } else { length + u32::from(from.byte()) };
    let mut table = imdatoff.to_be_bytes().to_vec();
    for field in [header.block_length, header.pad_length, header.code_bits] {
        table.extend(field.to_be_bytes());
    }
    table.extend(code);
    for word in blocks.iter().chain(&pads) {
        table.extend(word.to_be_bytes());
    }
    if refusal(from, size, 6) {
        table.truncate(from.below(table.len() as u64) as usize);
    } else {
        table.extend((0..from.below(4)).map(|_| 0xa5));
    }
    table
}

pub fn lookup(grid: Grid, from: &mut Source, size: &Size) -> Case {
    let row = from.number(u64::from(grid.nbpc));
    let column = from.number(u64::from(grid.nbpr));
    let band = from.number(u64::from(grid.bands));
    Case::Lookup { grid, table: table(&grid, from, size), row, column, band }
}

pub fn from_marks(grid: Grid, from: &mut Source) -> Case {
    let mut marks = vec![0; grid.blocks().div_ceil(64) as usize];
    for i in 0..grid.blocks() as usize {
        marks[i / 64] |= from.below(2) << (i % 64);
    }
    // A bit above the grid's marks.
    if !grid.blocks().is_multiple_of(64) {
        *marks.last_mut().expect("a block") |= from.below(2) << 63;
    }
    Case::FromMarks { grid, marks }
}
