//! Start, write, skip, progress, finish and re-lay, on a lent image and lent mark words.

use super::{bits, layout, questions};
use crate::{Edges, Grid, Widths};

fn marked(marks: &[u64], i: u64) -> bool {
    marks[(i / 64) as usize] >> (i % 64) & 1 == 1
}

fn set_mark(marks: &mut [u64], i: u64) {
    marks[(i / 64) as usize] |= 1 << (i % 64);
}

/// Questions 1 to 4, 11 and 12.
fn buffers(g: &Grid, widths: &Widths, image: &[u8], marks: &[u64]) -> u8 {
    let number = questions::grid(g, widths);
    if number != 0 {
        return number;
    }
    if !questions::holds_image(g, image) {
        return 11;
    }
    if !questions::holds_marks(g, marks) {
        return 12;
    }
    0
}

pub fn start(g: &Grid, widths: &Widths, image: &mut [u8], marks: &mut [u64]) -> u8 {
    let number = buffers(g, widths, image, marks);
    if number == 0 {
        image[..layout::image_bytes(g) as usize].fill(0);
        marks[..questions::mark_words(g) as usize].fill(0);
    }
    number
}

/// Question 26: has no sample a bit above NBPP?
fn samples_fit(g: &Grid, data: &[u8]) -> bool {
    let (s, nbpp) = (layout::sample_bytes(g), u64::from(g.nbpp));
    (0..data.len() as u64 / s).all(|i| bits::get(data, i * s * 8, s * 8 - nbpp) == 0)
}

/// The questions of a write.
fn write_number(
    g: &Grid,
    widths: &Widths,
    (image, marks): (&[u8], &[u64]),
    (row, column): (u32, u32),
    shape: [u32; 3],
    data: &[u8],
) -> u8 {
    let number = buffers(g, widths, image, marks);
    if number != 0 {
        return number;
    }
    if !questions::block_inside(g, row, column) {
        return 6;
    }
    let block = [u64::from(g.bands), layout::actual_rows(g, row), layout::actual_columns(g, column)];
    if shape.map(u64::from) != block {
        return 13;
    }
    if data.len() as u64 != block.into_iter().product::<u64>() * layout::sample_bytes(g) {
        return 14;
    }
    if !samples_fit(g, data) {
        return 26;
    }
    0
}

pub fn write(
    g: &Grid,
    widths: &Widths,
    image: &mut [u8],
    marks: &mut [u64],
    (row, column): (u32, u32),
    shape: [u32; 3],
    data: &[u8],
) -> u8 {
    let number = write_number(g, widths, (image, marks), (row, column), shape, data);
    if number != 0 {
        return number;
    }
    let ([bands, rows, columns], s) = (shape.map(u64::from), layout::sample_bytes(g));
    if !layout::byte_multiple(g) {
        for i in 0..bands {
            let start = layout::run_start(g, row, column, i) as usize;
            image[start..start + layout::band_bytes(g) as usize].fill(0);
        }
    }
    let mut at = 0;
    for b in 0..bands {
        for r in 0..rows {
            for c in 0..columns {
                let value = bits::get(data, at * s * 8, s * 8);
                let start = layout::sample_bit(g, (row, column), b, r, c);
                bits::put(image, start, u64::from(g.nbpp), value);
                at += 1;
            }
        }
    }
    set_mark(marks, layout::block_index(g, row, column));
    0
}

pub fn skip(g: &Grid, widths: &Widths, image: &[u8], marks: &mut [u64], (row, column): (u32, u32)) -> u8 {
    let number = buffers(g, widths, image, marks);
    if number != 0 {
        return number;
    }
    if !questions::block_inside(g, row, column) {
        return 6;
    }
    set_mark(marks, layout::block_index(g, row, column));
    0
}

/// The number, and the count of marked blocks.
pub fn progress(g: &Grid, widths: &Widths, marks: &[u64]) -> (u8, u64) {
    let number = questions::grid(g, widths);
    if number != 0 {
        return (number, 0);
    }
    if !questions::holds_marks(g, marks) {
        return (12, 0);
    }
    (0, (0..g.blocks()).filter(|&i| marked(marks, i)).count() as u64)
}

/// The number, and for 15 the block's row and column.
pub fn finish(g: &Grid, widths: &Widths, image: &[u8], marks: &[u64]) -> (u8, u32, u32) {
    let number = buffers(g, widths, image, marks);
    if number != 0 {
        return (number, 0, 0);
    }
    let missing = g.every_block().find(|&(row, column)| !marked(marks, layout::block_index(g, row, column)));
    missing.map_or((0, 0, 0), |(row, column)| (15, row, column))
}

/// The number, and the grid in force after it. Of another width than a byte multiple the whole image is cleared, and
/// every sample of the picture put where full has it.
pub fn relay(g: &Grid, widths: &Widths, image: &mut [u8], marks: &[u64], scratch: &mut [u8]) -> (u8, Grid) {
    let number = buffers(g, widths, image, marks);
    if number != 0 {
        return (number, *g);
    }
    if g.edges == Edges::Full {
        return (27, *g);
    }
    let Some(scratch) = scratch.get_mut(..layout::block_bytes(g) as usize) else {
        return (9, *g);
    };
    let full = Grid { edges: Edges::Full, ..*g };
    if !layout::byte_multiple(g) {
        let before = image.to_vec();
        image[..layout::image_bytes(g) as usize].fill(0);
        for block in g.every_block() {
            every_sample(g, block, |b, r, c| {
                let value = bits::get(&before, layout::sample_bit(g, block, b, r, c), u64::from(g.nbpp));
                bits::put(image, layout::sample_bit(&full, block, b, r, c), u64::from(g.nbpp), value);
            });
        }
    }
    scratch.fill(0);
    (0, full)
}

/// Each band, row and column of a block.
fn every_sample(g: &Grid, (row, column): (u32, u32), mut each: impl FnMut(u64, u64, u64)) {
    for b in 0..u64::from(g.bands) {
        for r in 0..layout::actual_rows(g, row) {
            for c in 0..layout::actual_columns(g, column) {
                each(b, r, c);
            }
        }
    }
}
