//! Block read, whole block and window.

use super::{bits, layout, questions};
use crate::{Area, Grid, Mode, Widths};

/// The bands asked for, in order.
fn chosen(bands: u32, list: Option<&[u32]>) -> Vec<u32> {
    list.map_or_else(|| (0..bands).collect(), <[u32]>::to_vec)
}

/// Questions 8 and 9 for an answer of `pixels` samples a band.
fn list_and_output(g: &Grid, list: Option<&[u32]>, pixels: u64, out: &[u8]) -> u8 {
    if !questions::bands_inside(g.bands, list) {
        return 8;
    }
    let count = list.map_or(u128::from(g.bands), |list| list.len() as u128);
    if (out.len() as u128) < count * u128::from(pixels) * u128::from(layout::sample_bytes(g)) {
        return 9;
    }
    0
}

/// Puts a sample into lent data as the one with ordinal `at`.
fn put_sample(g: &Grid, out: &mut [u8], at: u64, value: u64) {
    let s = layout::sample_bytes(g);
    bits::put(out, at * s * 8, s * 8, value);
}

/// The number, and the shape of the answer.
pub fn block(
    g: &Grid,
    widths: &Widths,
    image: &[u8],
    (row, column): (u32, u32),
    level: u32,
    list: Option<&[u32]>,
    out: &mut [u8],
) -> (u8, [u64; 3]) {
    let number = block_number(g, widths, image, (row, column), level, list, out);
    if number != 0 {
        return (number, [0; 3]);
    }
    let (rows, columns) = (layout::actual_rows(g, row), layout::actual_columns(g, column));
    let bands = chosen(g.bands, list);
    let mut at = 0;
    for &b in &bands {
        for r in 0..rows {
            for c in 0..columns {
                let start = layout::sample_bit(g, (row, column), u64::from(b), r, c);
                put_sample(g, out, at, bits::get(image, start, u64::from(g.nbpp)));
                at += 1;
            }
        }
    }
    (0, [bands.len() as u64, rows, columns])
}

fn block_number(
    g: &Grid,
    widths: &Widths,
    image: &[u8],
    (row, column): (u32, u32),
    level: u32,
    list: Option<&[u32]>,
    out: &[u8],
) -> u8 {
    let number = questions::grid(g, widths);
    if number != 0 {
        return number;
    }
    if level != 0 {
        return 5;
    }
    if !questions::block_inside(g, row, column) {
        return 6;
    }
    if (image.len() as u64) < layout::block_end(g, row, column) {
        return 7;
    }
    let pixels = layout::actual_rows(g, row) * layout::actual_columns(g, column);
    list_and_output(g, list, pixels, out)
}

/// The number, and the part of the image.
pub fn whole<'a>(g: &Grid, widths: &Widths, image: &'a [u8], (row, column): (u32, u32)) -> (u8, &'a [u8]) {
    let number = questions::grid(g, widths);
    if number != 0 {
        return (number, &[]);
    }
    if !questions::block_inside(g, row, column) {
        return (6, &[]);
    }
    if g.mode == Mode::S {
        return (0, &[]);
    }
    let start = layout::block_start(g, row, column);
    let end = start + u64::from(g.bands) * layout::band_bytes(g);
    if (image.len() as u64) < end {
        return (7, &[]);
    }
    (0, &image[start as usize..end as usize])
}

pub fn window(g: &Grid, widths: &Widths, image: &[u8], area: Area, list: Option<&[u32]>, out: &mut [u8]) -> u8 {
    let number = window_number(g, widths, image, area, list, out);
    if number != 0 {
        return number;
    }
    let mut at = 0;
    for b in chosen(g.bands, list) {
        for y in area.top..area.top + area.rows {
            for x in area.left..area.left + area.columns {
                let block = (y / g.nppbv, x / g.nppbh);
                let (r, c) = (u64::from(y % g.nppbv), u64::from(x % g.nppbh));
                let start = layout::sample_bit(g, block, u64::from(b), r, c);
                put_sample(g, out, at, bits::get(image, start, u64::from(g.nbpp)));
                at += 1;
            }
        }
    }
    0
}

fn window_number(g: &Grid, widths: &Widths, image: &[u8], area: Area, list: Option<&[u32]>, out: &[u8]) -> u8 {
    let number = questions::grid(g, widths);
    if number != 0 {
        return number;
    }
    let [top, left, rows, columns] = [area.top, area.left, area.rows, area.columns].map(u64::from);
    if rows == 0 || columns == 0 || top + rows > u64::from(g.nrows) || left + columns > u64::from(g.ncols) {
        return 10;
    }
    for row in area.top / g.nppbv..=(area.top + area.rows - 1) / g.nppbv {
        for column in area.left / g.nppbh..=(area.left + area.columns - 1) / g.nppbh {
            if (image.len() as u64) < layout::block_end(g, row, column) {
                return 7;
            }
        }
    }
    list_and_output(g, list, rows * columns, out)
}
