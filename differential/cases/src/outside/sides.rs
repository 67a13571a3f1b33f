//! Sides of a block above 8,192: the picture's own, and others.

use super::{pairs, short_calls};
use crate::{Area, Case, Edges, Grid, Mode};

/// A picture's side and a block's with the count of blocks, and one count more.
fn side() -> Vec<(u32, u32, u32)> {
    let lengths = [1_u32, 8_191, 8_192, 8_193, 8_194, 9_000];
    pairs(lengths.into_iter(), lengths.into_iter())
        .flat_map(|(picture, block)| {
            let blocks = picture.div_ceil(block);
            [(picture, block, blocks), (picture, block, blocks + 1)]
        })
        .collect()
}

/// Every two sides: a block side is the picture's own, the picture's other one, or neither. Every call asks question 1.
pub fn calls() -> impl Iterator<Item = Case> {
    pairs(side().into_iter(), side().into_iter()).flat_map(|((nrows, nppbv, nbpc), (ncols, nppbh, nbpr))| {
        let (bands, nbpp, mode, edges) = (1, 1, Mode::B, Edges::Tight);
        short_calls(Grid { nrows, ncols, bands, nbpp, mode, edges, nppbh, nppbv, nbpr, nbpc })
    })
}

/// Windows of the first sample, the last, the last two, and one too far. The longest sides are too much for the
/// original.
pub fn windows() -> impl Iterator<Item = Case> {
    let pictures = [[1, 99_999_999], [99_999_999, 1], [8_193, 8_193], [1, 8_193], [8_193, 1]];
    pairs(Mode::ALL.into_iter(), pictures.into_iter()).flat_map(|(mode, [rows, columns])| {
        let grid = Grid::new([rows, columns], 1, 1, mode, [rows, columns]);
        let last = Area { top: rows - 1, left: columns - 1, rows: 1, columns: 1 };
        let areas = [
            Area { top: 0, left: 0, ..last },
            last,
            Area { top: rows.saturating_sub(2), rows: rows.min(2), ..last },
            Area { left: columns.saturating_sub(2), columns: columns.min(2), ..last },
            Area { rows: 2, ..last },
            Area { columns: 2, ..last },
        ];
        areas.into_iter().map(move |area| {
            let length = (u64::from(rows) * u64::from(columns)).div_ceil(8);
            let image = (0..length).map(|i| (i * 167) as u8).collect();
            Case::Window { grid, image, area, bands: None }
        })
    })
}
