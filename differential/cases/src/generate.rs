//! One case from a source of choices. The choice 0 is the simplest everywhere.

mod frame;
mod mask;
mod outside;
mod reorder;
mod subheader;
mod widths;

use crate::model::layout;
use crate::{Area, Case, Edges, Grid, Kind, Mode, Source, BLOCK_SIDE, WIDTHS};

/// How far a generator goes.
#[derive(Clone, Copy)]
pub struct Size {
    /// Most rows and columns of a picture, and of a block.
    pub picture: u64,
    pub block: u64,
    /// How many lengths, from 8,193 on, a side of the picture may have that is a block's too; 0 for no such side.
    pub long: u64,
    pub bands: u64,
    /// Most entries of a band list, and calls of a frame that are drawn one by one.
    pub list: u64,
    pub calls: u64,
    /// Most bytes of an image; a larger one gives no case.
    pub image: u64,
    pub lengths: Lengths,
    /// Also calls that are refused.
    pub refusals: bool,
    /// Data bytes are choices, so that an enumeration goes over all of them.
    pub every_byte: bool,
    /// Some cases are changed so that they may leave the compared domain.
    pub outside: bool,
    pub mode: Option<Mode>,
    pub width: Option<u32>,
    pub edges: Option<Edges>,
}

/// Lengths of the image that a read is handed.
#[derive(Clone, Copy, PartialEq)]
pub enum Lengths {
    /// The least that serves.
    Least,
    /// The least, the image's, one between them, or a longer one.
    Mixed,
    /// Any from 0 to one more than the image's.
    Any,
}

/// A case of a kind, or none if its image is above the size.
pub fn generate(kind: Kind, from: &mut Source, size: &Size) -> Option<Case> {
    let case = compared(kind, from, size)?;
    Some(if size.outside { outside::changed(case, from, size) } else { case })
}

fn compared(kind: Kind, from: &mut Source, size: &Size) -> Option<Case> {
    match kind {
        Kind::ToSequential => Some(reorder::sequential(from, size, true)),
        Kind::FromSequential => Some(reorder::sequential(from, size, false)),
        Kind::Select => Some(reorder::select(from, size)),
        Kind::Load => Some(widths::load(from, size)),
        _ => {
            let grid = under_rule(grid(from, size), from, size);
            if layout::image_bytes(&grid) > u128::from(size.image) {
                return None;
            }
            Some(on_grid(kind, grid, from, size))
        }
    }
}

fn on_grid(kind: Kind, grid: Grid, from: &mut Source, size: &Size) -> Case {
    match kind {
        Kind::Read => read(grid, from, size),
        Kind::Whole => whole(grid, from, size),
        Kind::Window => window(grid, from, size),
        Kind::Frame => frame::frame(grid, from, size),
        Kind::Parse => Case::Parse { grid, table: mask::table(&grid, from, size) },
        Kind::Rewrite => Case::Rewrite { grid, table: mask::table(&grid, from, size) },
        Kind::MaskWrite => mask::mask_write(grid, from),
        Kind::Lookup => mask::lookup(grid, from, size),
        Kind::ReadSubheader => subheader::read(grid, from),
        Kind::WriteSubheader => subheader::write(grid, from),
        _ => mask::from_marks(grid, from),
    }
}

fn grid(from: &mut Source, size: &Size) -> Grid {
    if size.long > 0 {
        return long_grid(from, size);
    }
    let picture = [1 + from.number(size.picture), 1 + from.number(size.picture)];
    let (bands, nbpp, mode) = samples(from, size);
    let block = [1 + from.number(size.block), 1 + from.number(size.block)];
    Grid::new(picture, bands, nbpp, mode, block)
}

/// The long side is across or down.
fn long_grid(from: &mut Source, size: &Size) -> Grid {
    let side = BLOCK_SIDE + 1 + from.number(size.long);
    let picture = 1 + from.number(size.picture);
    let (bands, nbpp, mode) = samples(from, size);
    let block = 1 + from.number(size.block);
    if from.below(2) == 0 {
        Grid::new([picture, side], bands, nbpp, mode, [block, side])
    } else {
        Grid::new([side, picture], bands, nbpp, mode, [side, block])
    }
}

/// Bands, NBPP and IMODE.
fn samples(from: &mut Source, size: &Size) -> (u32, u32, Mode) {
    let bands = 1 + from.number(size.bands);
    let nbpp = size.width.unwrap_or_else(|| WIDTHS[from.below(WIDTHS.len() as u64) as usize]);
    let mode = size.mode.unwrap_or_else(|| Mode::ALL[from.below(4) as usize]);
    (bands, nbpp, mode)
}

/// The grid under the edge rule of the size, or under any.
fn under_rule(grid: Grid, from: &mut Source, size: &Size) -> Grid {
    let edges = size.edges.unwrap_or_else(|| Edges::ALL[from.below(2) as usize]);
    Grid { edges, ..grid }
}

fn bytes(from: &mut Source, size: &Size, count: u64) -> Vec<u8> {
    if size.long > 0 {
        // Many bytes out of two choices, so that a case that shows a difference is soon made smaller.
        let mut data = Source::random(u64::from(from.byte()) * 256 + u64::from(from.byte()));
        return (0..count).map(|_| data.byte()).collect();
    }
    (0..count).map(|_| if size.every_byte { from.below(256) as u8 } else { from.byte() }).collect()
}

/// Bytes of samples that have no bit above NBPP.
fn fitting(grid: &Grid, from: &mut Source, size: &Size, count: u64) -> Vec<u8> {
    if size.every_byte {
        let values = |i| if i % layout::sample_bytes(grid) == 0 { grid.first_byte_values() } else { 256 };
        return (0..count).map(|i| from.below(values(i)) as u8).collect();
    }
    let mut data = bytes(from, size, count);
    grid.clear_higher_bits(&mut data);
    data
}

/// A number below `bound`; on a long side the first, the last, or one that an enumeration does not enumerate.
fn place(from: &mut Source, size: &Size, bound: u32) -> u32 {
    if size.long == 0 || u64::from(bound) <= size.picture {
        return from.number(u64::from(bound));
    }
    match from.below(3) {
        0 => 0,
        1 => bound - 1,
        _ => (u32::from(from.byte()) * 256 + u32::from(from.byte())) % bound,
    }
}

/// Yes once in `odds`, if refusals are wanted.
fn refusal(from: &mut Source, size: &Size, odds: u64) -> bool {
    size.refusals && from.below(odds) == odds - 1
}

/// No list, or one of bands that are not all different.
fn band_list(bands: u32, from: &mut Source, size: &Size) -> Option<Vec<u32>> {
    if size.list == 0 || from.below(2) == 0 {
        return None;
    }
    let count = 1 + from.below(size.list);
    let outside = refusal(from, size, 16).then(|| from.below(count));
    let list =
        (0..count).map(
            |i| {
                if outside == Some(i) {
                    bands + from.number(3)
                } else {
                    from.number(u64::from(bands.max(1)))
                }
            },
        );
    Some(list.collect())
}

/// A block of the grid, or one outside it.
fn block(grid: &Grid, from: &mut Source, size: &Size) -> (u32, u32) {
    let row = from.number(u64::from(grid.nbpc));
    let column = from.number(u64::from(grid.nbpr));
    if refusal(from, size, 24) {
        return (grid.nbpc + from.number(3), column);
    }
    if refusal(from, size, 24) {
        return (row, grid.nbpr + from.number(3));
    }
    (row, column)
}

/// Image bytes, of which `least` serve.
fn image(grid: &Grid, least: u64, from: &mut Source, size: &Size) -> Vec<u8> {
    let full = layout::image_bytes(grid) as u64;
    let least = least.min(full);
    let length = if size.lengths == Lengths::Any {
        from.below(full + 2)
    } else if refusal(from, size, 12) {
        least.saturating_sub(1 + from.below(least.max(1)))
    } else if size.lengths == Lengths::Least {
        least
    } else {
        match from.below(4) {
            0 => least,
            1 => full,
            2 => least + from.below(full - least + 1),
            _ => full + from.below(9),
        }
    };
    bytes(from, size, length)
}

fn inside(grid: &Grid, (row, column): (u32, u32)) -> bool {
    row < grid.nbpc && column < grid.nbpr
}

fn read(grid: Grid, from: &mut Source, size: &Size) -> Case {
    let (row, column) = block(&grid, from, size);
    let bands = band_list(grid.bands, from, size);
    let level = if refusal(from, size, 24) { 1 + from.number(3) } else { 0 };
    let least = if inside(&grid, (row, column)) { layout::block_end(&grid, row, column) } else { 0 };
    let image = image(&grid, least, from, size);
    Case::Read { grid, image, row, column, level, bands }
}

fn whole(grid: Grid, from: &mut Source, size: &Size) -> Case {
    let (row, column) = block(&grid, from, size);
    let end = (layout::block_index(&grid, row, column) + 1) * u64::from(grid.bands) * layout::band_bytes(&grid);
    Case::Whole { grid, image: image(&grid, end, from, size), row, column }
}

fn window(grid: Grid, from: &mut Source, size: &Size) -> Case {
    let top = place(from, size, grid.nrows);
    let left = place(from, size, grid.ncols);
    let rows = 1 + place(from, size, grid.nrows - top);
    let columns = 1 + place(from, size, grid.ncols - left);
    let bands = band_list(grid.bands, from, size);
    let last = ((top + rows - 1) / grid.nppbv, (left + columns - 1) / grid.nppbh);
    let least = layout::block_end(&grid, last.0, last.1);
    let image = image(&grid, least, from, size);
    Case::Window { grid, image, area: Area { top, left, rows, columns }, bands }
}
