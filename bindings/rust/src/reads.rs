//! Reading blocks and windows.

use crate::boundary;
use crate::refusal::accepted;
use crate::vectors::filled;
use crate::{Bands, Grid, Refusal, Shape, Widths};

/// A rectangle of the picture.
#[derive(Debug, Clone, Copy, PartialEq, Eq, Hash)]
pub struct Window {
    /// The first row.
    pub row: u32,
    /// The first column.
    pub column: u32,
    /// How many rows.
    pub rows: u32,
    /// How many columns.
    pub columns: u32,
}

fn shape(answer: boundary::Shape) -> Result<Shape, Refusal> {
    accepted(answer.number)?;
    Ok(Shape { bands: answer.bands, rows: answer.rows, columns: answer.columns })
}

/// Reads a block's samples inside the picture into the front of `out`: the bands asked for, band by band, row by row.
/// `resolution_level` must be 0. Numbers: 1 to 9.
///
/// ```
/// # fn main() -> Result<(), gezdunar::Refusal> {
/// use gezdunar::{decode_block, Bands, EdgeRule, Grid, InterleaveMode, Shape, Widths};
/// // 2 rows by 2 columns, 2 bands, one block.
/// let grid = Grid::new(2, 2, 2, 8, InterleaveMode::P, EdgeRule::Full, 2, 2);
/// let mut out = [0; 4];
/// let (widths, bands) = (Widths::STANDARD, Bands::Listed(&[1]));
/// let shape = decode_block(&[1, 5, 2, 6, 3, 7, 4, 8], &grid, &widths, 0, 0, 0, bands, &mut out)?;
/// assert_eq!((shape, out), (Shape { bands: 1, rows: 2, columns: 2 }, [5, 6, 7, 8]));
/// # Ok(())
/// # }
/// ```
#[allow(clippy::too_many_arguments)]
pub fn decode_block(
    image: &[u8],
    grid: &Grid,
    widths: &Widths,
    block_row: u32,
    block_col: u32,
    resolution_level: u32,
    bands: Bands<'_>,
    out: &mut [u8],
) -> Result<Shape, Refusal> {
    shape(boundary::decode_block(image, grid, widths, block_row, block_col, resolution_level, bands, out))
}

/// [`decode_block`] into a vector of exact size.
///
/// ```
/// # fn main() -> Result<(), gezdunar::Refusal> {
/// use gezdunar::{decode_block_vec, Bands, EdgeRule, Grid, InterleaveMode, Widths};
/// let grid = Grid::new(2, 2, 2, 8, InterleaveMode::P, EdgeRule::Full, 2, 2);
/// let (shape, samples) = decode_block_vec(&[1, 5, 2, 6, 3, 7, 4, 8], &grid, &Widths::STANDARD, 0, 0, 0, Bands::All)?;
/// assert_eq!((shape.bands, samples), (2, vec![1, 2, 3, 4, 5, 6, 7, 8]));
/// # Ok(())
/// # }
/// ```
pub fn decode_block_vec(
    image: &[u8],
    grid: &Grid,
    widths: &Widths,
    block_row: u32,
    block_col: u32,
    resolution_level: u32,
    bands: Bands<'_>,
) -> Result<(Shape, Vec<u8>), Refusal> {
    let shape = Shape { bands: bands.count(grid.bands), ..grid.block_shape(block_row, block_col) };
    filled(shape.bytes(grid.sizes(widths)?.sample_bytes), |out| {
        decode_block(image, grid, widths, block_row, block_col, resolution_level, bands, out)
    })
}

/// The bytes of a whole nominal block, as a part of the image, in B, P and R; an empty part in S.
/// Numbers: 1 to 4, 6, 7.
///
/// ```
/// # fn main() -> Result<(), gezdunar::Refusal> {
/// use gezdunar::{whole_block, EdgeRule, Grid, InterleaveMode, Widths};
/// // 2 rows by 3 columns in blocks of 2 by 2: the second block holds one column of the picture.
/// let grid = Grid::new(2, 3, 1, 8, InterleaveMode::B, EdgeRule::Full, 2, 2);
/// assert_eq!(whole_block(&[1, 2, 4, 5, 3, 0, 6, 0], &grid, &Widths::STANDARD, 0, 1)?, [3, 0, 6, 0]);
/// # Ok(())
/// # }
/// ```
pub fn whole_block<'a>(
    image: &'a [u8],
    grid: &Grid,
    widths: &Widths,
    block_row: u32,
    block_col: u32,
) -> Result<&'a [u8], Refusal> {
    let place = boundary::whole_block(image, grid, widths, block_row, block_col);
    accepted(place.number)?;
    image.get(place.start..place.start.saturating_add(place.length)).ok_or(Refusal::ImageEnds)
}

/// Reads a rectangle of the picture, across blocks, into the front of `out`, as [`decode_block`] reads a block.
/// Numbers: 1 to 4, 7 to 10.
///
/// ```
/// # fn main() -> Result<(), gezdunar::Refusal> {
/// use gezdunar::{read_window, Bands, EdgeRule, Grid, InterleaveMode, Window, Widths};
/// let grid = Grid::new(2, 3, 1, 8, InterleaveMode::B, EdgeRule::Full, 2, 2);
/// let window = Window { row: 1, column: 1, rows: 1, columns: 2 };
/// let mut out = [0; 2];
/// read_window(&[1, 2, 4, 5, 3, 0, 6, 0], &grid, &Widths::STANDARD, window, Bands::All, &mut out)?;
/// assert_eq!(out, [5, 6]);
/// # Ok(())
/// # }
/// ```
pub fn read_window(
    image: &[u8],
    grid: &Grid,
    widths: &Widths,
    window: Window,
    bands: Bands<'_>,
    out: &mut [u8],
) -> Result<Shape, Refusal> {
    shape(boundary::read_window(image, grid, widths, window, bands, out))
}

/// [`read_window`] into a vector of exact size.
///
/// ```
/// # fn main() -> Result<(), gezdunar::Refusal> {
/// use gezdunar::{read_window_vec, Bands, EdgeRule, Grid, InterleaveMode, Shape, Window, Widths};
/// let grid = Grid::new(2, 3, 1, 8, InterleaveMode::B, EdgeRule::Full, 2, 2);
/// let window = Window { row: 0, column: 1, rows: 2, columns: 2 };
/// let (shape, samples) = read_window_vec(&[1, 2, 4, 5, 3, 0, 6, 0], &grid, &Widths::STANDARD, window, Bands::All)?;
/// assert_eq!((shape, samples), (Shape { bands: 1, rows: 2, columns: 2 }, vec![2, 3, 5, 6]));
/// # Ok(())
/// # }
/// ```
pub fn read_window_vec(
    image: &[u8],
    grid: &Grid,
    widths: &Widths,
    window: Window,
    bands: Bands<'_>,
) -> Result<(Shape, Vec<u8>), Refusal> {
    let shape = Shape { bands: bands.count(grid.bands), rows: window.rows as usize, columns: window.columns as usize };
    filled(shape.bytes(grid.sizes(widths)?.sample_bytes), |out| read_window(image, grid, widths, window, bands, out))
}
