//! Writing blocks into a lent image, with lent mark words: block i is bit i mod 64 of word i / 64.

use crate::boundary;
use crate::refusal::accepted;
use crate::{Grid, Refusal, Shape, Widths};

/// Starts a frame: clears the image and the words that hold the grid's marks. Numbers: 1 to 4, 11, 12.
///
/// ```
/// # fn main() -> Result<(), gezdunar::Refusal> {
/// use gezdunar::{start, EdgeRule, Grid, InterleaveMode, Widths};
/// let grid = Grid::new(1, 2, 1, 8, InterleaveMode::B, EdgeRule::Full, 1, 1);
/// let (mut image, mut marks) = ([7; 2], [7; 1]);
/// start(&mut image, &mut marks, &grid, &Widths::STANDARD)?;
/// assert_eq!((image, marks), ([0; 2], [0; 1]));
/// # Ok(())
/// # }
/// ```
pub fn start(image: &mut [u8], marks: &mut [u64], grid: &Grid, widths: &Widths) -> Result<(), Refusal> {
    accepted(boundary::start(image, marks, grid, widths).number)
}

/// Stores the samples of a block, which stand in `data` band by band, row by row, and marks the block. A sample is at
/// most 2^NBPP - 1: one with a bit above NBPP is refused with [`Refusal::SampleBits`], and no sample of the block is
/// stored. A read or a window then gives what was written, bit for bit. Numbers: 1 to 4, 6, 11 to 14, 26.
///
/// ```
/// # fn main() -> Result<(), gezdunar::Refusal> {
/// use gezdunar::{encode_block, EdgeRule, Grid, InterleaveMode, Refusal, Widths};
/// let grid = Grid::new(1, 2, 1, 8, InterleaveMode::B, EdgeRule::Full, 1, 1);
/// let (mut image, mut marks) = ([0; 2], [0; 1]);
/// encode_block(&mut image, &mut marks, &grid, &Widths::STANDARD, 0, 1, grid.block_shape(0, 1), &[9])?;
/// assert_eq!((image, marks), ([0, 9], [2]));
///
/// // Samples of 12 bits, in two bytes each: the largest is 0FFF.
/// let grid = Grid { nbpp: 12, ..grid };
/// let (mut image, mut marks) = ([0; 4], [0; 1]);
/// let shape = grid.block_shape(0, 1);
/// let too_large = encode_block(&mut image, &mut marks, &grid, &Widths::STANDARD, 0, 1, shape, &[0x10, 0x00]);
/// assert_eq!((too_large, image, marks), (Err(Refusal::SampleBits), [0; 4], [0]));
/// encode_block(&mut image, &mut marks, &grid, &Widths::STANDARD, 0, 1, shape, &[0x0F, 0xFF])?;
/// assert_eq!((image, marks), ([0, 0, 0xFF, 0xF0], [2]));
/// # Ok(())
/// # }
/// ```
#[allow(clippy::too_many_arguments)]
pub fn encode_block(
    image: &mut [u8],
    marks: &mut [u64],
    grid: &Grid,
    widths: &Widths,
    block_row: u32,
    block_col: u32,
    shape: Shape,
    data: &[u8],
) -> Result<(), Refusal> {
    accepted(boundary::encode_block(image, marks, grid, widths, block_row, block_col, shape, data).number)
}

/// Marks a block and keeps its bytes. Of the image only the length is looked at. Numbers: 1 to 4, 6, 11, 12.
///
/// ```
/// # fn main() -> Result<(), gezdunar::Refusal> {
/// use gezdunar::{skip_block, EdgeRule, Grid, InterleaveMode, Widths};
/// let grid = Grid::new(1, 2, 1, 8, InterleaveMode::B, EdgeRule::Full, 1, 1);
/// let mut marks = [0; 1];
/// skip_block(&[0; 2], &mut marks, &grid, &Widths::STANDARD, 0, 0)?;
/// assert_eq!(marks, [1]);
/// # Ok(())
/// # }
/// ```
pub fn skip_block(
    image: &[u8],
    marks: &mut [u64],
    grid: &Grid,
    widths: &Widths,
    block_row: u32,
    block_col: u32,
) -> Result<(), Refusal> {
    accepted(boundary::skip_block(image, marks, grid, widths, block_row, block_col).number)
}

/// How many blocks are marked. Numbers: 1 to 4, 12.
///
/// ```
/// # fn main() -> Result<(), gezdunar::Refusal> {
/// use gezdunar::{progress, EdgeRule, Grid, InterleaveMode, Widths};
/// let grid = Grid::new(1, 2, 1, 8, InterleaveMode::B, EdgeRule::Full, 1, 1);
/// assert_eq!(progress(&[2], &grid, &Widths::STANDARD)?, 1);
/// # Ok(())
/// # }
/// ```
pub fn progress(marks: &[u64], grid: &Grid, widths: &Widths) -> Result<usize, Refusal> {
    let answer = boundary::progress(marks, grid, widths);
    accepted(answer.number)?;
    Ok(answer.first)
}

/// Is every block marked? Else [`Refusal::UnmarkedBlock`] names the first that is not, by rows, then columns.
/// Numbers: 1 to 4, 11, 12, 15.
///
/// ```
/// use gezdunar::{finalize, EdgeRule, Grid, InterleaveMode, Refusal, Widths};
/// let grid = Grid::new(1, 2, 1, 8, InterleaveMode::B, EdgeRule::Full, 1, 1);
/// assert_eq!(finalize(&[0; 2], &[3], &grid, &Widths::STANDARD), Ok(()));
/// assert_eq!(finalize(&[0; 2], &[1], &grid, &Widths::STANDARD), Err(Refusal::UnmarkedBlock { row: 0, column: 1 }));
/// ```
pub fn finalize(image: &[u8], marks: &[u64], grid: &Grid, widths: &Widths) -> Result<(), Refusal> {
    let answer = boundary::finalize(image, marks, grid, widths);
    accepted(answer.number).map_err(|refusal| match refusal {
        Refusal::UnmarkedBlock { .. } => {
            Refusal::UnmarkedBlock { row: index(answer.first), column: index(answer.second) }
        }
        other => other,
    })
}

/// Lays every block of a frame anew, marked or not, from tight edge blocks to full ones: a frame in progress goes on
/// under the other edge rule. Samples keep their values, and no mark changes. The answer is the grid that is in force
/// now; hand it to every later call. Of the marks only the length is looked at. The scratch has a block's bytes at least
/// ([`Sizes::block_bytes`](crate::Sizes::block_bytes), in S too); those end as zeros. Numbers: 1 to 4, 9, 11, 12, 27.
///
/// ```
/// # fn main() -> Result<(), gezdunar::Refusal> {
/// use gezdunar::{relay, EdgeRule, Grid, InterleaveMode, Refusal, Widths};
/// // 2 rows by 3 columns of 4 bits, in blocks of 2 by 2: block (0, 1) has one column in the picture.
/// let tight = Grid::new(2, 3, 1, 4, InterleaveMode::B, EdgeRule::Tight, 2, 2);
/// let (mut image, marks, mut scratch) = ([0, 0, 0x59, 0x00], [2], [7; 2]);
/// let full = relay(&mut image, &marks, &tight, &Widths::STANDARD, &mut scratch)?;
/// assert_eq!(full, Grid { edges: EdgeRule::Full, ..tight });
/// assert_eq!((image, scratch), ([0, 0, 0x50, 0x90], [0; 2]));
/// assert_eq!(relay(&mut image, &marks, &full, &Widths::STANDARD, &mut scratch), Err(Refusal::AlreadyFull));
/// # Ok(())
/// # }
/// ```
pub fn relay(
    image: &mut [u8],
    marks: &[u64],
    grid: &Grid,
    widths: &Widths,
    scratch: &mut [u8],
) -> Result<Grid, Refusal> {
    let answer = boundary::relay(image, marks, grid, widths, scratch);
    accepted(answer.number)?;
    Ok(answer.grid)
}

/// A block's row or column, which is below 9,999.
fn index(number: usize) -> u32 {
    u32::try_from(number).unwrap_or(u32::MAX)
}
