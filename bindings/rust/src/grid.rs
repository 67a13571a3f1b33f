//! The grid record and its sizes.

use crate::boundary;
use crate::refusal::accepted;
use crate::{EdgeRule, InterleaveMode, Refusal, Widths};

/// A picture in blocks. The fields have the names of MIL-STD-2500C, but for `bands`, its NBANDS or XBANDS. It crosses
/// the C boundary as it is: the header's struct `gezdunar_grid`.
#[repr(C)]
#[derive(Debug, Clone, Copy, PartialEq, Eq, Hash)]
pub struct Grid {
    /// Rows of the picture.
    pub nrows: u32,
    /// Columns of the picture.
    pub ncols: u32,
    /// Bands of the picture.
    pub bands: u32,
    /// Bits of a sample.
    pub nbpp: u32,
    /// The order of the samples.
    pub imode: InterleaveMode,
    /// How the samples of edge blocks lie where NBPP is no multiple of 8.
    pub edges: EdgeRule,
    /// Columns of a block: at most 8,192, or all of the picture.
    pub nppbh: u32,
    /// Rows of a block: at most 8,192, or all of the picture.
    pub nppbv: u32,
    /// Blocks across.
    pub nbpr: u32,
    /// Blocks down.
    pub nbpc: u32,
}

/// Sizes that follow from a grid.
#[derive(Debug, Clone, Copy, PartialEq, Eq, Hash)]
pub struct Sizes {
    /// Bytes of a sample outside the image.
    pub sample_bytes: usize,
    /// Bytes of one band of a block.
    pub band_bytes: usize,
    /// Bytes of a block.
    pub block_bytes: usize,
    /// Bytes of the image.
    pub image_bytes: usize,
    /// Blocks of the picture.
    pub blocks: usize,
    /// 64-bit words that hold the marks.
    pub mark_words: usize,
}

/// Counts of bands, rows and columns of samples outside the image.
#[derive(Debug, Clone, Copy, PartialEq, Eq, Hash)]
pub struct Shape {
    /// Bands.
    pub bands: usize,
    /// Rows of each band.
    pub rows: usize,
    /// Columns of each row.
    pub columns: usize,
}

/// A block's rows or columns inside the picture.
fn actual(picture: u32, block: u32, index: u32) -> usize {
    picture.saturating_sub(index.saturating_mul(block)).min(block) as usize
}

impl Grid {
    /// A picture in blocks of `nppbv` rows and `nppbh` columns. NBPR and NBPC follow by rounding up; a block side of 0
    /// gives 0 blocks. Nothing is refused here, see [`check`](Grid::check). The edge rule has no default; at multiples
    /// of 8 bits either will do.
    ///
    /// ```
    /// use gezdunar::{EdgeRule, Grid, InterleaveMode};
    /// let grid = Grid::new(3, 5, 2, 8, InterleaveMode::B, EdgeRule::Full, 4, 2);
    /// assert_eq!((grid.nbpr, grid.nbpc), (2, 2));
    /// ```
    #[allow(clippy::too_many_arguments)]
    pub fn new(
        nrows: u32,
        ncols: u32,
        bands: u32,
        nbpp: u32,
        imode: InterleaveMode,
        edges: EdgeRule,
        nppbh: u32,
        nppbv: u32,
    ) -> Grid {
        boundary::grid(nrows, ncols, bands, nbpp, imode, edges, nppbv, nppbh)
    }

    /// Questions 1 to 4, the second with a width table. Numbers: 1 to 4.
    ///
    /// ```
    /// use gezdunar::{EdgeRule, Grid, InterleaveMode, Refusal, Widths};
    /// let grid = Grid::new(3, 5, 2, 8, InterleaveMode::B, EdgeRule::Full, 4, 2);
    /// assert_eq!(grid.check(&Widths::STANDARD), Ok(()));
    /// assert_eq!(Grid { nbpr: 1, ..grid }.check(&Widths::STANDARD), Err(Refusal::BlockCounts));
    /// ```
    pub fn check(&self, widths: &Widths) -> Result<(), Refusal> {
        accepted(boundary::grid_check(self, widths))
    }

    /// The sizes of an accepted grid. Numbers: 1 to 4.
    ///
    /// ```
    /// # fn main() -> Result<(), gezdunar::Refusal> {
    /// use gezdunar::{EdgeRule, Grid, InterleaveMode, Widths};
    /// let grid = Grid::new(3, 5, 2, 8, InterleaveMode::B, EdgeRule::Full, 4, 2);
    /// let sizes = grid.sizes(&Widths::STANDARD)?;
    /// assert_eq!((sizes.sample_bytes, sizes.band_bytes, sizes.block_bytes, sizes.image_bytes), (1, 8, 16, 64));
    /// assert_eq!((sizes.blocks, sizes.mark_words), (4, 1));
    /// # Ok(())
    /// # }
    /// ```
    pub fn sizes(&self, widths: &Widths) -> Result<Sizes, Refusal> {
        let answer = boundary::grid_sizes(self, widths);
        accepted(answer.number)?;
        Ok(Sizes {
            sample_bytes: answer.sample_bytes,
            band_bytes: answer.band_bytes,
            block_bytes: answer.block_bytes,
            image_bytes: answer.image_bytes,
            blocks: answer.blocks,
            mark_words: answer.mark_words,
        })
    }

    /// The rows inside the picture of the blocks in a row of blocks; 0 outside the picture.
    ///
    /// ```
    /// use gezdunar::{EdgeRule, Grid, InterleaveMode};
    /// let grid = Grid::new(3, 5, 2, 8, InterleaveMode::B, EdgeRule::Full, 4, 2);
    /// assert_eq!((grid.actual_rows(0), grid.actual_rows(1), grid.actual_rows(2)), (2, 1, 0));
    /// ```
    pub fn actual_rows(&self, block_row: u32) -> usize {
        actual(self.nrows, self.nppbv, block_row)
    }

    /// The columns inside the picture of the blocks in a column of blocks; 0 outside the picture.
    ///
    /// ```
    /// use gezdunar::{EdgeRule, Grid, InterleaveMode};
    /// let grid = Grid::new(3, 5, 2, 8, InterleaveMode::B, EdgeRule::Full, 4, 2);
    /// assert_eq!((grid.actual_columns(0), grid.actual_columns(1), grid.actual_columns(2)), (4, 1, 0));
    /// ```
    pub fn actual_columns(&self, block_col: u32) -> usize {
        actual(self.ncols, self.nppbh, block_col)
    }

    /// The shape of a block's samples: bands, actual rows, actual columns.
    ///
    /// ```
    /// use gezdunar::{EdgeRule, Grid, InterleaveMode, Shape};
    /// let grid = Grid::new(3, 5, 2, 8, InterleaveMode::B, EdgeRule::Full, 4, 2);
    /// assert_eq!(grid.block_shape(0, 1), Shape { bands: 2, rows: 2, columns: 1 });
    /// ```
    pub fn block_shape(&self, block_row: u32, block_col: u32) -> Shape {
        Shape { bands: self.bands as usize, rows: self.actual_rows(block_row), columns: self.actual_columns(block_col) }
    }
}

impl Shape {
    /// How many bytes samples of this shape take at `sample_bytes` each; `usize::MAX` where that is more.
    ///
    /// ```
    /// assert_eq!(gezdunar::Shape { bands: 2, rows: 3, columns: 4 }.bytes(2), 48);
    /// ```
    pub fn bytes(&self, sample_bytes: usize) -> usize {
        self.bands.saturating_mul(self.rows).saturating_mul(self.columns).saturating_mul(sample_bytes)
    }
}
