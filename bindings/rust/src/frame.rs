//! A frame that owns its image and its marks.

use crate::vectors::zeros;
use crate::{encode_block, finalize, progress, relay, skip_block, start, Grid, Refusal, Shape, Widths};

/// An image that is being written, its marks, its grid and the width table that each of its calls is handed.
///
/// ```
/// # fn main() -> Result<(), gezdunar::Refusal> {
/// use gezdunar::{EdgeRule, Frame, Grid, InterleaveMode, Refusal, Widths};
/// let grid = Grid::new(1, 2, 1, 8, InterleaveMode::B, EdgeRule::Full, 1, 1);
/// let mut frame = Frame::new(grid, Widths::STANDARD)?;
/// frame.encode_block(0, 0, grid.block_shape(0, 0), &[9])?;
/// assert_eq!(frame.progress()?, 1);
/// assert_eq!(frame.finalize(), Err(Refusal::UnmarkedBlock { row: 0, column: 1 }));
/// frame.skip_block(0, 1)?;
/// frame.finalize()?;
/// assert_eq!(frame.into_image(), [9, 0]);
/// # Ok(())
/// # }
/// ```
#[derive(Debug, Clone, PartialEq, Eq)]
pub struct Frame {
    grid: Grid,
    widths: Widths,
    image: Vec<u8>,
    marks: Vec<u64>,
}

impl Frame {
    /// Starts a frame: an image of zeros, with no block marked. Numbers: 1 to 4; 11 or 12 where there is no memory for
    /// the image or the marks.
    ///
    /// ```
    /// use gezdunar::{EdgeRule, Frame, Grid, InterleaveMode, Widths};
    /// assert!(Frame::new(Grid::new(1, 2, 1, 8, InterleaveMode::B, EdgeRule::Full, 1, 1), Widths::STANDARD).is_ok());
    /// ```
    pub fn new(grid: Grid, widths: Widths) -> Result<Frame, Refusal> {
        let sizes = grid.sizes(&widths)?;
        let mut image = zeros(sizes.image_bytes, Refusal::ImageTooShort)?;
        let mut marks = zeros(sizes.mark_words, Refusal::MarksTooShort)?;
        start(&mut image, &mut marks, &grid, &widths)?;
        Ok(Frame { grid, widths, image, marks })
    }

    /// Stores the samples of a block and marks it, as the function [`encode_block`] does. Numbers: 6, 13, 14, 26.
    ///
    /// ```
    /// # fn main() -> Result<(), gezdunar::Refusal> {
    /// # use gezdunar::{EdgeRule, Frame, Grid, InterleaveMode, Widths};
    /// let mut frame = Frame::new(Grid::new(1, 2, 1, 8, InterleaveMode::B, EdgeRule::Full, 1, 1), Widths::STANDARD)?;
    /// frame.encode_block(0, 1, frame.grid().block_shape(0, 1), &[9])?;
    /// assert_eq!(frame.image(), [0, 9]);
    /// # Ok(())
    /// # }
    /// ```
    pub fn encode_block(&mut self, block_row: u32, block_col: u32, shape: Shape, data: &[u8]) -> Result<(), Refusal> {
        encode_block(&mut self.image, &mut self.marks, &self.grid, &self.widths, block_row, block_col, shape, data)
    }

    /// Marks a block and keeps its bytes. Number: 6.
    ///
    /// ```
    /// # fn main() -> Result<(), gezdunar::Refusal> {
    /// # use gezdunar::{EdgeRule, Frame, Grid, InterleaveMode, Widths};
    /// let mut frame = Frame::new(Grid::new(1, 2, 1, 8, InterleaveMode::B, EdgeRule::Full, 1, 1), Widths::STANDARD)?;
    /// frame.skip_block(0, 1)?;
    /// assert_eq!(frame.marks(), [2]);
    /// # Ok(())
    /// # }
    /// ```
    pub fn skip_block(&mut self, block_row: u32, block_col: u32) -> Result<(), Refusal> {
        skip_block(&self.image, &mut self.marks, &self.grid, &self.widths, block_row, block_col)
    }

    /// How many blocks are marked.
    ///
    /// ```
    /// # fn main() -> Result<(), gezdunar::Refusal> {
    /// # use gezdunar::{EdgeRule, Frame, Grid, InterleaveMode, Widths};
    /// let mut frame = Frame::new(Grid::new(1, 2, 1, 8, InterleaveMode::B, EdgeRule::Full, 1, 1), Widths::STANDARD)?;
    /// frame.skip_block(0, 0)?;
    /// assert_eq!(frame.progress()?, 1);
    /// # Ok(())
    /// # }
    /// ```
    pub fn progress(&self) -> Result<usize, Refusal> {
        progress(&self.marks, &self.grid, &self.widths)
    }

    /// Is every block marked? It changes nothing, so that more blocks may follow. Number: 15.
    ///
    /// ```
    /// # fn main() -> Result<(), gezdunar::Refusal> {
    /// # use gezdunar::{EdgeRule, Frame, Grid, InterleaveMode, Refusal, Widths};
    /// let frame = Frame::new(Grid::new(1, 2, 1, 8, InterleaveMode::B, EdgeRule::Full, 1, 1), Widths::STANDARD)?;
    /// assert_eq!(frame.finalize(), Err(Refusal::UnmarkedBlock { row: 0, column: 0 }));
    /// # Ok(())
    /// # }
    /// ```
    pub fn finalize(&self) -> Result<(), Refusal> {
        finalize(&self.image, &self.marks, &self.grid, &self.widths)
    }

    /// Lays every block anew, from tight edge blocks to full ones, and goes on under the full edge rule, as the function
    /// [`relay`] does. Samples and marks stay, and the frame's grid is then the one with full. Numbers: 27; 9 where there
    /// is no memory for a block's bytes.
    ///
    /// ```
    /// # fn main() -> Result<(), gezdunar::Refusal> {
    /// # use gezdunar::{EdgeRule, Frame, Grid, InterleaveMode, Widths};
    /// let mut frame = Frame::new(Grid::new(2, 3, 1, 4, InterleaveMode::B, EdgeRule::Tight, 2, 2), Widths::STANDARD)?;
    /// frame.encode_block(0, 1, frame.grid().block_shape(0, 1), &[5, 9])?;
    /// assert_eq!(frame.image(), [0, 0, 0x59, 0x00]);
    /// frame.relay()?;
    /// assert_eq!(frame.grid().edges, EdgeRule::Full);
    /// assert_eq!(frame.image(), [0, 0, 0x50, 0x90]);
    /// # Ok(())
    /// # }
    /// ```
    pub fn relay(&mut self) -> Result<(), Refusal> {
        let mut scratch = zeros(self.grid.sizes(&self.widths)?.block_bytes, Refusal::OutputTooShort)?;
        self.grid = relay(&mut self.image, &self.marks, &self.grid, &self.widths, &mut scratch)?;
        Ok(())
    }

    /// The grid.
    pub fn grid(&self) -> &Grid {
        &self.grid
    }

    /// The width table.
    pub fn widths(&self) -> &Widths {
        &self.widths
    }

    /// The image's bytes.
    pub fn image(&self) -> &[u8] {
        &self.image
    }

    /// The mark words.
    pub fn marks(&self) -> &[u64] {
        &self.marks
    }

    /// The image's bytes, handed over.
    pub fn into_image(self) -> Vec<u8> {
        self.image
    }
}
