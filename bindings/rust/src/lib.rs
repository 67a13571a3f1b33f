//! Uncompressed NITF 2.1 image blocks: safe calls over the proved library that `tools/build_archive` builds.
//!
//! A picture is described by a [`Grid`]. [`ImageSubheader`] reads it from three parts of an image subheader, and writes
//! it there. What such parts do not tell is the [`EdgeRule`], which must be known where the bits of a sample are no
//! multiple of 8. Every call with a grid is handed a table of [`Widths`]: [`Widths::STANDARD`], or one that a site
//! loaded to bar widths that its displays can't show. A picture's blocks are written into an image with a [`Frame`], or
//! into lent buffers with [`start`], [`encode_block`], [`skip_block`], [`progress`] and [`finalize`]; [`relay`] changes
//! the edge rule on the way. They are read with [`decode_block`], [`whole_block`] and [`read_window`]. Samples outside
//! the image stand band by band, row by row, each in its big-endian bytes.
//!
//! A call that fills a lent output has a second form, named with `_vec` at its end, that returns a vector of exact size
//! instead. Every call asks its questions before it writes: a refused one answers a [`Refusal`] and writes nothing. A
//! buffer may be longer than needed; the rest of it is kept.
//!
//! ```
//! use gezdunar::{read_window_vec, Bands, EdgeRule, Frame, Grid, InterleaveMode, Widths, Window};
//!
//! # fn main() -> Result<(), gezdunar::Refusal> {
//! // 2 rows by 3 columns, one band of 8 bits, in blocks of 2 by 2; the edge rule is the standard's.
//! let grid = Grid::new(2, 3, 1, 8, InterleaveMode::B, EdgeRule::Full, 2, 2);
//! let widths = Widths::STANDARD;
//! let mut frame = Frame::new(grid, widths)?;
//! frame.encode_block(0, 0, grid.block_shape(0, 0), &[1, 2, 4, 5])?;
//! frame.encode_block(0, 1, grid.block_shape(0, 1), &[3, 6])?;
//! frame.finalize()?;
//!
//! let whole = Window { row: 0, column: 0, rows: 2, columns: 3 };
//! let (shape, samples) = read_window_vec(frame.image(), &grid, &widths, whole, Bands::All)?;
//! assert_eq!((shape.bands, shape.rows, shape.columns), (1, 2, 3));
//! assert_eq!(samples, [1, 2, 3, 4, 5, 6]);
//! # Ok(())
//! # }
//! ```

#![deny(missing_docs)]
#![deny(unsafe_code)]

mod bands;
#[allow(unsafe_code)]
mod boundary;
mod edges;
mod frame;
mod grid;
mod mask;
mod mode;
mod named;
mod reads;
mod refusal;
mod reorderings;
mod subheader;
mod vectors;
mod widths;
mod writes;

pub use bands::Bands;
pub use edges::EdgeRule;
pub use frame::Frame;
pub use grid::{Grid, Shape, Sizes};
pub use mask::{
    get_block_offset, has_block, mask_from_marks, mask_from_marks_vec, mask_parse, mask_write, mask_write_vec,
    ImageDataMask, Parsed, EMPTY_BLOCK_OFFSET,
};
pub use mode::InterleaveMode;
pub use named::{ImageCompression, PixelJustification, PixelValueType};
pub use reads::{decode_block, decode_block_vec, read_window, read_window_vec, whole_block, Window};
pub use refusal::Refusal;
pub use reorderings::{
    from_band_sequential, from_band_sequential_vec, fused_bip_to_bsq, fused_bip_to_bsq_vec, to_band_sequential,
    to_band_sequential_vec, Reordered,
};
pub use subheader::{ImageSubheader, SubheaderParts};
pub use widths::Widths;
pub use writes::{encode_block, finalize, progress, relay, skip_block, start};
