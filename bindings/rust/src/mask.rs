//! The image data mask table.

use crate::boundary;
use crate::refusal::accepted;
use crate::vectors::filled;
use crate::{Grid, InterleaveMode, Refusal, Widths};

/// The offset that marks an empty block.
pub const EMPTY_BLOCK_OFFSET: u32 = 0xFFFF_FFFF;

/// The header of an image data mask table.
#[derive(Debug, Clone, Copy, PartialEq, Eq, Hash, Default)]
#[repr(C)]
pub struct ImageDataMask {
    /// IMDATOFF: bytes from the table's start to the first block.
    pub image_data_offset: u32,
    /// BMRLNTH: bytes of a block record, 0 or 4.
    pub block_mask_record_length: u16,
    /// TMRLNTH: bytes of a pad record, 0 or 4.
    pub pad_pixel_mask_record_length: u16,
    /// TPXCDLNTH: bits of the pad code.
    pub pad_pixel_code_length: u16,
    /// TPXCD: the pad code.
    pub pad_pixel_code: u32,
}

/// A table's header and how much the call took or filled.
#[derive(Debug, Clone, Copy, PartialEq, Eq, Hash)]
pub struct Parsed {
    /// The header.
    pub mask: ImageDataMask,
    /// From [`mask_parse`], bytes of the table; from [`mask_from_marks`], words of the output.
    pub used: usize,
}

fn parsed(answer: boundary::Parsed) -> Result<Parsed, Refusal> {
    accepted(answer.number)?;
    Ok(Parsed { mask: answer.mask, used: answer.used })
}

/// The header of a table, and how many bytes the table takes. Numbers: 1 to 4, 16 to 19.
///
/// ```
/// # fn main() -> Result<(), gezdunar::Refusal> {
/// use gezdunar::{mask_parse, EdgeRule, Grid, InterleaveMode, Widths};
/// let grid = Grid::new(1, 2, 1, 8, InterleaveMode::B, EdgeRule::Full, 1, 1);
/// let table = [0, 0, 0, 18, 0, 4, 0, 0, 0, 0, 0, 0, 0, 0, 255, 255, 255, 255];
/// let parsed = mask_parse(&table, &grid, &Widths::STANDARD)?;
/// assert_eq!((parsed.mask.block_mask_record_length, parsed.used), (4, 18));
/// # Ok(())
/// # }
/// ```
pub fn mask_parse(table: &[u8], grid: &Grid, widths: &Widths) -> Result<Parsed, Refusal> {
    parsed(boundary::mask_parse(table, grid, widths))
}

/// Writes a table into the front of `out` and answers its bytes. IMDATOFF is the table's own size, whatever
/// `image_data_offset` is. There is one offset for each record, or none where the record length is 0.
/// Numbers: 1 to 4, 9, 17, 18, 20 to 22.
///
/// ```
/// # fn main() -> Result<(), gezdunar::Refusal> {
/// use gezdunar::{mask_write, EdgeRule, Grid, ImageDataMask, InterleaveMode, Widths, EMPTY_BLOCK_OFFSET};
/// let grid = Grid::new(1, 2, 1, 8, InterleaveMode::B, EdgeRule::Full, 1, 1);
/// let mask = ImageDataMask { block_mask_record_length: 4, ..ImageDataMask::default() };
/// let mut table = [0; 18];
/// assert_eq!(mask_write(&grid, &Widths::STANDARD, &mask, &[0, EMPTY_BLOCK_OFFSET], &[], &mut table)?, 18);
/// assert_eq!(table, [0, 0, 0, 18, 0, 4, 0, 0, 0, 0, 0, 0, 0, 0, 255, 255, 255, 255]);
/// # Ok(())
/// # }
/// ```
pub fn mask_write(
    grid: &Grid,
    widths: &Widths,
    mask: &ImageDataMask,
    block_offsets: &[u32],
    pad_offsets: &[u32],
    out: &mut [u8],
) -> Result<usize, Refusal> {
    let answer = boundary::mask_write(grid, widths, mask, block_offsets, pad_offsets, out);
    accepted(answer.number)?;
    Ok(answer.bytes)
}

/// [`mask_write`] into a vector of exact size.
///
/// ```
/// # fn main() -> Result<(), gezdunar::Refusal> {
/// use gezdunar::{mask_write_vec, EdgeRule, Grid, ImageDataMask, InterleaveMode, Widths};
/// let grid = Grid::new(1, 2, 1, 8, InterleaveMode::B, EdgeRule::Full, 1, 1);
/// let table = mask_write_vec(&grid, &Widths::STANDARD, &ImageDataMask::default(), &[], &[])?;
/// assert_eq!(table, [0, 0, 0, 10, 0, 0, 0, 0, 0, 0]);
/// # Ok(())
/// # }
/// ```
pub fn mask_write_vec(
    grid: &Grid,
    widths: &Widths,
    mask: &ImageDataMask,
    block_offsets: &[u32],
    pad_offsets: &[u32],
) -> Result<Vec<u8>, Refusal> {
    let code = usize::from(mask.pad_pixel_code_length.div_ceil(8));
    let records = block_offsets.len().saturating_add(pad_offsets.len()).saturating_mul(4);
    let length = records.saturating_add(code).saturating_add(10);
    let (_, table) = filled(length, |out| mask_write(grid, widths, mask, block_offsets, pad_offsets, out))?;
    Ok(table)
}

/// Is a band of a block present? Numbers: 1 to 4, 6, 8, 16 to 19.
///
/// ```
/// # fn main() -> Result<(), gezdunar::Refusal> {
/// use gezdunar::{has_block, EdgeRule, Grid, InterleaveMode, Widths};
/// let grid = Grid::new(1, 2, 1, 8, InterleaveMode::B, EdgeRule::Full, 1, 1);
/// let table = [0, 0, 0, 18, 0, 4, 0, 0, 0, 0, 0, 0, 0, 0, 255, 255, 255, 255];
/// let present = |column| has_block(&table, &grid, &Widths::STANDARD, 0, column, 0);
/// assert_eq!((present(0)?, present(1)?), (true, false));
/// # Ok(())
/// # }
/// ```
pub fn has_block(
    table: &[u8],
    grid: &Grid,
    widths: &Widths,
    block_row: u32,
    block_col: u32,
    band: u32,
) -> Result<bool, Refusal> {
    let answer = boundary::has_block(table, grid, widths, block_row, block_col, band);
    accepted(answer.number)?;
    Ok(answer.present)
}

/// The offset in the record of a band of a block; none for an empty block, and none where there are no block records.
/// Numbers: 1 to 4, 6, 8, 16 to 19.
///
/// ```
/// # fn main() -> Result<(), gezdunar::Refusal> {
/// use gezdunar::{get_block_offset, EdgeRule, Grid, InterleaveMode, Widths};
/// let grid = Grid::new(1, 2, 1, 8, InterleaveMode::B, EdgeRule::Full, 1, 1);
/// let table = [0, 0, 0, 18, 0, 4, 0, 0, 0, 0, 0, 0, 0, 0, 255, 255, 255, 255];
/// assert_eq!(get_block_offset(&table, &grid, &Widths::STANDARD, 0, 0, 0)?, Some(0));
/// assert_eq!(get_block_offset(&table, &grid, &Widths::STANDARD, 0, 1, 0)?, None);
/// # Ok(())
/// # }
/// ```
pub fn get_block_offset(
    table: &[u8],
    grid: &Grid,
    widths: &Widths,
    block_row: u32,
    block_col: u32,
    band: u32,
) -> Result<Option<u32>, Refusal> {
    let answer = boundary::get_block_offset(table, grid, widths, block_row, block_col, band);
    accepted(answer.number)?;
    Ok(answer.given.then_some(answer.offset))
}

/// The mask of a picture of which the marked blocks are provided: into the front of `out` goes one offset for each
/// record, 0 for a marked block, [`EMPTY_BLOCK_OFFSET`] for another. Numbers: 1 to 4, 9, 12.
///
/// ```
/// # fn main() -> Result<(), gezdunar::Refusal> {
/// use gezdunar::{mask_from_marks, EdgeRule, Grid, InterleaveMode, Widths, EMPTY_BLOCK_OFFSET};
/// let grid = Grid::new(1, 2, 1, 8, InterleaveMode::B, EdgeRule::Full, 1, 1);
/// let mut offsets = [7; 2];
/// let parsed = mask_from_marks(&[1], &grid, &Widths::STANDARD, &mut offsets)?;
/// assert_eq!((parsed.mask.block_mask_record_length, parsed.used), (4, 2));
/// assert_eq!(offsets, [0, EMPTY_BLOCK_OFFSET]);
/// # Ok(())
/// # }
/// ```
pub fn mask_from_marks(marks: &[u64], grid: &Grid, widths: &Widths, out: &mut [u32]) -> Result<Parsed, Refusal> {
    parsed(boundary::mask_from_marks(marks, grid, widths, out))
}

/// [`mask_from_marks`] with a vector of exact size.
///
/// ```
/// # fn main() -> Result<(), gezdunar::Refusal> {
/// use gezdunar::{mask_from_marks_vec, EdgeRule, Grid, InterleaveMode, Widths, EMPTY_BLOCK_OFFSET};
/// let grid = Grid::new(1, 2, 1, 8, InterleaveMode::B, EdgeRule::Full, 1, 1);
/// let (mask, offsets) = mask_from_marks_vec(&[2], &grid, &Widths::STANDARD)?;
/// assert_eq!((mask.block_mask_record_length, offsets), (4, vec![EMPTY_BLOCK_OFFSET, 0]));
/// # Ok(())
/// # }
/// ```
pub fn mask_from_marks_vec(marks: &[u64], grid: &Grid, widths: &Widths) -> Result<(ImageDataMask, Vec<u32>), Refusal> {
    let blocks = grid.sizes(widths)?.blocks;
    let records = match grid.imode {
        InterleaveMode::S => blocks.saturating_mul(grid.bands as usize),
        _ => blocks,
    };
    let (parsed, offsets) = filled(records, |out| mask_from_marks(marks, grid, widths, out))?;
    Ok((parsed.mask, offsets))
}
