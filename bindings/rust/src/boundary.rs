//! The C boundary, as `include/gezdunar.h` declares it, and a safe function for each of its calls: slices cross as a
//! pointer and a length, the grid as a struct of its numbers, the width table as its entries. All that is unsafe stands
//! here.

use crate::{Bands, EdgeRule, Grid, ImageDataMask, InterleaveMode, Widths, Window};

/// The grid of a subheader. IMODE and the edge rule are bytes: beside a refusal they are 0, which is neither.
#[repr(C)]
pub(crate) struct SubheaderGrid {
    pub nrows: u32,
    pub ncols: u32,
    pub bands: u32,
    pub nbpp: u32,
    pub imode: u8,
    pub edges: u8,
    pub nppbh: u32,
    pub nppbv: u32,
    pub nbpr: u32,
    pub nbpc: u32,
}

/// Fields of a subheader. The named values are bytes: beside a refusal they are 0.
#[repr(C)]
pub(crate) struct Subheader {
    pub pvtype: [u8; 3],
    pub irep: [u8; 8],
    pub icat: [u8; 8],
    pub abpp: u32,
    pub pjust: u8,
    pub ic: [u8; 2],
    pub grid: SubheaderGrid,
}

#[repr(C)]
pub(crate) struct ReadSubheader {
    pub number: u32,
    pub subheader: Subheader,
}

/// Answer of a loading, with the table's entries.
#[repr(C)]
pub(crate) struct LoadedWidths {
    pub number: u32,
    pub entries: [u8; 65],
}

/// Sizes of a grid.
#[repr(C)]
pub(crate) struct Sizes {
    pub number: u32,
    pub sample_bytes: usize,
    pub band_bytes: usize,
    pub block_bytes: usize,
    pub image_bytes: usize,
    pub blocks: usize,
    pub mark_words: usize,
}

/// Shape of a read.
#[repr(C)]
pub(crate) struct Shape {
    pub number: u32,
    pub bands: usize,
    pub rows: usize,
    pub columns: usize,
}

/// Part of the image, in bytes.
#[repr(C)]
pub(crate) struct Place {
    pub number: u32,
    pub start: usize,
    pub length: usize,
}

/// Answer of a re-lay, with the grid that is in force after it: one that was handed in, or that one under full.
#[repr(C)]
pub(crate) struct Relaid {
    pub number: u32,
    pub grid: Grid,
}

/// Answer of a call on a frame.
#[repr(C)]
pub(crate) struct Answer {
    pub number: u32,
    pub first: usize,
    pub second: usize,
}

/// Header of a mask table.
#[repr(C)]
pub(crate) struct Parsed {
    pub number: u32,
    pub mask: ImageDataMask,
    pub used: usize,
}

#[repr(C)]
pub(crate) struct Present {
    pub number: u32,
    pub present: bool,
}

#[repr(C)]
pub(crate) struct BlockOffset {
    pub number: u32,
    pub given: bool,
    pub offset: u32,
}

#[repr(C)]
pub(crate) struct Written {
    pub number: u32,
    pub bytes: usize,
}

#[repr(C)]
pub(crate) struct Reordered {
    pub number: u32,
    pub bands: usize,
    pub bytes: usize,
}

#[rustfmt::skip]
extern "C" {
    #[cfg(test)]
    fn gezdunar_version() -> u32;

    fn gezdunar_grid(
        nrows: u32, ncols: u32, bands: u32, nbpp: u32, imode: u8, edges: u8, nppbv: u32, nppbh: u32,
    ) -> Grid;

    fn gezdunar_load_widths(bytes: *const u8, length: usize) -> LoadedWidths;

    fn gezdunar_grid_check(grid: Grid, widths: *const u8, widths_length: usize) -> u32;

    fn gezdunar_grid_sizes(grid: Grid, widths: *const u8, widths_length: usize) -> Sizes;

    fn gezdunar_subheader_read(
        first: *const u8, first_length: usize, second: *const u8, second_length: usize,
        third: *const u8, third_length: usize, bands: u32, edges: u8, widths: *const u8, widths_length: usize,
    ) -> ReadSubheader;

    fn gezdunar_subheader_write(
        subheader: Subheader, widths: *const u8, widths_length: usize, first: *mut u8, first_length: usize,
        second: *mut u8, second_length: usize, third: *mut u8, third_length: usize,
    ) -> u32;

    fn gezdunar_decode_block(
        image: *const u8, image_length: usize, grid: Grid, widths: *const u8, widths_length: usize,
        block_row: u32, block_col: u32, resolution_level: u32,
        all: bool, list: *const u32, list_length: usize, out: *mut u8, out_length: usize,
    ) -> Shape;

    fn gezdunar_whole_block(
        image: *const u8, image_length: usize, grid: Grid, widths: *const u8, widths_length: usize,
        block_row: u32, block_col: u32,
    ) -> Place;

    fn gezdunar_read_window(
        image: *const u8, image_length: usize, grid: Grid, widths: *const u8, widths_length: usize,
        row: u32, column: u32, rows: u32, columns: u32,
        all: bool, list: *const u32, list_length: usize, out: *mut u8, out_length: usize,
    ) -> Shape;

    fn gezdunar_start(
        image: *mut u8, image_length: usize, marks: *mut u64, marks_length: usize,
        grid: Grid, widths: *const u8, widths_length: usize,
    ) -> Answer;

    fn gezdunar_encode_block(
        image: *mut u8, image_length: usize, marks: *mut u64, marks_length: usize,
        grid: Grid, widths: *const u8, widths_length: usize,
        block_row: u32, block_col: u32, shape_bands: usize, shape_rows: usize, shape_columns: usize,
        data: *const u8, data_length: usize,
    ) -> Answer;

    fn gezdunar_skip_block(
        image: *const u8, image_length: usize, marks: *mut u64, marks_length: usize,
        grid: Grid, widths: *const u8, widths_length: usize,
        block_row: u32, block_col: u32,
    ) -> Answer;

    fn gezdunar_progress(
        marks: *const u64, marks_length: usize, grid: Grid, widths: *const u8, widths_length: usize,
    ) -> Answer;

    fn gezdunar_finalize(
        image: *const u8, image_length: usize, marks: *const u64, marks_length: usize,
        grid: Grid, widths: *const u8, widths_length: usize,
    ) -> Answer;

    fn gezdunar_relay(
        image: *mut u8, image_length: usize, marks: *const u64, marks_length: usize,
        grid: Grid, widths: *const u8, widths_length: usize,
        scratch: *mut u8, scratch_length: usize,
    ) -> Relaid;

    fn gezdunar_mask_parse(
        table: *const u8, table_length: usize, grid: Grid, widths: *const u8, widths_length: usize,
    ) -> Parsed;

    fn gezdunar_mask_write(
        grid: Grid, widths: *const u8, widths_length: usize,
        block_record_length: u16, pad_record_length: u16, code_length: u16, code: u32,
        block_offsets: *const u32, block_offsets_length: usize, pad_offsets: *const u32, pad_offsets_length: usize,
        out: *mut u8, out_length: usize,
    ) -> Written;

    fn gezdunar_has_block(
        table: *const u8, table_length: usize, grid: Grid, widths: *const u8, widths_length: usize,
        block_row: u32, block_col: u32, band: u32,
    ) -> Present;

    fn gezdunar_get_block_offset(
        table: *const u8, table_length: usize, grid: Grid, widths: *const u8, widths_length: usize,
        block_row: u32, block_col: u32, band: u32,
    ) -> BlockOffset;

    fn gezdunar_mask_from_marks(
        marks: *const u64, marks_length: usize, grid: Grid, widths: *const u8, widths_length: usize,
        out: *mut u32, out_length: usize,
    ) -> Parsed;

    fn gezdunar_to_band_sequential(
        data: *const u8, data_length: usize,
        imode: u8, nrows: u32, ncols: u32, nbands: u32, bytes_per_pixel: usize,
        out: *mut u8, out_length: usize,
    ) -> Reordered;

    fn gezdunar_from_band_sequential(
        data: *const u8, data_length: usize,
        imode: u8, nrows: u32, ncols: u32, nbands: u32, bytes_per_pixel: usize,
        out: *mut u8, out_length: usize,
    ) -> Reordered;

    fn gezdunar_fused_bip_to_bsq(
        data: *const u8, data_length: usize,
        nrows: u32, ncols: u32, nbands: u32, bytes_per_pixel: usize,
        all: bool, list: *const u32, list_length: usize, out: *mut u8, out_length: usize,
    ) -> Reordered;
}

/// The version of the archive: major * 1,000,000 + minor * 1,000 + patch.
#[cfg(test)]
fn version() -> u32 {
    // SAFETY: no arguments.
    unsafe { gezdunar_version() }
}

#[allow(clippy::too_many_arguments)]
pub(crate) fn grid(
    nrows: u32,
    ncols: u32,
    bands: u32,
    nbpp: u32,
    imode: InterleaveMode,
    edges: EdgeRule,
    nppbv: u32,
    nppbh: u32,
) -> Grid {
    // SAFETY: only numbers; the answer has the letters of IMODE and of the edge rule that are handed in.
    unsafe { gezdunar_grid(nrows, ncols, bands, nbpp, imode.letter(), edges.letter(), nppbv, nppbh) }
}

pub(crate) fn load_widths(bytes: &[u8]) -> LoadedWidths {
    // SAFETY: borrowed slice.
    unsafe { gezdunar_load_widths(bytes.as_ptr(), bytes.len()) }
}

pub(crate) fn grid_check(grid: &Grid, widths: &Widths) -> u32 {
    // SAFETY: numbers, and a borrowed array.
    unsafe { gezdunar_grid_check(*grid, widths.entries.as_ptr(), widths.entries.len()) }
}

pub(crate) fn grid_sizes(grid: &Grid, widths: &Widths) -> Sizes {
    // SAFETY: numbers, and a borrowed array.
    unsafe { gezdunar_grid_sizes(*grid, widths.entries.as_ptr(), widths.entries.len()) }
}

pub(crate) fn subheader_read(
    first: &[u8],
    second: &[u8],
    third: &[u8],
    bands: u32,
    edges: EdgeRule,
    widths: &Widths,
) -> ReadSubheader {
    // SAFETY: borrowed slices.
    unsafe {
        gezdunar_subheader_read(
            first.as_ptr(),
            first.len(),
            second.as_ptr(),
            second.len(),
            third.as_ptr(),
            third.len(),
            bands,
            edges.letter(),
            widths.entries.as_ptr(),
            widths.entries.len(),
        )
    }
}

pub(crate) fn subheader_write(
    subheader: Subheader,
    widths: &Widths,
    first: &mut [u8],
    second: &mut [u8],
    third: &mut [u8],
) -> u32 {
    // SAFETY: borrowed slices.
    unsafe {
        gezdunar_subheader_write(
            subheader,
            widths.entries.as_ptr(),
            widths.entries.len(),
            first.as_mut_ptr(),
            first.len(),
            second.as_mut_ptr(),
            second.len(),
            third.as_mut_ptr(),
            third.len(),
        )
    }
}

#[allow(clippy::too_many_arguments)]
pub(crate) fn decode_block(
    image: &[u8],
    grid: &Grid,
    widths: &Widths,
    block_row: u32,
    block_col: u32,
    resolution_level: u32,
    bands: Bands<'_>,
    out: &mut [u8],
) -> Shape {
    let (all, list) = bands.all_and_list();
    let (list, list_length) = (list.as_ptr(), list.len());
    let (out, out_length) = (out.as_mut_ptr(), out.len());
    // SAFETY: borrowed slices.
    unsafe {
        gezdunar_decode_block(
            image.as_ptr(),
            image.len(),
            *grid,
            widths.entries.as_ptr(),
            widths.entries.len(),
            block_row,
            block_col,
            resolution_level,
            all,
            list,
            list_length,
            out,
            out_length,
        )
    }
}

pub(crate) fn whole_block(image: &[u8], grid: &Grid, widths: &Widths, block_row: u32, block_col: u32) -> Place {
    // SAFETY: borrowed slice.
    unsafe {
        gezdunar_whole_block(
            image.as_ptr(),
            image.len(),
            *grid,
            widths.entries.as_ptr(),
            widths.entries.len(),
            block_row,
            block_col,
        )
    }
}

pub(crate) fn read_window(
    image: &[u8],
    grid: &Grid,
    widths: &Widths,
    window: Window,
    bands: Bands<'_>,
    out: &mut [u8],
) -> Shape {
    let Window { row, column, rows, columns } = window;
    let (all, list) = bands.all_and_list();
    let (list, list_length) = (list.as_ptr(), list.len());
    let (out, out_length) = (out.as_mut_ptr(), out.len());
    // SAFETY: borrowed slices.
    unsafe {
        gezdunar_read_window(
            image.as_ptr(),
            image.len(),
            *grid,
            widths.entries.as_ptr(),
            widths.entries.len(),
            row,
            column,
            rows,
            columns,
            all,
            list,
            list_length,
            out,
            out_length,
        )
    }
}

pub(crate) fn start(image: &mut [u8], marks: &mut [u64], grid: &Grid, widths: &Widths) -> Answer {
    // SAFETY: borrowed slices.
    unsafe {
        gezdunar_start(
            image.as_mut_ptr(),
            image.len(),
            marks.as_mut_ptr(),
            marks.len(),
            *grid,
            widths.entries.as_ptr(),
            widths.entries.len(),
        )
    }
}

#[allow(clippy::too_many_arguments)]
pub(crate) fn encode_block(
    image: &mut [u8],
    marks: &mut [u64],
    grid: &Grid,
    widths: &Widths,
    block_row: u32,
    block_col: u32,
    shape: crate::Shape,
    data: &[u8],
) -> Answer {
    // SAFETY: borrowed slices.
    unsafe {
        gezdunar_encode_block(
            image.as_mut_ptr(),
            image.len(),
            marks.as_mut_ptr(),
            marks.len(),
            *grid,
            widths.entries.as_ptr(),
            widths.entries.len(),
            block_row,
            block_col,
            shape.bands,
            shape.rows,
            shape.columns,
            data.as_ptr(),
            data.len(),
        )
    }
}

pub(crate) fn skip_block(
    image: &[u8],
    marks: &mut [u64],
    grid: &Grid,
    widths: &Widths,
    block_row: u32,
    block_col: u32,
) -> Answer {
    // SAFETY: borrowed slices.
    unsafe {
        gezdunar_skip_block(
            image.as_ptr(),
            image.len(),
            marks.as_mut_ptr(),
            marks.len(),
            *grid,
            widths.entries.as_ptr(),
            widths.entries.len(),
            block_row,
            block_col,
        )
    }
}

pub(crate) fn progress(marks: &[u64], grid: &Grid, widths: &Widths) -> Answer {
    // SAFETY: borrowed slice.
    unsafe { gezdunar_progress(marks.as_ptr(), marks.len(), *grid, widths.entries.as_ptr(), widths.entries.len()) }
}

pub(crate) fn finalize(image: &[u8], marks: &[u64], grid: &Grid, widths: &Widths) -> Answer {
    // SAFETY: borrowed slices.
    unsafe {
        gezdunar_finalize(
            image.as_ptr(),
            image.len(),
            marks.as_ptr(),
            marks.len(),
            *grid,
            widths.entries.as_ptr(),
            widths.entries.len(),
        )
    }
}

pub(crate) fn relay(image: &mut [u8], marks: &[u64], grid: &Grid, widths: &Widths, scratch: &mut [u8]) -> Relaid {
    // SAFETY: borrowed slices; the answer has the letters of IMODE and of the edge rule that are handed in, or F.
    unsafe {
        gezdunar_relay(
            image.as_mut_ptr(),
            image.len(),
            marks.as_ptr(),
            marks.len(),
            *grid,
            widths.entries.as_ptr(),
            widths.entries.len(),
            scratch.as_mut_ptr(),
            scratch.len(),
        )
    }
}

pub(crate) fn mask_parse(table: &[u8], grid: &Grid, widths: &Widths) -> Parsed {
    // SAFETY: borrowed slice.
    unsafe { gezdunar_mask_parse(table.as_ptr(), table.len(), *grid, widths.entries.as_ptr(), widths.entries.len()) }
}

pub(crate) fn mask_write(
    grid: &Grid,
    widths: &Widths,
    mask: &ImageDataMask,
    block_offsets: &[u32],
    pad_offsets: &[u32],
    out: &mut [u8],
) -> Written {
    let (out, out_length) = (out.as_mut_ptr(), out.len());
    // SAFETY: borrowed slices.
    unsafe {
        gezdunar_mask_write(
            *grid,
            widths.entries.as_ptr(),
            widths.entries.len(),
            mask.block_mask_record_length,
            mask.pad_pixel_mask_record_length,
            mask.pad_pixel_code_length,
            mask.pad_pixel_code,
            block_offsets.as_ptr(),
            block_offsets.len(),
            pad_offsets.as_ptr(),
            pad_offsets.len(),
            out,
            out_length,
        )
    }
}

pub(crate) fn has_block(
    table: &[u8],
    grid: &Grid,
    widths: &Widths,
    block_row: u32,
    block_col: u32,
    band: u32,
) -> Present {
    // SAFETY: borrowed slice.
    unsafe {
        gezdunar_has_block(
            table.as_ptr(),
            table.len(),
            *grid,
            widths.entries.as_ptr(),
            widths.entries.len(),
            block_row,
            block_col,
            band,
        )
    }
}

pub(crate) fn get_block_offset(
    table: &[u8],
    grid: &Grid,
    widths: &Widths,
    block_row: u32,
    block_col: u32,
    band: u32,
) -> BlockOffset {
    // SAFETY: borrowed slice.
    unsafe {
        gezdunar_get_block_offset(
            table.as_ptr(),
            table.len(),
            *grid,
            widths.entries.as_ptr(),
            widths.entries.len(),
            block_row,
            block_col,
            band,
        )
    }
}

pub(crate) fn mask_from_marks(marks: &[u64], grid: &Grid, widths: &Widths, out: &mut [u32]) -> Parsed {
    // SAFETY: borrowed slices.
    unsafe {
        gezdunar_mask_from_marks(
            marks.as_ptr(),
            marks.len(),
            *grid,
            widths.entries.as_ptr(),
            widths.entries.len(),
            out.as_mut_ptr(),
            out.len(),
        )
    }
}

pub(crate) fn to_band_sequential(
    data: &[u8],
    imode: InterleaveMode,
    nrows: u32,
    ncols: u32,
    nbands: u32,
    bytes_per_pixel: usize,
    out: &mut [u8],
) -> Reordered {
    let (data, data_length) = (data.as_ptr(), data.len());
    let (out, out_length) = (out.as_mut_ptr(), out.len());
    let mode = imode.letter();
    // SAFETY: borrowed slices.
    unsafe {
        gezdunar_to_band_sequential(data, data_length, mode, nrows, ncols, nbands, bytes_per_pixel, out, out_length)
    }
}

pub(crate) fn from_band_sequential(
    data: &[u8],
    imode: InterleaveMode,
    nrows: u32,
    ncols: u32,
    nbands: u32,
    bytes_per_pixel: usize,
    out: &mut [u8],
) -> Reordered {
    let (data, data_length) = (data.as_ptr(), data.len());
    let (out, out_length) = (out.as_mut_ptr(), out.len());
    let mode = imode.letter();
    // SAFETY: borrowed slices.
    unsafe {
        gezdunar_from_band_sequential(data, data_length, mode, nrows, ncols, nbands, bytes_per_pixel, out, out_length)
    }
}

pub(crate) fn fused_bip_to_bsq(
    data: &[u8],
    nrows: u32,
    ncols: u32,
    nbands: u32,
    bytes_per_pixel: usize,
    bands: Bands<'_>,
    out: &mut [u8],
) -> Reordered {
    let (all, list) = bands.all_and_list();
    // SAFETY: borrowed slices.
    unsafe {
        gezdunar_fused_bip_to_bsq(
            data.as_ptr(),
            data.len(),
            nrows,
            ncols,
            nbands,
            bytes_per_pixel,
            all,
            list.as_ptr(),
            list.len(),
            out.as_mut_ptr(),
            out.len(),
        )
    }
}

#[cfg(test)]
mod tests {
    /// The crate and the archive have the same version.
    #[test]
    fn the_archive_belongs_to_this_crate() {
        let part = |text: &str| text.parse::<u32>().expect("a number");
        let major = part(env!("CARGO_PKG_VERSION_MAJOR"));
        let minor = part(env!("CARGO_PKG_VERSION_MINOR"));
        let patch = part(env!("CARGO_PKG_VERSION_PATCH"));
        assert_eq!(super::version(), major * 1_000_000 + minor * 1_000 + patch);
    }
}
