//! The original Rust, built unchanged, behind a thin interface.
//!
//! Samples are big-endian on both sides, as document 01 says. An error of the original, or a panic in
//! it, is a `Refusal`.

mod answer;
mod fields;
mod refusal;

// The modules of the original and the stand-ins. See build.rs.
include!(concat!(env!("OUT_DIR"), "/tree.rs"));

use std::collections::HashSet;

use cases::{Grid, Mode, Pack};
use jbp::image::decoder::{swap_be_to_ne, BlockDecoder};
use jbp::image::encoder::{swap_ne_to_be, BlockEncoder};
use jbp::image::interleave;
use jbp::image::nc_decoder::UncompressedBlockDecoder;
use jbp::image::nc_encoder::UncompressedBlockEncoder;
use jbp::image::types::{InterleaveMode, PixelJustification, PixelValueType};
use owned_buffer::OwnedBuffer;
use refusal::guarded;

pub use answer::answer;
pub use fields::{justification, justification_letter, mode, mode_letter, pixel_value, pixel_value_text};
pub use jbp::image::mask::ImageDataMask;
pub use refusal::{silence_panics, Refusal};

fn imode(mode: Mode) -> InterleaveMode {
    match mode {
        Mode::B => InterleaveMode::B,
        Mode::P => InterleaveMode::P,
        Mode::R => InterleaveMode::R,
        Mode::S => InterleaveMode::S,
    }
}

/// NBPP is a byte in the original.
fn nbpp(grid: &Grid) -> u8 {
    u8::try_from(grid.nbpp).expect("NBPP of at most 255")
}

fn sample_bytes(grid: &Grid) -> usize {
    usize::from(nbpp(grid)).div_ceil(8)
}

/// Undoes the host order of `fused_bip_to_bsq_swap`, which changes samples of 2, 4 and 8 bytes only.
fn undo_fused_swap(data: &mut [u8], size: usize) {
    if cfg!(target_endian = "little") && matches!(size, 2 | 4 | 8) {
        data.chunks_exact_mut(size).for_each(<[u8]>::reverse);
    }
}

fn decoder(grid: &Grid, image: &[u8]) -> UncompressedBlockDecoder {
    UncompressedBlockDecoder::from_raw_params(
        OwnedBuffer::from_vec(image.to_vec()),
        grid.nrows,
        grid.ncols,
        grid.nbpr,
        grid.nbpc,
        grid.nppbh,
        grid.nppbv,
        grid.bands,
        nbpp(grid),
        nbpp(grid),
        PixelValueType::UnsignedInt,
        PixelJustification::Right,
        imode(grid.mode),
        "NC".to_string(),
    )
}

/// The samples, and the shape: bands, rows, columns.
pub fn decode_block(
    grid: &Grid,
    image: &[u8],
    row: u32,
    column: u32,
    level: u32,
    bands: Option<&[u32]>,
) -> Result<(Vec<u8>, [u32; 3]), Refusal> {
    guarded(|| {
        let (mut data, shape) = decoder(grid, image).decode_block(row, column, level, bands)?;
        if grid.mode == Mode::P {
            undo_fused_swap(&mut data, sample_bytes(grid));
        } else {
            data = swap_ne_to_be(&data, sample_bytes(grid));
        }
        Ok((data, shape))
    })
}

/// Where `tile_byte_ranges` puts a block: first byte and length. None for a block outside the grid.
pub fn block_range(grid: &Grid, row: u32, column: u32) -> Result<Option<(u64, u64)>, Refusal> {
    guarded(|| {
        let ranges = decoder(grid, &[]).tile_byte_ranges().unwrap_or_default();
        Ok(ranges.get(&(row, column)).map(|ranges| ranges[0]))
    })
}

/// `UncompressedBlockEncoder`.
pub struct Encoder {
    encoder: Box<UncompressedBlockEncoder>,
    size: usize,
}

impl Encoder {
    pub fn new(grid: &Grid) -> Result<Encoder, Refusal> {
        let encoder = guarded(|| {
            Ok(UncompressedBlockEncoder::new(
                grid.nrows,
                grid.ncols,
                grid.bands,
                nbpp(grid),
                imode(grid.mode),
                grid.nppbh,
                grid.nppbv,
            ))
        })?;
        Ok(Encoder { encoder: Box::new(encoder), size: sample_bytes(grid) })
    }

    pub fn encode_block(&mut self, row: u32, column: u32, data: &[u8], shape: [u32; 3]) -> Result<(), Refusal> {
        guarded(|| {
            let data = swap_be_to_ne(data, self.size);
            self.encoder.encode_block(row, column, &data, shape)
        })
    }

    pub fn skip_block(&mut self, row: u32, column: u32) -> Result<(), Refusal> {
        guarded(|| self.encoder.skip_block(row, column))
    }

    /// The image.
    pub fn finalize(self) -> Result<Vec<u8>, Refusal> {
        guarded(|| self.encoder.finalize())
    }
}

/// The mask, and the count of bytes used.
pub fn mask_parse(grid: &Grid, table: &[u8]) -> Result<(ImageDataMask, usize), Refusal> {
    guarded(|| ImageDataMask::parse(table, grid.nbpr * grid.nbpc, grid.bands, imode(grid.mode)))
}

pub fn mask_to_bytes(mask: &ImageDataMask) -> Result<Vec<u8>, Refusal> {
    guarded(|| Ok(mask.to_bytes()))
}

pub fn mask_has_block(mask: &ImageDataMask, grid: &Grid, row: u32, column: u32, band: u32) -> Result<bool, Refusal> {
    guarded(|| Ok(mask.has_block(row, column, grid.nbpr, band, imode(grid.mode))))
}

pub fn mask_get_block_offset(
    mask: &ImageDataMask,
    grid: &Grid,
    row: u32,
    column: u32,
    band: u32,
) -> Result<Option<u64>, Refusal> {
    guarded(|| Ok(mask.get_block_offset(row, column, grid.nbpr, band, imode(grid.mode))))
}

pub fn mask_from_provided_blocks(grid: &Grid, provided: &HashSet<(u32, u32)>) -> Result<ImageDataMask, Refusal> {
    guarded(|| {
        let mode = imode(grid.mode);
        let (nbpr, nbpc) = (grid.nbpr, grid.nbpc);
        Ok(ImageDataMask::from_provided_blocks(provided, nbpr, nbpc, grid.bands, mode))
    })
}

pub fn to_band_sequential(pack: &Pack, data: &[u8]) -> Result<Vec<u8>, Refusal> {
    guarded(|| {
        let (mode, size) = (imode(pack.mode), pack.size as usize);
        interleave::to_band_sequential(data, mode, pack.rows, pack.columns, pack.bands, size)
    })
}

pub fn from_band_sequential(pack: &Pack, data: &[u8]) -> Result<Vec<u8>, Refusal> {
    guarded(|| {
        let (mode, size) = (imode(pack.mode), pack.size as usize);
        interleave::from_band_sequential(data, mode, pack.rows, pack.columns, pack.bands, size)
    })
}

/// With the swap undone. `parallel` takes the parallel form; `tile` is its rows at a time.
pub fn fused_bip_to_bsq_swap(
    pack: &Pack,
    data: &[u8],
    bands: Option<&[u32]>,
    tile: usize,
    parallel: bool,
) -> Result<Vec<u8>, Refusal> {
    guarded(|| {
        let [rows, columns, all, size] = [pack.rows, pack.columns, pack.bands, pack.size].map(|n| n as usize);
        let mut out = vec![0; rows * columns * bands.map_or(all, <[u32]>::len) * size];
        let fused =
            if parallel { interleave::fused_bip_to_bsq_swap_parallel } else { interleave::fused_bip_to_bsq_swap };
        fused(data, &mut out, rows, columns, all, size, bands, tile)?;
        undo_fused_swap(&mut out, size);
        Ok(out)
    })
}
