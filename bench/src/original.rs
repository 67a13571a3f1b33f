//! The original's calls, as its users make them: an answer is a new `Vec`, in the host's byte order.

use gezdunar::{Grid, InterleaveMode as Mode, Shape};
use original::jbp::image::decoder::{swap_be_to_ne, BlockDecoder};
use original::jbp::image::encoder::{swap_ne_to_be, BlockEncoder};
use original::jbp::image::nc_decoder::UncompressedBlockDecoder;
use original::jbp::image::nc_encoder::UncompressedBlockEncoder;
use original::jbp::image::types::{InterleaveMode, PixelJustification, PixelValueType};
use original::owned_buffer::OwnedBuffer;

pub use original::error::CodecError;
pub use original::jbp::image::interleave::{from_band_sequential, fused_bip_to_bsq_swap, to_band_sequential};
pub use original::jbp::image::mask::ImageDataMask;

pub type Block = (u32, u32);
pub type Encoder = Box<UncompressedBlockEncoder>;

pub fn imode(mode: Mode) -> InterleaveMode {
    match mode {
        Mode::B => InterleaveMode::B,
        Mode::P => InterleaveMode::P,
        Mode::R => InterleaveMode::R,
        Mode::S => InterleaveMode::S,
    }
}

pub fn decoder(grid: &Grid, image: OwnedBuffer) -> UncompressedBlockDecoder {
    let nbpp = grid.nbpp as u8;
    UncompressedBlockDecoder::from_raw_params(
        image,
        grid.nrows,
        grid.ncols,
        grid.nbpr,
        grid.nbpc,
        grid.nppbh,
        grid.nppbv,
        grid.bands,
        nbpp,
        nbpp,
        PixelValueType::UnsignedInt,
        PixelJustification::Right,
        imode(grid.imode),
        "NC".to_string(),
    )
}

/// None takes all bands.
pub fn decode_block(decoder: &UncompressedBlockDecoder, (row, column): Block, bands: Option<&[u32]>) -> Vec<u8> {
    decoder.decode_block(row, column, 0, bands).expect("a block of the grid").0
}

pub fn encoder(grid: &Grid) -> Encoder {
    Box::new(UncompressedBlockEncoder::new(
        grid.nrows,
        grid.ncols,
        grid.bands,
        grid.nbpp as u8,
        imode(grid.imode),
        grid.nppbh,
        grid.nppbv,
    ))
}

/// The data is in the host's byte order.
pub fn encode_block(encoder: &mut Encoder, (row, column): Block, shape: Shape, data: &[u8]) {
    let shape = [shape.bands, shape.rows, shape.columns].map(|n| n as u32);
    encoder.encode_block(row, column, data, shape).expect("a block of the grid");
}

/// Marks every block but one.
pub fn skip_blocks(encoder: &mut Encoder, grid: &Grid, but: Option<Block>) {
    for row in 0..grid.nbpc {
        for column in 0..grid.nbpr {
            if Some((row, column)) != but {
                encoder.skip_block(row, column).expect("a block of the grid");
            }
        }
    }
}

pub fn finalize(encoder: Encoder) -> Result<Vec<u8>, CodecError> {
    encoder.finalize()
}

/// Big-endian samples in the host's byte order, for a write.
pub fn host_order(size: usize, samples: &[u8]) -> Vec<u8> {
    swap_be_to_ne(samples, size)
}

/// Samples that `decode_block` answered, in big-endian bytes: document 01's rule.
pub fn big_endian(mode: Mode, size: usize, mut samples: Vec<u8>) -> Vec<u8> {
    if mode != Mode::P {
        return swap_ne_to_be(&samples, size);
    }
    if cfg!(target_endian = "little") && matches!(size, 2 | 4 | 8) {
        samples.chunks_exact_mut(size).for_each(<[u8]>::reverse);
    }
    samples
}
