//! Stand-in for `crate::jbp::image::decoder`: the trait with the signatures that `nc_decoder.rs`
//! implements, and the change from big-endian to host order.

use std::collections::HashMap;

use crate::error::CodecError;

/// First byte and length of the parts of each block, by row and column.
pub type Ranges = HashMap<(u32, u32), Vec<(u64, u64)>>;

pub trait BlockDecoder {
    fn decode_block(
        &self,
        block_row: u32,
        block_col: u32,
        resolution_level: u32,
        bands: Option<&[u32]>,
    ) -> Result<(Vec<u8>, [u32; 3]), CodecError>;

    fn has_block(&self, block_row: u32, block_col: u32) -> bool;

    fn compression_type(&self) -> &str;

    fn num_resolution_levels(&self) -> u32;

    fn decode_block_at_offset(
        &self,
        offset: u64,
        block_row: u32,
        block_col: u32,
        resolution_level: u32,
        bands: Option<&[u32]>,
    ) -> Result<(Vec<u8>, [u32; 3]), CodecError>;

    fn tile_byte_ranges(&self) -> Option<Ranges>;

    fn codec_configuration(&self) -> Option<HashMap<String, Vec<u8>>>;
}

/// Each sample of `size` bytes from big-endian to host order. The data is whole samples.
///
/// The supplied sources fix sizes 1, 2, 4 and 8. The others are reversed too; with the feature
/// `keep-odd-sizes` they stay as they are. See STAND-INS.md.
pub fn swap_be_to_ne(data: &[u8], size: usize) -> Vec<u8> {
    match size {
        1 => data.to_vec(),
        2 => each_sample(data, |sample| u16::from_be_bytes(sample).to_ne_bytes()),
        4 => each_sample(data, |sample| u32::from_be_bytes(sample).to_ne_bytes()),
        8 => each_sample(data, |sample| u64::from_be_bytes(sample).to_ne_bytes()),
        _ => odd_size(data, size),
    }
}

/// A loop for each size: the compiler knows it and takes many samples at once.
fn each_sample<const SIZE: usize>(data: &[u8], swap: impl Fn([u8; SIZE]) -> [u8; SIZE]) -> Vec<u8> {
    let mut swapped = vec![0; data.len()];
    for (to, from) in swapped.chunks_exact_mut(SIZE).zip(data.chunks_exact(SIZE)) {
        let mut sample = [0; SIZE];
        sample.copy_from_slice(from);
        to.copy_from_slice(&swap(sample));
    }
    swapped
}

fn odd_size(data: &[u8], size: usize) -> Vec<u8> {
    let mut swapped = data.to_vec();
    if cfg!(target_endian = "little") && !cfg!(feature = "keep-odd-sizes") {
        swapped.chunks_exact_mut(size).for_each(<[u8]>::reverse);
    }
    swapped
}
