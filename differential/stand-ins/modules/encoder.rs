//! Stand-in for `crate::jbp::image::encoder`: the trait with the signatures that `nc_encoder.rs`
//! implements, and the change from host order to big-endian.

use crate::error::CodecError;

pub trait BlockEncoder {
    fn encode_block(
        &mut self,
        block_row: u32,
        block_col: u32,
        data: &[u8],
        shape: [u32; 3],
    ) -> Result<(), CodecError>;

    fn skip_block(&mut self, block_row: u32, block_col: u32) -> Result<(), CodecError>;

    fn finalize(self: Box<Self>) -> Result<Vec<u8>, CodecError>;

    fn compression_type(&self) -> &str;

    fn block_grid_size(&self) -> (u32, u32);

    fn block_dimensions(&self) -> (u32, u32);
}

/// Each sample of `size` bytes from host order to big-endian: `swap_be_to_ne` is its own inverse.
pub fn swap_ne_to_be(data: &[u8], size: usize) -> Vec<u8> {
    super::decoder::swap_be_to_ne(data, size)
}
