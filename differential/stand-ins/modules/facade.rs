//! Stand-in for `crate::jbp::image::facade`, which needs the structure parser.
//! `ImageSubheaderFacade` has no values: `UncompressedBlockDecoder::new` cannot be called.

use crate::error::CodecError;
use crate::jbp::image::types::{InterleaveMode, PixelJustification, PixelValueType};

pub enum ImageSubheaderFacade {}

macro_rules! fields {
    ($($name:ident: $kind:ty,)*) => {
        impl ImageSubheaderFacade {$(
            pub fn $name(&self) -> Result<$kind, CodecError> {
                match *self {}
            }
        )*}
    };
}

fields! {
    nrows: u32,
    ncols: u32,
    nbpr: u32,
    nbpc: u32,
    effective_nppbh: u32,
    effective_nppbv: u32,
    band_count: usize,
    nbpp: u8,
    abpp: u8,
    pvtype: PixelValueType,
    pjust: PixelJustification,
    imode: InterleaveMode,
    ic: String,
}
