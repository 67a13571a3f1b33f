//! Reorderings of data outside an image.

use crate::boundary;
use crate::refusal::accepted;
use crate::vectors::filled;
use crate::{Bands, InterleaveMode, Refusal, Shape};

/// What a reordering wrote.
#[derive(Debug, Clone, Copy, PartialEq, Eq, Hash)]
pub struct Reordered {
    /// Bands written.
    pub bands: usize,
    /// Bytes written.
    pub bytes: usize,
}

fn reordered(answer: boundary::Reordered) -> Result<Reordered, Refusal> {
    accepted(answer.number)?;
    Ok(Reordered { bands: answer.bands, bytes: answer.bytes })
}

/// Data in the order of a mode, to band order, into the front of `out`. A sample has 1 to 8 bytes.
/// Numbers: 2, 4, 9, 14.
///
/// ```
/// # fn main() -> Result<(), gezdunar::Refusal> {
/// use gezdunar::{to_band_sequential, InterleaveMode};
/// // 1 row by 2 columns, 2 bands.
/// let mut out = [0; 4];
/// to_band_sequential(&[1, 3, 2, 4], InterleaveMode::P, 1, 2, 2, 1, &mut out)?;
/// assert_eq!(out, [1, 2, 3, 4]);
/// # Ok(())
/// # }
/// ```
pub fn to_band_sequential(
    data: &[u8],
    imode: InterleaveMode,
    nrows: u32,
    ncols: u32,
    nbands: u32,
    bytes_per_pixel: usize,
    out: &mut [u8],
) -> Result<Reordered, Refusal> {
    reordered(boundary::to_band_sequential(data, imode, nrows, ncols, nbands, bytes_per_pixel, out))
}

/// [`to_band_sequential`] into a vector of exact size.
///
/// ```
/// # fn main() -> Result<(), gezdunar::Refusal> {
/// use gezdunar::{to_band_sequential_vec, InterleaveMode};
/// let (_, samples) = to_band_sequential_vec(&[1, 3, 2, 4], InterleaveMode::P, 1, 2, 2, 1)?;
/// assert_eq!(samples, [1, 2, 3, 4]);
/// # Ok(())
/// # }
/// ```
pub fn to_band_sequential_vec(
    data: &[u8],
    imode: InterleaveMode,
    nrows: u32,
    ncols: u32,
    nbands: u32,
    bytes_per_pixel: usize,
) -> Result<(Reordered, Vec<u8>), Refusal> {
    filled(data.len(), |out| to_band_sequential(data, imode, nrows, ncols, nbands, bytes_per_pixel, out))
}

/// Data in band order, to the order of a mode, into the front of `out`. A sample has 1 to 8 bytes.
/// Numbers: 2, 4, 9, 14.
///
/// ```
/// # fn main() -> Result<(), gezdunar::Refusal> {
/// use gezdunar::{from_band_sequential, InterleaveMode};
/// let mut out = [0; 4];
/// from_band_sequential(&[1, 2, 3, 4], InterleaveMode::P, 1, 2, 2, 1, &mut out)?;
/// assert_eq!(out, [1, 3, 2, 4]);
/// # Ok(())
/// # }
/// ```
pub fn from_band_sequential(
    data: &[u8],
    imode: InterleaveMode,
    nrows: u32,
    ncols: u32,
    nbands: u32,
    bytes_per_pixel: usize,
    out: &mut [u8],
) -> Result<Reordered, Refusal> {
    reordered(boundary::from_band_sequential(data, imode, nrows, ncols, nbands, bytes_per_pixel, out))
}

/// [`from_band_sequential`] into a vector of exact size.
///
/// ```
/// # fn main() -> Result<(), gezdunar::Refusal> {
/// use gezdunar::{from_band_sequential_vec, InterleaveMode};
/// let (_, pixels) = from_band_sequential_vec(&[1, 2, 3, 4], InterleaveMode::P, 1, 2, 2, 1)?;
/// assert_eq!(pixels, [1, 3, 2, 4]);
/// # Ok(())
/// # }
/// ```
pub fn from_band_sequential_vec(
    data: &[u8],
    imode: InterleaveMode,
    nrows: u32,
    ncols: u32,
    nbands: u32,
    bytes_per_pixel: usize,
) -> Result<(Reordered, Vec<u8>), Refusal> {
    filled(data.len(), |out| from_band_sequential(data, imode, nrows, ncols, nbands, bytes_per_pixel, out))
}

/// Bands asked for of data in the order of P, to band order, into the front of `out`. A sample has 1 to 8 bytes.
/// Numbers: 2, 4, 8, 9, 14.
///
/// ```
/// # fn main() -> Result<(), gezdunar::Refusal> {
/// use gezdunar::{fused_bip_to_bsq, Bands};
/// let mut out = [0; 2];
/// let reordered = fused_bip_to_bsq(&[1, 3, 2, 4], 1, 2, 2, 1, Bands::Listed(&[1]), &mut out)?;
/// assert_eq!((reordered.bands, reordered.bytes, out), (1, 2, [3, 4]));
/// # Ok(())
/// # }
/// ```
pub fn fused_bip_to_bsq(
    data: &[u8],
    nrows: u32,
    ncols: u32,
    nbands: u32,
    bytes_per_pixel: usize,
    bands: Bands<'_>,
    out: &mut [u8],
) -> Result<Reordered, Refusal> {
    reordered(boundary::fused_bip_to_bsq(data, nrows, ncols, nbands, bytes_per_pixel, bands, out))
}

/// [`fused_bip_to_bsq`] into a vector of exact size.
///
/// ```
/// # fn main() -> Result<(), gezdunar::Refusal> {
/// use gezdunar::{fused_bip_to_bsq_vec, Bands};
/// let (_, samples) = fused_bip_to_bsq_vec(&[1, 3, 2, 4], 1, 2, 2, 1, Bands::Listed(&[1, 0]))?;
/// assert_eq!(samples, [3, 4, 1, 2]);
/// # Ok(())
/// # }
/// ```
pub fn fused_bip_to_bsq_vec(
    data: &[u8],
    nrows: u32,
    ncols: u32,
    nbands: u32,
    bytes_per_pixel: usize,
    bands: Bands<'_>,
) -> Result<(Reordered, Vec<u8>), Refusal> {
    let shape = Shape { bands: bands.count(nbands), rows: nrows as usize, columns: ncols as usize };
    filled(shape.bytes(bytes_per_pixel), |out| {
        fused_bip_to_bsq(data, nrows, ncols, nbands, bytes_per_pixel, bands, out)
    })
}
