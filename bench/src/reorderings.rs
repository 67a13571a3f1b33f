//! Rows of the reorderings.

use std::hint::black_box;

use gezdunar::{Bands, InterleaveMode, Refusal, Reordered};

use crate::buffers::{source, Output};
use crate::measure::{best, release, Side};
use crate::moves::{self, apply, at_once, back, Memcpy, Move};
use crate::original::{self as rust, big_endian, CodecError};
use crate::report::Times;

/// Rows at a time in the original's fused reordering, as its decoder takes them.
const TILE_ROWS: usize = 64;

/// Samples of a block outside an image.
#[derive(Clone, Copy)]
pub struct Pack {
    pub mode: InterleaveMode,
    pub rows: u32,
    pub columns: u32,
    pub bands: u32,
    /// Bytes of a sample.
    pub size: usize,
}

impl Pack {
    /// Bytes of so many bands.
    pub fn bytes(&self, bands: usize) -> usize {
        self.rows as usize * self.columns as usize * bands * self.size
    }
}

type Original =
    fn(&[u8], original::jbp::image::types::InterleaveMode, u32, u32, u32, usize) -> Result<Vec<u8>, CodecError>;
type Product = fn(&[u8], InterleaveMode, u32, u32, u32, usize, &mut [u8]) -> Result<Reordered, Refusal>;

/// To band order, as memcpy moves it in R.
fn runs(pack: &Pack, memcpy: Memcpy) -> Option<Vec<Move>> {
    (pack.mode == InterleaveMode::R && memcpy == Memcpy::Runs).then(|| moves::to_band_sequential(pack))
}

pub fn to_band_sequential(pack: &Pack, memcpy: Memcpy) -> Times {
    reordered(pack, rust::to_band_sequential, gezdunar::to_band_sequential, runs(pack, memcpy))
}

pub fn from_band_sequential(pack: &Pack, memcpy: Memcpy) -> Times {
    reordered(pack, rust::from_band_sequential, gezdunar::from_band_sequential, runs(pack, memcpy).map(back))
}

fn reordered(pack: &Pack, original: Original, product: Product, runs: Option<Vec<Move>>) -> Times {
    let Pack { mode, rows, columns, bands, size } = *pack;
    let length = pack.bytes(bands as usize);
    let data = source(length);
    let (mut out, mut copied) = (Output::new(length), Output::new(length));
    let of_rust =
        || original(black_box(data.as_bytes()), rust::imode(mode), rows, columns, bands, size).expect("whole samples");
    let of_product = |out: &mut Output| {
        product(black_box(data.as_bytes()), mode, rows, columns, bands, size, out.bytes()).expect("whole samples");
    };

    of_product(&mut out);
    assert!(out.bytes() == of_rust(), "the samples differ");
    if let Some(moves) = &runs {
        apply(moves, data.as_bytes(), &mut copied);
        assert!(out.bytes() == copied.bytes(), "memcpy moves other bytes");
    }

    let moves = runs.unwrap_or_else(|| at_once(length));
    Times::new(best([
        Side::Call(&mut || release(of_rust())),
        Side::Call(&mut || of_product(&mut out)),
        Side::Call(&mut || apply(&moves, data.as_bytes(), &mut copied)),
    ]))
}

/// The original's form also changes the samples to the host's byte order, and has a lent output.
pub fn fused_bip_to_bsq(pack: &Pack, list: &[u32]) -> Times {
    let Pack { mode, rows, columns, bands, size } = *pack;
    let data = source(pack.bytes(bands as usize));
    let [mut out, mut rust_out, mut copied] = [(); 3].map(|()| Output::new(pack.bytes(list.len())));
    let of_rust = |out: &mut Output| {
        let data = black_box(data.as_bytes());
        let [rows, columns, bands] = [rows, columns, bands].map(|n| n as usize);
        rust::fused_bip_to_bsq_swap(data, out.bytes(), rows, columns, bands, size, Some(list), TILE_ROWS)
            .expect("whole samples and listed bands");
    };
    let of_product = |out: &mut Output| {
        let data = black_box(data.as_bytes());
        gezdunar::fused_bip_to_bsq(data, rows, columns, bands, size, Bands::Listed(list), out.bytes())
            .expect("whole samples and listed bands");
    };

    of_product(&mut out);
    of_rust(&mut rust_out);
    let expected = big_endian(mode, size, rust_out.bytes().to_vec());
    assert!(out.bytes() == expected, "the samples differ");

    let moves = at_once(pack.bytes(list.len()));
    Times::new(best([
        Side::Call(&mut || of_rust(&mut rust_out)),
        Side::Call(&mut || of_product(&mut out)),
        Side::Call(&mut || apply(&moves, data.as_bytes(), &mut copied)),
    ]))
}
