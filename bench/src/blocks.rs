//! Rows of `decode_block` and `encode_block`.

use std::hint::black_box;

use gezdunar::{Bands, EdgeRule, Grid, Shape, Sizes, Widths, Window};
use original::owned_buffer::OwnedBuffer;

use crate::buffers::{source, source_of, Output};
use crate::measure::{best, release, Side};
use crate::moves::{apply, at_once, back, of_image, Memcpy, Move};
use crate::original::{self as rust, Block};
use crate::report::Times;

pub fn sizes(grid: &Grid) -> Sizes {
    grid.sizes(&Widths::STANDARD).expect("an accepted grid")
}

fn shape(grid: &Grid, (row, column): Block, bands: Option<&[u32]>) -> Shape {
    Shape { bands: listed(bands).count(grid.bands), ..grid.block_shape(row, column) }
}

/// None takes all bands.
fn listed(bands: Option<&[u32]>) -> Bands<'_> {
    bands.map_or(Bands::All, Bands::Listed)
}

pub fn decoded_bytes(grid: &Grid, block: Block, bands: Option<&[u32]>) -> usize {
    shape(grid, block, bands).bytes(sizes(grid).sample_bytes)
}

/// Out of the image, where memcpy moves the block's own bytes.
fn runs(grid: &Grid, block: Block, memcpy: Memcpy) -> Option<Vec<Move>> {
    let shape = shape(grid, block, None);
    let window = Window {
        row: block.0 * grid.nppbv,
        column: block.1 * grid.nppbh,
        rows: shape.rows as u32,
        columns: shape.columns as u32,
    };
    memcpy.is_by_runs(grid).then(|| of_image(grid, &window))
}

fn decode_block(image: &OwnedBuffer, grid: &Grid, block: Block, bands: Option<&[u32]>, out: &mut Output) {
    let (image, out) = (black_box(image.as_bytes()), out.bytes());
    gezdunar::decode_block(image, grid, &Widths::STANDARD, block.0, block.1, 0, listed(bands), out)
        .expect("a block of the grid");
}

pub fn decode(grid: &Grid, block: Block, bands: Option<&[u32]>, memcpy: Memcpy) -> Times {
    let image = source(sizes(grid).image_bytes);
    let length = decoded_bytes(grid, block, bands);
    let (mut out, mut copied) = (Output::new(length), Output::new(length));
    let decoder = rust::decoder(grid, image.clone());
    let runs = if bands.is_none() { runs(grid, block, memcpy) } else { None };

    decode_block(&image, grid, block, bands, &mut out);
    let samples = rust::decode_block(&decoder, block, bands);
    let expected = rust::big_endian(grid.imode, sizes(grid).sample_bytes, samples);
    assert!(out.bytes() == expected, "the samples differ: {grid:?}");
    drop(expected);
    if let Some(moves) = &runs {
        apply(moves, image.as_bytes(), &mut copied);
        assert!(out.bytes() == copied.bytes(), "memcpy moves other bytes: {grid:?}");
    }

    let moves = runs.unwrap_or_else(|| at_once(length));
    Times::new(best([
        Side::Call(&mut || release(rust::decode_block(&decoder, block, bands))),
        Side::Call(&mut || decode_block(&image, grid, block, bands, &mut out)),
        Side::Call(&mut || apply(&moves, image.as_bytes(), &mut copied)),
    ]))
}

/// The image and the marks that the product writes.
pub struct Frame {
    image: Output,
    marks: Vec<u64>,
}

impl Frame {
    pub fn start(grid: &Grid) -> Frame {
        let sizes = sizes(grid);
        let mut frame = Frame { image: Output::new(sizes.image_bytes), marks: vec![0; sizes.mark_words] };
        gezdunar::start(frame.image.bytes(), &mut frame.marks, grid, &Widths::STANDARD)
            .expect("room for the image and the marks");
        frame
    }

    fn encode_block(&mut self, grid: &Grid, block: Block, data: &[u8]) {
        let (image, data) = (self.image.bytes(), black_box(data));
        gezdunar::encode_block(
            image,
            &mut self.marks,
            grid,
            &Widths::STANDARD,
            block.0,
            block.1,
            shape(grid, block, None),
            data,
        )
        .expect("a block of the grid");
    }
}

/// The image of a tight grid, laid anew under the grid's edge rule.
pub fn relaid(grid: &Grid, tight: &OwnedBuffer) -> OwnedBuffer {
    let from = Grid { edges: EdgeRule::Tight, ..*grid };
    let mut frame = Frame::start(grid);
    let mut samples = Output::new(decoded_bytes(grid, (0, 0), None));
    read_and_write(tight, &from, grid, &mut frame, &mut samples);
    source_of(frame.image.bytes())
}

/// Every block of an image is read under one grid and written under another. `samples` has room for a block's.
pub fn read_and_write(image: &OwnedBuffer, from: &Grid, to: &Grid, frame: &mut Frame, samples: &mut Output) {
    for block in (0..from.nbpc).flat_map(|row| (0..from.nbpr).map(move |column| (row, column))) {
        decode_block(image, from, block, None, samples);
        frame.encode_block(to, block, &samples.bytes()[..decoded_bytes(to, block, None)]);
    }
}

/// Bytes of the image that a block's samples take.
pub fn encoded_bytes(grid: &Grid, block: Block) -> usize {
    let Shape { bands, rows, columns } = shape(grid, block, None);
    (bands * rows * columns * grid.nbpp as usize).div_ceil(8)
}

/// Random samples of a block, without a bit above NBPP.
fn samples(grid: &Grid, block: Block) -> OwnedBuffer {
    let mut samples = source(decoded_bytes(grid, block, None)).as_bytes().to_vec();
    let (size, above) = (sizes(grid).sample_bytes, grid.nbpp.next_multiple_of(8) - grid.nbpp);
    samples.iter_mut().step_by(size).for_each(|first| *first &= 0xff >> above);
    source_of(&samples)
}

pub fn encode(grid: &Grid, block: Block, memcpy: Memcpy) -> Times {
    let data = samples(grid, block);
    let host_data = source_of(&rust::host_order(sizes(grid).sample_bytes, data.as_bytes()));
    let mut frame = Frame::start(grid);
    let shape = shape(grid, block, None);
    let runs = runs(grid, block, memcpy).map(back);
    let taken = encoded_bytes(grid, block);
    let mut copied = Output::new(if runs.is_some() { sizes(grid).image_bytes } else { taken });

    frame.encode_block(grid, block, data.as_bytes());
    let mut encoder = rust::encoder(grid);
    rust::encode_block(&mut encoder, block, shape, host_data.as_bytes());
    rust::skip_blocks(&mut encoder, grid, None);
    let expected = rust::finalize(encoder).expect("every block is marked");
    assert!(frame.image.bytes() == expected, "the images differ: {grid:?}");
    drop(expected);
    if let Some(moves) = &runs {
        apply(moves, data.as_bytes(), &mut copied);
        assert!(frame.image.bytes() == copied.bytes(), "memcpy moves other bytes: {grid:?}");
    }

    let moves = runs.unwrap_or_else(|| at_once(taken));
    let mut encoder = rust::encoder(grid);
    Times::new(best([
        Side::Call(&mut || rust::encode_block(&mut encoder, block, shape, black_box(host_data.as_bytes()))),
        Side::Call(&mut || frame.encode_block(grid, block, data.as_bytes())),
        Side::Call(&mut || apply(&moves, data.as_bytes(), &mut copied)),
    ]))
}
