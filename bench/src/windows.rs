//! Rows of windows. The original has none: its side reads every block crossed and copies what the window has of it. It
//! is tight: where the row is under the rule full, its side has the same samples in a tight image.

use std::hint::black_box;

use gezdunar::{Bands, EdgeRule, Grid, Widths, Window};
use original::jbp::image::nc_decoder::UncompressedBlockDecoder;
use original::owned_buffer::OwnedBuffer;

use crate::blocks::{relaid, sizes};
use crate::buffers::{source, Output};
use crate::measure::{best, Side};
use crate::moves::{apply, at_once, crossed, in_answer, of_block, of_image, Memcpy, Move};
use crate::original::{self as rust, Block};
use crate::report::Times;

pub fn window_bytes(grid: &Grid, window: &Window) -> usize {
    grid.bands as usize * window.rows as usize * window.columns as usize * sizes(grid).sample_bytes
}

fn read_window(image: &OwnedBuffer, grid: &Grid, window: Window, out: &mut Output) {
    gezdunar::read_window(black_box(image.as_bytes()), grid, &Widths::STANDARD, window, Bands::All, out.bytes())
        .expect("a window of the picture");
}

fn read_blocks(decoder: &UncompressedBlockDecoder, parts: &[(Block, Vec<Move>)], out: &mut Output) {
    for (block, moves) in parts {
        apply(moves, &rust::decode_block(decoder, *block, None), out);
    }
}

pub fn read(grid: &Grid, window: Window, memcpy: Memcpy) -> Times {
    let tight = source(sizes(grid).image_bytes);
    let [mut out, mut rust_out, mut copied] = [(); 3].map(|()| Output::new(window_bytes(grid, &window)));
    let decoder = rust::decoder(grid, tight.clone());
    let image = if grid.edges == EdgeRule::Tight { tight } else { relaid(grid, &tight) };
    let blocks = crossed(grid, &window).into_iter();
    let parts: Vec<_> = blocks.map(|block| (block, of_block(grid, &window, block, in_answer(grid, block)))).collect();

    read_window(&image, grid, window, &mut out);
    read_blocks(&decoder, &parts, &mut rust_out);
    let expected = rust::big_endian(grid.imode, sizes(grid).sample_bytes, rust_out.bytes().to_vec());
    assert!(out.bytes() == expected, "the samples differ: {grid:?}");
    let moves = if memcpy.is_by_runs(grid) {
        let moves = of_image(grid, &window);
        apply(&moves, image.as_bytes(), &mut copied);
        assert!(out.bytes() == copied.bytes(), "memcpy moves other bytes: {grid:?}");
        moves
    } else {
        at_once(window_bytes(grid, &window))
    };

    Times::new(best([
        Side::Call(&mut || read_blocks(&decoder, &parts, &mut rust_out)),
        Side::Call(&mut || read_window(&image, grid, window, &mut out)),
        Side::Call(&mut || apply(&moves, image.as_bytes(), &mut copied)),
    ]))
}
