//! Rows of progress and finish, on as many blocks as a grid may have.

use std::hint::black_box;
use std::time::{Duration, Instant};

use gezdunar::{EdgeRule, Grid, InterleaveMode, Refusal, Widths};
use original::owned_buffer::OwnedBuffer;

use crate::blocks::sizes;
use crate::buffers::{copy, source_of, Output};
use crate::measure::{best, release, Side};
use crate::original::{self as rust, Block};
use crate::report::Times;

/// 9,999 x 9,999 blocks of one sample.
pub fn grid() -> Grid {
    Grid::new(9999, 9999, 1, 8, InterleaveMode::B, EdgeRule::Tight, 1, 1)
}

/// In the last row of blocks.
const NEAR_THE_END: Block = (9998, 9990);

/// Every block marked but one.
fn marks(grid: &Grid, but: Option<Block>) -> Vec<u64> {
    let mut marks = vec![u64::MAX; sizes(grid).mark_words];
    if let Some((row, column)) = but {
        let block = row as usize * grid.nbpr as usize + column as usize;
        marks[block / 64] &= !(1 << (block % 64));
    }
    marks
}

/// The marks' bytes, and room for them: what memcpy copies.
fn words(marks: &[u64]) -> (OwnedBuffer, Output) {
    let bytes: Vec<u8> = marks.iter().flat_map(|word| word.to_ne_bytes()).collect();
    (source_of(&bytes), Output::new(bytes.len()))
}

pub fn progress() -> Times {
    let grid = grid();
    let marks = marks(&grid, None);
    let (bytes, mut copied) = words(&marks);
    let count = || gezdunar::progress(black_box(&marks), &grid, &Widths::STANDARD).expect("words for every mark");
    assert_eq!(count(), sizes(&grid).blocks);
    Times::without_original(best([
        Side::Call(&mut || release(count())),
        Side::Call(&mut || copy(bytes.as_bytes(), &mut copied)),
    ]))
}

/// The original's `finalize` takes the encoder, so each call has a new one. Its making is not counted.
fn finalize_original(grid: &Grid, but: Option<Block>) -> Duration {
    let mut encoder = rust::encoder(grid);
    rust::skip_blocks(&mut encoder, grid, but);
    let start = Instant::now();
    let answer = black_box(rust::finalize(black_box(encoder)));
    let time = start.elapsed();
    let expected = but.map(|(row, column)| format!("block ({row}, {column}) not encoded"));
    match (answer, expected) {
        (Ok(image), None) => assert_eq!(image.len(), sizes(grid).image_bytes),
        (Err(error), Some(text)) => assert!(error.to_string().contains(&text), "{error}"),
        _ => panic!("finalize answers otherwise"),
    }
    time
}

pub fn all_marked() -> Times {
    finalize(None)
}

pub fn one_unmarked() -> Times {
    finalize(Some(NEAR_THE_END))
}

fn finalize(but: Option<Block>) -> Times {
    let grid = grid();
    let image = vec![0; sizes(&grid).image_bytes];
    let marks = marks(&grid, but);
    let (bytes, mut copied) = words(&marks);
    let of_product = || gezdunar::finalize(&image, black_box(&marks), &grid, &Widths::STANDARD);
    let expected = but.map_or(Ok(()), |(row, column)| Err(Refusal::UnmarkedBlock { row, column }));
    assert_eq!(of_product(), expected);

    Times::new(best([
        Side::Once(&mut || finalize_original(&grid, but)),
        Side::Call(&mut || release(of_product())),
        Side::Call(&mut || copy(bytes.as_bytes(), &mut copied)),
    ]))
}
