//! Rows of the re-lay. The original has none: its side is the product's read of every block under tight and its write of
//! that under full.

use std::hint::black_box;

use gezdunar::{EdgeRule, Grid, Widths};

use crate::blocks::{read_and_write, relaid, sizes, Frame};
use crate::buffers::{copy, source, Output};
use crate::measure::{best, Side};
use crate::report::Times;

pub fn image_bytes(grid: &Grid) -> usize {
    sizes(grid).image_bytes
}

fn relay(image: &mut Output, tight: &Grid, marks: &[u64], scratch: &mut Output) {
    gezdunar::relay(black_box(image.bytes()), marks, tight, &Widths::STANDARD, scratch.bytes()).expect("a tight grid");
}

/// The image of a tight grid, laid anew under full.
pub fn relay_image(tight: &Grid) -> Times {
    let full = Grid { edges: EdgeRule::Full, ..*tight };
    let before = source(image_bytes(tight));
    let (mut image, mut copied) = (Output::new(image_bytes(tight)), Output::new(image_bytes(tight)));
    let (marks, mut scratch) = (vec![0; sizes(tight).mark_words], Output::new(sizes(tight).block_bytes));
    let mut frame = Frame::start(&full);
    let mut samples = Output::new(tight.block_shape(0, 0).bytes(sizes(tight).sample_bytes));

    image.bytes().copy_from_slice(before.as_bytes());
    relay(&mut image, tight, &marks, &mut scratch);
    assert!(image.bytes() == relaid(&full, &before).as_bytes(), "the images differ: {tight:?}");

    Times::new(best([
        Side::Call(&mut || read_and_write(&before, tight, &full, &mut frame, &mut samples)),
        Side::Call(&mut || relay(&mut image, tight, &marks, &mut scratch)),
        Side::Call(&mut || copy(before.as_bytes(), &mut copied)),
    ]))
}
