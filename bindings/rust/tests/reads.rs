//! The block read and the whole block.

mod common;

use common::{
    block_samples, blocks, counting, exact, expected::block_end, modes_and_rules, refused_grids, shape, small,
};
use gezdunar::{
    decode_block, decode_block_vec, whole_block, Bands, Frame, Grid, InterleaveMode, Refusal, Shape, Widths,
};

/// Reads block (1,1) of document 01's picture from an image of this length, into an output of exact size.
fn corner(imode: InterleaveMode, length: usize, bands: Bands) -> Result<(Shape, Vec<u8>), u32> {
    let image = counting(length);
    let grid = small(imode);
    let mut out = exact(&vec![0xAA; bands.count(2)]);
    let answer = decode_block(&image, &grid, &Widths::STANDARD, 1, 1, 0, bands, &mut out).map_err(Refusal::number);
    let vector = decode_block_vec(&image, &grid, &Widths::STANDARD, 1, 1, 0, bands).map_err(Refusal::number);
    assert_eq!(vector, answer.map(|shape| (shape, out.to_vec())));
    if answer.is_err() {
        assert!(out.iter().all(|&byte| byte == 0xAA));
    }
    vector
}

#[test]
fn figures_a_to_d() {
    for (imode, places) in InterleaveMode::ALL.into_iter().zip([[48, 56], [48, 49], [48, 52], [24, 56]]) {
        assert_eq!(corner(imode, 64, Bands::All), Ok((shape(2, 1, 1), places.to_vec())));
    }
}

#[test]
fn figures_e_and_f() {
    assert_eq!(corner(InterleaveMode::P, 50, Bands::All), Ok((shape(2, 1, 1), vec![48, 49])));
    assert_eq!(corner(InterleaveMode::P, 49, Bands::All), Err(7));
}

#[test]
fn figure_g() {
    let grid = small(InterleaveMode::P);
    let answer = decode_block_vec(&counting(64), &grid, &Widths::STANDARD, 2, 0, 0, Bands::All);
    assert_eq!(answer, Err(Refusal::BlockOutsideGrid));
    assert_eq!(answer.map_err(Refusal::number), Err(6));
}

#[test]
fn figures_h_to_j() {
    for (imode, band_1) in InterleaveMode::ALL.into_iter().zip([56, 49, 52, 56]) {
        assert_eq!(corner(imode, 64, Bands::Listed(&exact(&[1, 1]))), Ok((shape(2, 1, 1), vec![band_1, band_1])));
        assert_eq!(corner(imode, 64, Bands::Listed(&exact(&[2]))), Err(8));
        assert_eq!(corner(imode, 64, Bands::Listed(&exact(&[]))), Ok((shape(0, 1, 1), vec![])));
    }
}

/// The number of a read of document 01's picture in P, with an output of three bytes that must be kept.
fn refused(grid: &Grid, length: usize, block: (u32, u32), level: u32, bands: Bands) -> u32 {
    let image = counting(length);
    let mut out = exact(&[1, 2, 3]);
    let answer = decode_block(&image, grid, &Widths::STANDARD, block.0, block.1, level, bands, &mut out);
    assert_eq!(*out, [1, 2, 3]);
    answer.map_or_else(Refusal::number, |_| 0)
}

#[test]
fn decode_block_refuses() {
    for (grid, number) in refused_grids() {
        assert_eq!(refused(&grid, 64, (0, 0), 0, Bands::All), number);
        assert_eq!(
            decode_block_vec(&counting(64), &grid, &Widths::STANDARD, 0, 0, 0, Bands::All).map_err(Refusal::number),
            Err(number)
        );
    }
    let grid = small(InterleaveMode::P);
    assert_eq!(refused(&grid, 64, (0, 0), 1, Bands::All), 5);
    assert_eq!(refused(&grid, 64, (0, 0), u32::MAX, Bands::All), 5);
    assert_eq!(refused(&grid, 64, (0, 2), 0, Bands::All), 6);
    assert_eq!(refused(&grid, 64, (u32::MAX, u32::MAX), 0, Bands::All), 6);
    assert_eq!(refused(&grid, 15, (0, 0), 0, Bands::All), 7);
    assert_eq!(refused(&grid, 0, (0, 0), 0, Bands::All), 7);
    assert_eq!(refused(&grid, 64, (0, 0), 0, Bands::Listed(&exact(&[0, 2]))), 8);
    assert_eq!(refused(&grid, 64, (0, 0), 0, Bands::All), 9);
}

#[test]
fn decode_block_asks_in_order() {
    let (grid, list) = (small(InterleaveMode::P), exact(&[2]));
    let bands = Bands::Listed(&list);
    assert_eq!(refused(&Grid { nbpp: 0, ..grid }, 0, (9, 9), 1, bands), 2);
    assert_eq!(refused(&grid, 0, (9, 9), 1, bands), 5);
    assert_eq!(refused(&grid, 0, (9, 9), 0, bands), 6);
    assert_eq!(refused(&grid, 0, (0, 0), 0, bands), 7);
    assert_eq!(refused(&grid, 64, (0, 0), 0, bands), 8);
    assert_eq!(refused(&grid, 64, (0, 0), 0, Bands::Listed(&exact(&[1]))), 9);
}

#[test]
fn a_longer_output_keeps_its_rest() {
    let mut out = exact(&[0xAA; 5]);
    let answer =
        decode_block(&counting(64), &small(InterleaveMode::P), &Widths::STANDARD, 1, 1, 0, Bands::All, &mut out);
    assert_eq!((answer, &out[..]), (Ok(shape(2, 1, 1)), &[48, 49, 0xAA, 0xAA, 0xAA][..]));
}

/// A frame with the plain picture in it.
fn written(grid: Grid) -> Frame {
    let mut frame = Frame::new(grid, Widths::STANDARD).expect("an accepted grid");
    let bands: Vec<u32> = (0..grid.bands).collect();
    for (row, column) in blocks(&grid) {
        let data = block_samples(&grid, &bands, row, column);
        frame.encode_block(row, column, grid.block_shape(row, column), &data).expect("an accepted block");
    }
    frame
}

#[test]
fn an_image_serves_a_block_from_the_end_of_the_block_on() {
    for (imode, edges) in modes_and_rules() {
        for nbpp in [3, 8, 12, 16, 64] {
            let frame = written(Grid::new(3, 5, 2, nbpp, imode, edges, 2, 2));
            for block in blocks(frame.grid()) {
                short_images(&frame, block);
            }
        }
    }
}

/// Reads a block from the first bytes of an image, for every count of them: 7 below the block's end, then its samples.
fn short_images(frame: &Frame, (row, column): (u32, u32)) {
    let (grid, list) = (frame.grid(), exact(&[1, 0]));
    let expected = block_samples(grid, &list, row, column);
    let end = block_end(grid, row, column);
    for length in 0..=frame.image().len() {
        let image = exact(&frame.image()[..length]);
        let answer = decode_block_vec(&image, grid, &Widths::STANDARD, row, column, 0, Bands::Listed(&list));
        if length < end {
            assert_eq!(answer, Err(Refusal::ImageEnds), "{length} of {end} bytes, {grid:?}");
        } else {
            assert_eq!(answer, Ok((grid.block_shape(row, column), expected.to_vec())), "{length} of {end}, {grid:?}");
        }
    }
    assert!(end <= frame.image().len());
}

#[test]
fn whole_block_is_a_part_of_the_image() {
    let image = counting(64);
    for imode in [InterleaveMode::B, InterleaveMode::P, InterleaveMode::R] {
        for (index, (row, column)) in blocks(&small(imode)).into_iter().enumerate() {
            let part = whole_block(&image, &small(imode), &Widths::STANDARD, row, column).expect("a whole image");
            assert_eq!(part, &image[index * 16..index * 16 + 16]);
            assert_eq!(part.as_ptr(), image[index * 16..].as_ptr());
        }
    }
}

#[test]
fn whole_block_reaches_its_nominal_end() {
    let grid = small(InterleaveMode::P);
    assert_eq!(whole_block(&counting(48), &grid, &Widths::STANDARD, 1, 0), Ok(&counting(48)[32..]));
    assert_eq!(whole_block(&counting(47), &grid, &Widths::STANDARD, 1, 0), Err(Refusal::ImageEnds));
    // The samples of block (1,1) end at 50.
    assert_eq!(whole_block(&counting(63), &grid, &Widths::STANDARD, 1, 1), Err(Refusal::ImageEnds));
}

#[test]
fn whole_block_is_empty_in_s() {
    let grid = small(InterleaveMode::S);
    assert_eq!(whole_block(&counting(64), &grid, &Widths::STANDARD, 1, 1), Ok(&[][..]));
    assert_eq!(whole_block(&exact(&[]), &grid, &Widths::STANDARD, 1, 1), Ok(&[][..]));
    assert_eq!(whole_block(&exact(&[]), &grid, &Widths::STANDARD, 2, 1), Err(Refusal::BlockOutsideGrid));
}

#[test]
fn whole_block_refuses() {
    for (grid, number) in refused_grids() {
        assert_eq!(whole_block(&counting(64), &grid, &Widths::STANDARD, 0, 0).map_err(Refusal::number), Err(number));
    }
    let grid = small(InterleaveMode::B);
    for (row, column) in [(2, 0), (0, 2), (u32::MAX, u32::MAX)] {
        assert_eq!(whole_block(&counting(64), &grid, &Widths::STANDARD, row, column).map_err(Refusal::number), Err(6));
    }
    assert_eq!(whole_block(&exact(&[]), &grid, &Widths::STANDARD, 0, 0).map_err(Refusal::number), Err(7));
}
