//! The frame, and pictures written by blocks and read again.

mod common;

use common::{block_samples, blocks, exact, largest, modes_and_rules, refused_grids, samples, shape, small, WIDTHS};
use gezdunar::{
    decode_block_vec, read_window_vec, Bands, EdgeRule, Frame, Grid, InterleaveMode, Refusal, Widths, Window,
};

/// Writes the plain picture, the last block first and each block twice.
fn written(grid: Grid) -> Frame {
    let mut frame = Frame::new(grid, Widths::STANDARD).expect("an accepted grid");
    let bands: Vec<u32> = (0..grid.bands).collect();
    for (count, (row, column)) in blocks(&grid).into_iter().rev().enumerate() {
        assert_eq!(frame.progress(), Ok(count));
        let (shape, data) = (grid.block_shape(row, column), block_samples(&grid, &bands, row, column));
        assert_eq!(frame.encode_block(row, column, shape, &largest(&grid, shape.bytes(1))), Ok(()));
        assert_eq!(frame.encode_block(row, column, shape, &data), Ok(()));
    }
    assert_eq!(frame.finalize(), Ok(()));
    frame
}

/// Compares blocks and windows of a written frame with the plain picture.
fn read_again(frame: &Frame, list: &[u32]) {
    let (grid, image, lent) = (frame.grid(), frame.image(), exact(list));
    let bands = Bands::Listed(&lent);
    for (row, column) in blocks(grid) {
        let (shape, read) =
            decode_block_vec(image, grid, &Widths::STANDARD, row, column, 0, bands).expect("an accepted read");
        assert_eq!(shape, common::shape(list.len(), grid.actual_rows(row), grid.actual_columns(column)));
        assert_eq!(read, *block_samples(grid, list, row, column));
    }
    for (row, column, rows, columns) in [(0, 0, 5, 7), (1, 2, 3, 4), (4, 6, 1, 1), (2, 3, 2, 3), (0, 0, 1, 7)] {
        let window = Window { row, column, rows, columns };
        let (shape, read) = read_window_vec(image, grid, &Widths::STANDARD, window, bands).expect("an accepted window");
        assert_eq!(shape, common::shape(list.len(), rows as usize, columns as usize));
        assert_eq!(read, *samples(grid, list, row as usize, column as usize, rows as usize, columns as usize));
    }
}

#[test]
fn pictures_come_back_in_every_mode_at_every_width() {
    for (imode, edges) in modes_and_rules() {
        for nbpp in WIDTHS {
            let frame = written(Grid::new(5, 7, 3, nbpp, imode, edges, 3, 2));
            read_again(&frame, &[0, 1, 2]);
            read_again(&frame, &[2, 0, 2, 2]);
            read_again(&frame, &[]);
        }
    }
}

#[test]
fn pictures_come_back_in_blocks_above_8_192() {
    for (imode, edges) in modes_and_rules() {
        for nbpp in [8, 12] {
            read_again(&written(Grid::new(5, 8_193, 2, nbpp, imode, edges, 8_193, 2)), &[1, 0]);
            read_again(&written(Grid::new(8_193, 7, 1, nbpp, imode, edges, 4, 8_193)), &[0]);
        }
    }
}

#[test]
fn pictures_come_back_at_other_block_sides() {
    for (imode, edges) in modes_and_rules() {
        for (bands, nppbh, nppbv) in [(1, 1, 1), (2, 7, 5), (1, 8, 6), (2, 4, 1), (3, 1, 3)] {
            for nbpp in [1, 8, 11, 24] {
                let frame = written(Grid::new(5, 7, bands, nbpp, imode, edges, nppbh, nppbv));
                read_again(&frame, &(0..bands).rev().collect::<Vec<u32>>());
            }
        }
    }
}

#[test]
fn a_new_frame_is_empty() {
    for imode in InterleaveMode::ALL {
        let frame = Frame::new(small(imode), Widths::STANDARD).expect("an accepted grid");
        assert_eq!((frame.grid(), frame.image(), frame.marks()), (&small(imode), &[0; 64][..], &[0][..]));
        assert_eq!(frame.progress(), Ok(0));
        assert_eq!(frame.finalize(), Err(Refusal::UnmarkedBlock { row: 0, column: 0 }));
        assert_eq!(frame.into_image(), [0; 64]);
    }
}

#[test]
fn a_grid_that_is_refused_gives_no_frame() {
    for (grid, number) in refused_grids() {
        assert_eq!(Frame::new(grid, Widths::STANDARD).map_err(Refusal::number), Err(number));
    }
}

#[test]
fn refused_calls_leave_the_frame_as_it_was() {
    let mut frame = written(small(InterleaveMode::R));
    let before = frame.clone();
    assert_eq!(frame.encode_block(2, 0, shape(2, 1, 1), &exact(&[1, 2])).map_err(Refusal::number), Err(6));
    assert_eq!(frame.encode_block(1, 1, shape(1, 1, 1), &exact(&[1])).map_err(Refusal::number), Err(13));
    assert_eq!(frame.encode_block(1, 1, shape(2, 1, 1), &exact(&[1])).map_err(Refusal::number), Err(14));
    assert_eq!(frame.skip_block(0, 2).map_err(Refusal::number), Err(6));
    assert_eq!(frame, before);
}

#[test]
fn a_sample_that_does_not_fit_leaves_the_frame_as_it_was() {
    for (imode, edges) in modes_and_rules() {
        for nbpp in WIDTHS.into_iter().filter(|nbpp| nbpp % 8 != 0) {
            let mut frame = written(Grid::new(5, 7, 3, nbpp, imode, edges, 3, 2));
            let before = frame.clone();
            let shape = frame.grid().block_shape(1, 2);
            let mut data = largest(frame.grid(), shape.bytes(1));
            let last = data.len() - nbpp.div_ceil(8) as usize;
            data[last] += 1 << (nbpp % 8);
            assert_eq!(frame.encode_block(1, 2, shape, &data), Err(Refusal::SampleBits));
            assert_eq!(frame, before);
            read_again(&frame, &[0, 1, 2]);
        }
    }
}

#[test]
fn a_skipped_block_keeps_its_bytes() {
    let mut frame = Frame::new(small(InterleaveMode::B), Widths::STANDARD).expect("an accepted grid");
    frame.encode_block(0, 1, shape(2, 2, 1), &exact(&[1, 2, 3, 4])).expect("an accepted block");
    let image = frame.image().to_vec();
    for (row, column) in blocks(&small(InterleaveMode::B)) {
        assert_eq!(frame.skip_block(row, column), Ok(()));
    }
    assert_eq!((frame.image(), frame.progress(), frame.finalize()), (&image[..], Ok(4), Ok(())));
}

/// Writes one of three blocks and skips another one of three, from a block on, up to another.
fn some_blocks(frame: &mut Frame, from: usize, to: usize) {
    let grid = *frame.grid();
    let bands: Vec<u32> = (0..grid.bands).collect();
    for (i, (row, column)) in blocks(&grid).into_iter().enumerate().take(to).skip(from) {
        match i % 3 {
            0 => frame
                .encode_block(row, column, grid.block_shape(row, column), &block_samples(&grid, &bands, row, column))
                .expect("an accepted block"),
            1 => frame.skip_block(row, column).expect("a block of the grid"),
            _ => {}
        }
    }
}

#[test]
fn a_frame_is_relaid_while_it_is_written() {
    for imode in InterleaveMode::ALL {
        for nbpp in WIDTHS {
            let tight = Grid::new(5, 7, 3, nbpp, imode, EdgeRule::Tight, 3, 2);
            let full = Grid { edges: EdgeRule::Full, ..tight };
            let (mut frame, mut from_the_start) = (
                Frame::new(tight, Widths::STANDARD).expect("accepted"),
                Frame::new(full, Widths::STANDARD).expect("accepted"),
            );
            some_blocks(&mut frame, 0, 4);
            assert_eq!(frame.relay(), Ok(()));
            some_blocks(&mut frame, 4, 9);
            some_blocks(&mut from_the_start, 0, 9);
            assert_eq!(frame, from_the_start);
            assert_eq!(frame.relay(), Err(Refusal::AlreadyFull));
            assert_eq!(frame, from_the_start);
        }
    }
}
