//! Start, write, skip, progress and finish over lent buffers.

mod common;

use common::{block_samples, blocks, exact, largest, modes_and_rules, refused_grids, shape, small, WIDTHS};
use gezdunar::{
    decode_block_vec, encode_block, finalize, progress, read_window_vec, skip_block, start, Bands, EdgeRule, Grid,
    InterleaveMode, Refusal, Shape, Widths, Window,
};

/// A started image and its marks, of exact size.
fn started(grid: &Grid) -> (Box<[u8]>, Box<[u64]>) {
    let sizes = grid.sizes(&Widths::STANDARD).expect("an accepted grid");
    let (mut image, mut marks) = (exact(&vec![0xFF; sizes.image_bytes]), exact(&vec![u64::MAX; sizes.mark_words]));
    assert_eq!(start(&mut image, &mut marks, grid, &Widths::STANDARD), Ok(()));
    (image, marks)
}

#[test]
fn start_clears_and_keeps_the_rest() {
    for imode in InterleaveMode::ALL {
        let (image, marks) = started(&small(imode));
        assert!(image.iter().all(|&byte| byte == 0));
        assert_eq!(*marks, [0]);
        let (mut image, mut marks) = (exact(&[0xFF; 66]), exact(&[u64::MAX; 2]));
        assert_eq!(start(&mut image, &mut marks, &small(imode), &Widths::STANDARD), Ok(()));
        assert_eq!((&image[..64], &image[64..], &marks[..]), (&[0; 64][..], &[0xFF; 2][..], &[0, u64::MAX][..]));
    }
}

#[test]
fn start_refuses() {
    let grid = small(InterleaveMode::B);
    let more = [(grid, 63, 0, 11), (grid, 64, 0, 12), (grid, 0, 1, 11)];
    let cases = refused_grids().into_iter().map(|(grid, number)| (grid, 64, 1, number)).chain(more);
    for (grid, bytes, words, number) in cases {
        let (mut image, mut marks) = (exact(&vec![7; bytes]), exact(&vec![7; words]));
        assert_eq!(start(&mut image, &mut marks, &grid, &Widths::STANDARD).map_err(Refusal::number), Err(number));
        assert!(image.iter().all(|&byte| byte == 7) && marks.iter().all(|&word| word == 7));
    }
}

/// Writes one block into a started frame of this grid and gives the image.
fn image_of(grid: &Grid, block: (u32, u32), data: &[u8]) -> Box<[u8]> {
    let (mut image, mut marks) = started(grid);
    let data = exact(data);
    let shape = grid.block_shape(block.0, block.1);
    assert_eq!(encode_block(&mut image, &mut marks, grid, &Widths::STANDARD, block.0, block.1, shape, &data), Ok(()));
    assert_eq!(*marks, [1 << (block.0 * grid.nbpr + block.1)]);
    image
}

#[test]
fn figures_a_to_d_written() {
    for (imode, places) in InterleaveMode::ALL.into_iter().zip([[48, 56], [48, 49], [48, 52], [24, 56]]) {
        let mut expected = [0; 64];
        (expected[places[0]], expected[places[1]]) = (0xA1, 0xA2);
        assert_eq!(*image_of(&small(imode), (1, 1), &[0xA1, 0xA2]), expected);
    }
}

#[test]
fn figure_k() {
    for (imode, edges) in modes_and_rules() {
        let grid = Grid::new(1, 3, 1, 12, imode, edges, 3, 1);
        let data = [0x01, 0x23, 0x04, 0x56, 0x07, 0x89];
        assert_eq!(*image_of(&grid, (0, 0), &data), [0x12, 0x34, 0x56, 0x78, 0x90]);
        let grid = Grid::new(1, 1, 1, 12, imode, edges, 1, 1);
        assert_eq!(stored(&grid, (0, 0), &[0xF1, 0x23]), 26);
        assert_eq!(*image_of(&grid, (0, 0), &[0x01, 0x23]), [0x12, 0x30]);
    }
}

#[test]
fn figure_l() {
    for (imode, edges) in modes_and_rules() {
        let grid = Grid::new(1, 10, 1, 1, imode, edges, 10, 1);
        assert_eq!(*image_of(&grid, (0, 0), &[1, 0, 1, 1, 0, 0, 0, 1, 1, 1]), [0xB1, 0xC0]);
    }
}

#[test]
fn figure_m() {
    for imode in InterleaveMode::ALL {
        for (edges, bytes) in [(EdgeRule::Tight, [0, 0, 0x59, 0x00]), (EdgeRule::Full, [0, 0, 0x50, 0x90])] {
            let grid = Grid::new(2, 3, 1, 4, imode, edges, 2, 2);
            let image = image_of(&grid, (0, 1), &[5, 9]);
            assert_eq!(*image, bytes);
            let read = decode_block_vec(&image, &grid, &Widths::STANDARD, 0, 1, 0, Bands::All);
            assert_eq!(read, Ok((shape(1, 2, 1), vec![5, 9])));
            let edge = Window { row: 0, column: 2, rows: 2, columns: 1 };
            assert_eq!(
                read_window_vec(&image, &grid, &Widths::STANDARD, edge, Bands::All),
                Ok((shape(1, 2, 1), vec![5, 9]))
            );
        }
    }
}

#[test]
fn a_write_at_a_packed_width_clears_its_runs() {
    for (edges, bytes) in [(EdgeRule::Tight, [0x59, 0x00]), (EdgeRule::Full, [0x50, 0x90])] {
        let grid = Grid::new(2, 3, 1, 4, InterleaveMode::B, edges, 2, 2);
        let (mut image, mut marks) = (exact(&[0xFF; 4]), exact(&[0; 1]));
        assert_eq!(
            encode_block(&mut image, &mut marks, &grid, &Widths::STANDARD, 0, 1, shape(1, 2, 1), &exact(&[5, 9])),
            Ok(())
        );
        assert_eq!((&image[..2], &image[2..]), (&[0xFF; 2][..], &bytes[..]));
    }
}

#[test]
fn a_write_at_bytes_touches_only_its_samples() {
    for edges in EdgeRule::ALL {
        let grid = Grid::new(2, 3, 1, 8, InterleaveMode::B, edges, 2, 2);
        let (mut image, mut marks) = (exact(&[0xFF; 8]), exact(&[0; 1]));
        assert_eq!(
            encode_block(&mut image, &mut marks, &grid, &Widths::STANDARD, 0, 1, shape(1, 2, 1), &exact(&[5, 9])),
            Ok(())
        );
        assert_eq!(*image, [0xFF, 0xFF, 0xFF, 0xFF, 5, 0xFF, 9, 0xFF]);
    }
}

#[test]
fn a_write_keeps_the_rest_of_longer_buffers() {
    let grid = small(InterleaveMode::R);
    let (mut image, mut marks) = (exact(&[0xFF; 67]), exact(&[4, 77]));
    assert_eq!(
        encode_block(&mut image, &mut marks, &grid, &Widths::STANDARD, 1, 1, shape(2, 1, 1), &exact(&[1, 2])),
        Ok(())
    );
    assert_eq!((image[48], image[52], &image[64..], &marks[..]), (1, 2, &[0xFF; 3][..], &[12, 77][..]));
}

/// The number of a write of data whose bytes are 1, into buffers that must be kept.
fn refused(grid: &Grid, sizes: (usize, usize), block: (u32, u32), shape: Shape, length: usize) -> u32 {
    refused_data(grid, sizes, block, shape, &vec![1; length])
}

/// The number of a write into buffers that must be kept.
fn refused_data(grid: &Grid, sizes: (usize, usize), block: (u32, u32), shape: Shape, data: &[u8]) -> u32 {
    let (mut image, mut marks) = (exact(&vec![7; sizes.0]), exact(&vec![6; sizes.1]));
    let answer = encode_block(&mut image, &mut marks, grid, &Widths::STANDARD, block.0, block.1, shape, &exact(data));
    assert!(image.iter().all(|&byte| byte == 7) && marks.iter().all(|&word| word == 6));
    answer.map_or_else(Refusal::number, |()| 0)
}

#[test]
fn encode_block_refuses() {
    let (corner, enough) = (shape(2, 1, 1), (64, 1));
    for (grid, number) in refused_grids() {
        assert_eq!(refused(&grid, enough, (1, 1), corner, 2), number);
    }
    let grid = small(InterleaveMode::S);
    assert_eq!(refused(&grid, (63, 1), (1, 1), corner, 2), 11);
    assert_eq!(refused(&grid, (64, 0), (1, 1), corner, 2), 12);
    for block in [(2, 1), (1, 2), (u32::MAX, u32::MAX)] {
        assert_eq!(refused(&grid, enough, block, corner, 2), 6);
    }
    for other in [shape(1, 1, 1), shape(2, 2, 1), shape(2, 1, 4), shape(usize::MAX, 0, 0)] {
        assert_eq!(refused(&grid, enough, (1, 1), other, 2), 13);
    }
    for length in [0, 1, 3] {
        assert_eq!(refused(&grid, enough, (1, 1), corner, length), 14);
    }
}

#[test]
fn encode_block_asks_in_order() {
    let (grid, other) = (small(InterleaveMode::B), shape(0, 0, 0));
    assert_eq!(refused(&Grid { nbpc: 0, ..grid }, (0, 0), (9, 9), other, 0), 3);
    assert_eq!(refused(&grid, (0, 0), (9, 9), other, 0), 11);
    assert_eq!(refused(&grid, (64, 0), (9, 9), other, 0), 12);
    assert_eq!(refused(&grid, (64, 1), (9, 9), other, 0), 6);
    assert_eq!(refused(&grid, (64, 1), (0, 0), other, 0), 13);
    assert_eq!(refused(&grid, (64, 1), (0, 0), shape(2, 2, 4), 0), 14);
}

#[test]
fn encode_block_asks_of_the_samples_last() {
    let (grid, enough, corner) = (Grid { nbpp: 4, ..small(InterleaveMode::B) }, (32, 1), shape(2, 1, 1));
    let high = [0xF1; 3];
    assert_eq!(refused_data(&Grid { nbpr: 1, ..grid }, enough, (1, 1), corner, &high[..2]), 3);
    assert_eq!(refused_data(&grid, (31, 1), (1, 1), corner, &high[..2]), 11);
    assert_eq!(refused_data(&grid, (32, 0), (1, 1), corner, &high[..2]), 12);
    assert_eq!(refused_data(&grid, enough, (1, 2), corner, &high[..2]), 6);
    assert_eq!(refused_data(&grid, enough, (1, 1), shape(1, 1, 1), &high[..2]), 13);
    for length in [0, 1, 3] {
        assert_eq!(refused_data(&grid, enough, (1, 1), corner, &high[..length]), 14);
    }
    assert_eq!(refused_data(&grid, enough, (1, 1), corner, &high[..2]), 26);
}

/// The number of a write into an image and marks with a pattern. A refused one must keep both; what an accepted one
/// stored must be read as it was.
fn stored(grid: &Grid, (row, column): (u32, u32), data: &[u8]) -> u32 {
    let sizes = grid.sizes(&Widths::STANDARD).expect("an accepted grid");
    let before = (exact(&vec![0x5A; sizes.image_bytes]), exact(&vec![0x5A00; sizes.mark_words]));
    let (mut image, mut marks) = before.clone();
    match encode_block(
        &mut image,
        &mut marks,
        grid,
        &Widths::STANDARD,
        row,
        column,
        grid.block_shape(row, column),
        &exact(data),
    ) {
        Ok(()) => {
            let (_, read) = decode_block_vec(&image, grid, &Widths::STANDARD, row, column, 0, Bands::All)
                .expect("an accepted read");
            assert_eq!((&read[..], marks[0]), (data, 0x5A00 | 1 << (row * grid.nbpr + column)), "{grid:?}");
            0
        }
        Err(refusal) => {
            assert_eq!((image, marks), before, "{grid:?}");
            refusal.number()
        }
    }
}

#[test]
fn every_bit_above_nbpp_of_every_sample_is_asked() {
    for (imode, edges) in modes_and_rules() {
        for nbpp in WIDTHS.into_iter().filter(|nbpp| nbpp % 8 != 0) {
            let grid = Grid::new(5, 7, 2, nbpp, imode, edges, 3, 2);
            let bits = nbpp.next_multiple_of(8);
            for (row, column) in [(0, 0), (1, 2), (2, 1)] {
                let data = block_samples(&grid, &[0, 1], row, column);
                assert_eq!(stored(&grid, (row, column), &data), 0);
                for bit in (0..8 * data.len() as u32).filter(|bit| bit % bits < bits - nbpp) {
                    let mut data = data.clone();
                    data[bit as usize / 8] |= 0x80 >> (bit % 8);
                    assert_eq!(stored(&grid, (row, column), &data), 26, "bit {bit}, {grid:?}");
                }
            }
        }
    }
}

#[test]
fn the_largest_sample_fits_and_the_next_does_not() {
    let largest = [(1, 1), (7, 0x7F), (9, 0x1FF), (12, 0xFFF), (15, 0x7FFF), (25, 0x1FF_FFFF), (31, 0x7FFF_FFFF)];
    for (imode, edges) in modes_and_rules() {
        for (nbpp, sample) in largest {
            let grid = Grid::new(1, 2, 1, nbpp, imode, edges, 2, 1);
            let bytes = |sample: u32| sample.to_be_bytes()[4 - nbpp.div_ceil(8) as usize..].to_vec();
            assert_eq!(stored(&grid, (0, 0), &[bytes(sample), bytes(sample)].concat()), 0, "{nbpp}");
            assert_eq!(stored(&grid, (0, 0), &[bytes(sample + 1), bytes(0)].concat()), 26, "{nbpp}");
            assert_eq!(stored(&grid, (0, 0), &[bytes(0), bytes(sample + 1)].concat()), 26, "{nbpp}");
        }
    }
}

#[test]
fn ones_fit_at_byte_multiples_only() {
    for (imode, edges) in modes_and_rules() {
        for nbpp in WIDTHS {
            let grid = Grid::new(5, 7, 2, nbpp, imode, edges, 3, 2);
            for (row, column) in blocks(&grid) {
                let data = largest(&grid, grid.block_shape(row, column).bytes(1));
                assert_eq!(stored(&grid, (row, column), &data), 0);
                let ones = vec![0xFF; data.len()];
                assert_eq!(stored(&grid, (row, column), &ones), if nbpp % 8 == 0 { 0 } else { 26 }, "{nbpp}");
            }
        }
    }
}

#[test]
fn skip_block_marks_and_keeps() {
    let grid = Grid::new(1, 70, 1, 8, InterleaveMode::P, EdgeRule::Full, 1, 1);
    let image = exact(&[9; 70]);
    let mut marks = exact(&[0, 0, 5]);
    for (column, expected) in [(0, [1, 0, 5]), (63, [1 | 1 << 63, 0, 5]), (64, [1 | 1 << 63, 1, 5])] {
        assert_eq!(skip_block(&image, &mut marks, &grid, &Widths::STANDARD, 0, column), Ok(()));
        assert_eq!(*marks, expected);
    }
}

#[test]
fn skip_block_refuses() {
    let grid = small(InterleaveMode::B);
    let more =
        [(grid, 63, 1, (9, 9), 11), (grid, 64, 0, (9, 9), 12), (grid, 64, 1, (2, 0), 6), (grid, 64, 1, (0, 2), 6)];
    let cases = refused_grids().into_iter().map(|(grid, number)| (grid, 64, 1, (0, 0), number)).chain(more);
    for (grid, bytes, words, (row, column), number) in cases {
        let (image, mut marks) = (exact(&vec![7; bytes]), exact(&vec![6; words]));
        assert_eq!(
            skip_block(&image, &mut marks, &grid, &Widths::STANDARD, row, column).map_err(Refusal::number),
            Err(number)
        );
        assert!(marks.iter().all(|&word| word == 6));
    }
}

#[test]
fn progress_counts_the_marks_of_the_grid() {
    let grid = Grid::new(1, 70, 1, 8, InterleaveMode::S, EdgeRule::Full, 1, 1);
    for (marks, count) in [([0, 0], 0), ([u64::MAX, u64::MAX], 70), ([0b1011, 1 << 5], 4), ([0, 1 << 6], 0)] {
        assert_eq!(progress(&exact(&marks), &grid, &Widths::STANDARD), Ok(count));
    }
}

#[test]
fn progress_refuses() {
    for (grid, number) in refused_grids() {
        assert_eq!(progress(&exact(&[0]), &grid, &Widths::STANDARD).map_err(Refusal::number), Err(number));
    }
    assert_eq!(progress(&exact(&[]), &small(InterleaveMode::B), &Widths::STANDARD).map_err(Refusal::number), Err(12));
}

#[test]
fn finalize_names_the_first_unmarked_block() {
    let grid = small(InterleaveMode::P);
    let image = exact(&[0; 64]);
    for (index, (row, column)) in blocks(&grid).into_iter().enumerate() {
        let below = exact(&[(1 << index) - 1]);
        assert_eq!(finalize(&image, &below, &grid, &Widths::STANDARD), Err(Refusal::UnmarkedBlock { row, column }));
        let all_but_it = exact(&[!(1 << index)]);
        assert_eq!(
            finalize(&image, &all_but_it, &grid, &Widths::STANDARD),
            Err(Refusal::UnmarkedBlock { row, column })
        );
    }
    assert_eq!(finalize(&image, &exact(&[0b1111]), &grid, &Widths::STANDARD), Ok(()));
    let wide = Grid::new(2, 70, 1, 8, InterleaveMode::P, EdgeRule::Full, 1, 1);
    let marks = exact(&[u64::MAX, u64::MAX, !(1 << 11)]);
    assert_eq!(
        finalize(&exact(&[0; 140]), &marks, &wide, &Widths::STANDARD),
        Err(Refusal::UnmarkedBlock { row: 1, column: 69 })
    );
}

#[test]
fn finalize_refuses() {
    for (grid, number) in refused_grids() {
        assert_eq!(
            finalize(&exact(&[0; 64]), &exact(&[0]), &grid, &Widths::STANDARD).map_err(Refusal::number),
            Err(number)
        );
    }
    let grid = small(InterleaveMode::B);
    assert_eq!(finalize(&exact(&[0; 63]), &exact(&[]), &grid, &Widths::STANDARD).map_err(Refusal::number), Err(11));
    assert_eq!(finalize(&exact(&[0; 64]), &exact(&[]), &grid, &Widths::STANDARD).map_err(Refusal::number), Err(12));
    assert_eq!(finalize(&exact(&[0; 64]), &exact(&[0]), &grid, &Widths::STANDARD).map_err(Refusal::number), Err(15));
}
