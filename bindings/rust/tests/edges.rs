//! Edge blocks under both rules.

mod common;

use common::expected::packed_bit;
use common::{block_samples, blocks, exact, modes_and_rules, sample, samples, shape, WIDTHS};
use gezdunar::{
    decode_block_vec, encode_block, read_window_vec, relay, whole_block, Bands, EdgeRule, Grid, InterleaveMode, Widths,
    Window,
};

/// The widths at which the rules differ.
fn packed_widths() -> impl Iterator<Item = u32> {
    WIDTHS.into_iter().filter(|nbpp| nbpp % 8 != 0)
}

/// The bands of a grid.
fn bands(grid: &Grid) -> Vec<u32> {
    (0..grid.bands).collect()
}

/// An image in which every byte is this one, with the plain picture written over it.
fn written_over(byte: u8, grid: &Grid) -> Box<[u8]> {
    let sizes = grid.sizes(&Widths::STANDARD).expect("an accepted grid");
    let (mut image, mut marks) = (exact(&vec![byte; sizes.image_bytes]), exact(&vec![0; sizes.mark_words]));
    for (row, column) in blocks(grid) {
        let data = block_samples(grid, &bands(grid), row, column);
        let shape = grid.block_shape(row, column);
        assert_eq!(encode_block(&mut image, &mut marks, grid, &Widths::STANDARD, row, column, shape, &data), Ok(()));
    }
    image
}

/// The image of the plain picture at a width that is no byte multiple: the bits of its samples, zeros elsewhere.
fn expected_image(grid: &Grid) -> Vec<u8> {
    let mut image = vec![0; grid.sizes(&Widths::STANDARD).expect("an accepted grid").image_bytes];
    for block in blocks(grid) {
        let (rows, columns) = (grid.actual_rows(block.0), grid.actual_columns(block.1));
        let (top, left) = ((block.0 * grid.nppbv) as usize, (block.1 * grid.nppbh) as usize);
        for place in 0..grid.bands as usize * rows * columns {
            let [band, row, column] = [place / (rows * columns), place / columns % rows, place % columns];
            let number = sample(grid, band, top + row, left + column);
            let first = packed_bit(grid, block, [band, row, column]);
            for bit in 0..grid.nbpp as usize {
                let value = (number >> (grid.nbpp as usize - 1 - bit) & 1) as u8;
                image[(first + bit) / 8] |= value << (7 - (first + bit) % 8);
            }
        }
    }
    image
}

/// Reads every block, and windows inside and across blocks, and compares them with the plain picture.
fn reads_hold(image: &[u8], grid: &Grid) {
    let list: Vec<u32> = bands(grid).into_iter().rev().collect();
    for (row, column) in blocks(grid) {
        let (_, read) = decode_block_vec(image, grid, &Widths::STANDARD, row, column, 0, Bands::Listed(&list))
            .expect("an accepted read");
        assert_eq!(read, *block_samples(grid, &list, row, column), "{grid:?}");
    }
    for (row, column) in [(0, 0), (1, 2), (2, 5), (4, 6), (4, 0)] {
        let (rows, columns) = (grid.nrows - row, grid.ncols - column);
        for (rows, columns) in [(rows, columns), (1, columns), (rows, 1)] {
            let window = Window { row, column, rows, columns };
            let (_, read) = read_window_vec(image, grid, &Widths::STANDARD, window, Bands::Listed(&list))
                .expect("an accepted window");
            let [row, column, rows, columns] = [row, column, rows, columns].map(|number| number as usize);
            assert_eq!(read, *samples(grid, &list, row, column, rows, columns), "{window:?}, {grid:?}");
        }
    }
}

#[test]
fn every_bit_of_an_image_is_a_samples_or_zero() {
    for (imode, edges) in modes_and_rules() {
        for nbpp in packed_widths() {
            for (bands, nppbh, nppbv) in [(1, 3, 2), (2, 4, 3), (3, 5, 4), (2, 8, 8)] {
                let grid = Grid::new(5, 7, bands, nbpp, imode, edges, nppbh, nppbv);
                let image = written_over(0xFF, &grid);
                assert_eq!(*image, expected_image(&grid), "{grid:?}");
                assert_eq!(image, written_over(0, &grid), "{grid:?}");
            }
        }
    }
}

#[test]
fn edge_blocks_of_12_bits_come_back() {
    for (imode, edges) in modes_and_rules() {
        for (bands, nppbh, nppbv) in [(1, 4, 2), (2, 4, 3), (3, 5, 4), (5, 2, 2), (2, 8, 8)] {
            let grid = Grid::new(5, 7, bands, 12, imode, edges, nppbh, nppbv);
            reads_hold(&written_over(0xFF, &grid), &grid);
        }
    }
}

/// Two bands of 12 bits, 3 rows by 7 columns, in blocks of 2 by 4: block (1, 1) has 1 row and 3 columns inside.
fn corner(imode: InterleaveMode, edges: EdgeRule) -> Vec<u8> {
    let grid = Grid::new(3, 7, 2, 12, imode, edges, 4, 2);
    let (mut image, mut marks) = (exact(&[0xFF; 96]), exact(&[0; 1]));
    let data = exact(&[0x0A, 0, 0x0A, 1, 0x0A, 2, 0x0B, 0, 0x0B, 1, 0x0B, 2]);
    assert_eq!(encode_block(&mut image, &mut marks, &grid, &Widths::STANDARD, 1, 1, shape(2, 1, 3), &data), Ok(()));
    assert!(image[..72].iter().all(|&byte| byte == 0xFF));
    whole_block(&image, &grid, &Widths::STANDARD, 1, 1).expect("a whole image").to_vec()
}

/// The bytes of two runs, with zeros up to 12 bytes each.
fn runs(first: &[u8], second: &[u8]) -> Vec<u8> {
    [first, second].iter().flat_map(|run| [run, &[0; 12][run.len()..]].concat()).collect()
}

#[test]
fn the_runs_of_an_edge_block() {
    let (a, b) = ([0xA0, 0x0A, 0x01, 0xA0, 0x20], [0xB0, 0x0B, 0x01, 0xB0, 0x20]);
    assert_eq!(corner(InterleaveMode::B, EdgeRule::Tight), runs(&a, &b));
    assert_eq!(corner(InterleaveMode::B, EdgeRule::Full), runs(&a, &b));
    // In P and R a sample may be in another run.
    let (first, second) = ([0xA0, 0x0B, 0x00, 0xA0, 0x10], [0xB0, 0x1A, 0x02, 0xB0, 0x20]);
    assert_eq!(corner(InterleaveMode::P, EdgeRule::Tight), runs(&first, &second));
    let pixels = [0xA0, 0x0B, 0x00, 0xA0, 0x1B, 0x01, 0xA0, 0x2B, 0x02];
    assert_eq!(corner(InterleaveMode::P, EdgeRule::Full), runs(&pixels, &[]));
    assert_eq!(corner(InterleaveMode::R, EdgeRule::Tight), runs(&a, &b));
    assert_eq!(corner(InterleaveMode::R, EdgeRule::Full), runs(&[&a[..], &[0], &b].concat(), &[]));
}

/// The images of the plain picture under tight and under full.
fn both(grid: Grid) -> [(Box<[u8]>, Grid); 2] {
    EdgeRule::ALL.map(|edges| (written_over(0xFF, &Grid { edges, ..grid }), Grid { edges, ..grid }))
}

#[test]
fn images_under_both_rules_give_the_same_windows() {
    for imode in InterleaveMode::ALL {
        for nbpp in packed_widths() {
            let grid = Grid::new(5, 7, 3, nbpp, imode, EdgeRule::Tight, 4, 3);
            let [(tight, tight_grid), (full, full_grid)] = both(grid);
            assert_ne!(tight, full, "{grid:?}");
            reads_hold(&tight, &tight_grid);
            reads_hold(&full, &full_grid);
        }
    }
}

#[test]
fn byte_multiples_lie_the_same() {
    for imode in InterleaveMode::ALL {
        for nbpp in WIDTHS.into_iter().filter(|nbpp| nbpp % 8 == 0) {
            let grid = Grid::new(5, 7, 3, nbpp, imode, EdgeRule::Tight, 4, 3);
            let [(tight, tight_grid), (full, full_grid)] = both(grid);
            assert_eq!(tight, full, "{grid:?}");
            // Either image may be read under either rule.
            reads_hold(&full, &tight_grid);
            reads_hold(&tight, &full_grid);
        }
    }
}

#[test]
fn blocks_that_are_all_inside_lie_the_same() {
    for imode in InterleaveMode::ALL {
        for nbpp in packed_widths() {
            // The picture's sides are multiples of the block's, or its own.
            for (nrows, ncols, nppbh, nppbv) in [(6, 8, 4, 3), (5, 7, 7, 5), (5, 7, 1, 1), (5, 7, 7, 1), (5, 7, 1, 5)] {
                let [(tight, _), (full, _)] =
                    both(Grid::new(nrows, ncols, 3, nbpp, imode, EdgeRule::Tight, nppbh, nppbv));
                assert_eq!(tight, full, "NBPP {nbpp} in {imode}, {nrows} by {ncols}");
            }
        }
    }
}

#[test]
fn a_wrong_guess_gives_believable_samples() {
    for imode in InterleaveMode::ALL {
        let grid = Grid::new(5, 7, 3, 12, imode, EdgeRule::Tight, 4, 3);
        let all = Window { row: 0, column: 0, rows: 5, columns: 7 };
        let [(tight, tight_grid), (full, full_grid)] = both(grid);
        let expected = samples(&grid, &[0, 1, 2], 0, 0, 5, 7);
        for (image, wrong) in [(tight, full_grid), (full, tight_grid)] {
            let (shape, read) =
                read_window_vec(&image, &wrong, &Widths::STANDARD, all, Bands::All).expect("nothing tells the rule");
            assert_eq!(shape, common::shape(3, 5, 7));
            assert_ne!(read, *expected, "{imode}");
            // The blocks that are all inside are read as they are.
            let (_, inside) =
                decode_block_vec(&image, &wrong, &Widths::STANDARD, 0, 0, 0, Bands::All).expect("an accepted read");
            assert_eq!(inside, *block_samples(&grid, &[0, 1, 2], 0, 0), "{imode}");
        }
    }
}

/// The image with ones in each bit that is of no sample.
fn with_ones_beside(image: &[u8], grid: &Grid) -> Vec<u8> {
    let mut ones = vec![0xFF; image.len()];
    for block in blocks(grid) {
        for place in 0..grid.block_shape(block.0, block.1).bytes(1) {
            let (rows, columns) = (grid.actual_rows(block.0), grid.actual_columns(block.1));
            let [band, row, column] = [place / (rows * columns), place / columns % rows, place % columns];
            let first = packed_bit(grid, block, [band, row, column]);
            (first..first + grid.nbpp as usize).for_each(|bit| ones[bit / 8] &= !(1 << (7 - bit % 8)));
        }
    }
    image.iter().zip(ones).map(|(byte, ones)| byte | ones).collect()
}

#[test]
fn a_relay_leaves_what_full_from_the_start_has() {
    for imode in InterleaveMode::ALL {
        for nbpp in packed_widths() {
            for (bands, nppbh, nppbv) in [(1, 3, 2), (2, 4, 3), (3, 5, 4), (2, 8, 8), (5, 7, 3)] {
                let tight = Grid::new(5, 7, bands, nbpp, imode, EdgeRule::Tight, nppbh, nppbv);
                let full = Grid { edges: EdgeRule::Full, ..tight };
                let size = tight.sizes(&Widths::STANDARD).expect("an accepted grid").block_bytes;
                let mut image = exact(&[&with_ones_beside(&expected_image(&tight), &tight)[..], &[0xAA; 3]].concat());
                let mut scratch = exact(&vec![0xAA; size + 2]);
                let marks = exact(&vec![0x5A; tight.sizes(&Widths::STANDARD).expect("an accepted grid").mark_words]);
                assert_eq!(relay(&mut image, &marks, &tight, &Widths::STANDARD, &mut scratch), Ok(full));
                let length = image.len() - 3;
                assert_eq!(image[..length], expected_image(&full), "{tight:?}");
                assert_eq!((&image[length..], &scratch[size..]), (&[0xAA; 3][..], &[0xAA; 2][..]));
                assert!(scratch[..size].iter().all(|&byte| byte == 0));
                reads_hold(&image, &full);
            }
        }
    }
}

#[test]
fn at_byte_multiples_a_relay_clears_the_scratch_alone() {
    for imode in InterleaveMode::ALL {
        for nbpp in [8, 16, 24, 64] {
            let tight = Grid::new(5, 7, 2, nbpp, imode, EdgeRule::Tight, 4, 3);
            let sizes = tight.sizes(&Widths::STANDARD).expect("an accepted grid");
            let before: Vec<u8> = (0..sizes.image_bytes).map(|i| i as u8).collect();
            let (mut image, mut scratch) = (exact(&before), exact(&vec![0xAA; sizes.block_bytes]));
            let marks = exact(&vec![0; sizes.mark_words]);
            let full = Grid { edges: EdgeRule::Full, ..tight };
            assert_eq!(relay(&mut image, &marks, &tight, &Widths::STANDARD, &mut scratch), Ok(full));
            assert_eq!((&*image, &*scratch), (&before[..], &vec![0; sizes.block_bytes][..]));
        }
    }
}

#[test]
fn a_relay_is_refused_in_order() {
    let tight = Grid::new(5, 7, 2, 12, InterleaveMode::S, EdgeRule::Tight, 4, 3);
    let full = Grid { edges: EdgeRule::Full, ..tight };
    let sizes = tight.sizes(&Widths::STANDARD).expect("an accepted grid");
    let (whole, words, room) = (sizes.image_bytes, sizes.mark_words, sizes.block_bytes);
    let wrong = Grid { nbpp: 17, ..full };
    for (grid, image, marks, scratch, number) in [
        (wrong, 0, 0, 0, 2),
        (full, whole - 1, 0, 0, 11),
        (full, whole, words - 1, 0, 12),
        (full, whole, words, 0, 27),
        (tight, whole, words, room - 1, 9),
        (tight, whole, words, 0, 9),
    ] {
        let (mut image, mut scratch) = (exact(&vec![0xA5; image]), exact(&vec![0xA5; scratch]));
        let answer = relay(&mut image, &exact(&vec![0; marks]), &grid, &Widths::STANDARD, &mut scratch);
        assert_eq!(answer.map_err(gezdunar::Refusal::number), Err(number));
        assert!(image.iter().chain(scratch.iter()).all(|&byte| byte == 0xA5));
    }
}
