//! Cases that the drawn ones do not reach: blocks of more than 64 rows, blocks that the original gives
//! to its parallel form, pixels longer than a line of the cache, block sides far above 8,192, and grids
//! at the limits of questions 1, 3 and 4.

use crate::model::layout;
use crate::{Call, Case, Grid, Mode, Pack, Source};

type Makers = Vec<Box<dyn FnOnce(&mut Source) -> Case>>;

/// The original changes to the parallel form at this many bytes of samples.
const PARALLEL: u64 = 4 * 1024 * 1024;

fn bytes(from: &mut Source, count: u64) -> Vec<u8> {
    (0..count).map(|_| from.byte()).collect()
}

/// A read of a block from the least data that serves.
fn read(from: &mut Source, grid: Grid, (row, column): (u32, u32), bands: Option<Vec<u32>>) -> Case {
    let image = bytes(from, layout::block_end(&grid, row, column));
    Case::Read { grid, image, row, column, level: 0, bands }
}

/// A frame of which one block is written and the others are skipped.
fn write(from: &mut Source, grid: Grid, block: (u32, u32)) -> Case {
    let mut calls = Vec::new();
    for (row, column) in grid.every_block() {
        if (row, column) == block {
            let (rows, columns) = (layout::actual_rows(&grid, row), layout::actual_columns(&grid, column));
            let mut data = bytes(from, u64::from(grid.bands) * rows * columns * layout::sample_bytes(&grid));
            grid.clear_higher_bits(&mut data);
            calls.push(Call::Write { row, column, shape: [grid.bands, rows as u32, columns as u32], data });
        } else {
            calls.push(Call::Skip { row, column });
        }
    }
    calls.push(Call::Finish);
    Case::Frame { grid, calls }
}

/// As many bytes as the samples of a reordering take.
fn samples(from: &mut Source, pack: Pack) -> Vec<u8> {
    bytes(from, [pack.rows, pack.columns, pack.bands, pack.size].map(u64::from).iter().product())
}

/// Makes the cases one after another, as together they are large.
pub fn large() -> impl Iterator<Item = Case> {
    let mut makers: Makers = Vec::new();
    many_rows(&mut makers);
    parallel(&mut makers);
    long_pixels(&mut makers);
    long_sides(&mut makers);
    many_bands(&mut makers);
    many_blocks(&mut makers);
    zero_counts(&mut makers);
    makers.into_iter().scan(Source::random(1), |from, make| {
        from.advance();
        Some(make(from))
    })
}

fn many_rows(makers: &mut Makers) {
    for mode in Mode::ALL {
        for nbpp in [1, 8, 12, 16, 24, 31, 32, 40, 64] {
            for rows in [63, 64, 65, 130] {
                let grid = Grid::new([131, 3], 3, nbpp, mode, [rows, 2]);
                for list in [None, Some(vec![2, 0, 2])] {
                    makers.push(Box::new(move |from| read(from, grid, (0, 1), list)));
                }
            }
        }
    }
}

fn parallel(makers: &mut Makers) {
    for (nbpp, side) in [(8, 1200), (12, 1000), (16, 900), (24, 700), (32, 600), (64, 450)] {
        // A full block, and an edge block that lacks a row and two columns.
        for picture in [[side, side], [side - 1, side - 2]] {
            let grid = Grid::new(picture, 3, nbpp, Mode::P, [side, side]);
            let samples = u64::from(picture[0]) * u64::from(picture[1]) * 3;
            assert!(samples * layout::sample_bytes(&grid) >= PARALLEL);
            for list in [None, Some(vec![2, 0])] {
                makers.push(Box::new(move |from| read(from, grid, (0, 0), list)));
            }
        }
    }
}

/// Several bands whose pixel is longer than 64 bytes, and rows of so many bands; blocks at the lower
/// right lack rows and columns.
fn long_pixels(makers: &mut Makers) {
    for mode in Mode::ALL {
        for nbpp in [7, 8, 12, 16, 24, 32, 40, 64] {
            for bands in [16, 17, 23, 67] {
                let grid = Grid::new([31, 29], bands, nbpp, mode, [19, 17]);
                for block in [(0, 0), (1, 1)] {
                    for list in [None, Some(vec![bands - 1, 3, 11]), Some((0..bands).rev().collect())] {
                        makers.push(Box::new(move |from| read(from, grid, block, list)));
                    }
                    makers.push(Box::new(move |from| write(from, grid, block)));
                }
                let pack = Pack { mode, rows: 19, columns: 17, bands, size: nbpp.div_ceil(8) };
                makers.push(Box::new(move |from| Case::ToSequential { pack, data: samples(from, pack) }));
                makers.push(Box::new(move |from| Case::FromSequential { pack, data: samples(from, pack) }));
                for list in [vec![bands - 1, 3, 11], (0..bands).rev().collect()] {
                    let pack = Pack { mode: Mode::P, ..pack };
                    makers.push(Box::new(move |from| {
                        let data = samples(from, pack);
                        Case::Select { pack, data, bands: Some(list), tile: 8, parallel: false }
                    }));
                }
            }
        }
    }
}

/// Block sides that are the picture's: in one block, and in two of which the second lacks a row or a column.
fn long_sides(makers: &mut Makers) {
    for mode in Mode::ALL {
        for side in [65_536, 65_537] {
            for nbpp in [1, 8, 12, 64] {
                let wide = Grid::new([5, side], 2, nbpp, mode, [3, side]);
                let tall = Grid::new([side, 5], 2, nbpp, mode, [side, 3]);
                for (grid, block) in [(wide, (1, 0)), (tall, (0, 1))] {
                    makers.push(Box::new(move |from| read(from, grid, block, Some(vec![1]))));
                    makers.push(Box::new(move |from| write(from, grid, block)));
                }
            }
        }
        for picture in [[1, 9_999_999], [9_999_999, 1], [2_049, 8_193], [8_193, 2_049]] {
            let grid = Grid::new(picture, 1, 1, mode, picture);
            makers.push(Box::new(move |from| read(from, grid, (0, 0), None)));
        }
    }
    let both = Grid::new([8_193, 8_193], 1, 1, Mode::B, [8_193, 8_193]);
    makers.push(Box::new(move |from| read(from, both, (0, 0), None)));
}

fn many_bands(makers: &mut Makers) {
    for mode in Mode::ALL {
        for nbpp in [7, 8] {
            let grid = Grid::new([1, 1], 99_999, nbpp, mode, [1, 1]);
            for list in [None, Some(vec![99_998, 0]), Some(vec![0, 99_999])] {
                makers.push(Box::new(move |from| read(from, grid, (0, 0), list)));
            }
        }
    }
}

fn many_blocks(makers: &mut Makers) {
    for mode in Mode::ALL {
        // 9,999 blocks down, the last one row short.
        let tall = Grid::new([81_911_807, 1], 1, 1, mode, [8192, 1]);
        for row in [0, 9_997, 9_998] {
            makers.push(Box::new(move |from| read(from, tall, (row, 0), None)));
        }
        // An image of 4,259,414,016 bytes, of which the first row of blocks is there.
        let wide = Grid::new([9_999, 425_984], 1, 8, mode, [1, 8192]);
        for column in [0, 51] {
            makers.push(Box::new(move |from| read(from, wide, (0, column), None)));
        }
        let marks = Grid::new([9_999, 3], 2, 1, mode, [1, 1]);
        makers.push(Box::new(move |from| {
            let words = marks.blocks().div_ceil(64);
            let marks_words = (0..words).map(|_| from.below(1 << 52)).collect();
            Case::FromMarks { grid: marks, marks: marks_words }
        }));
        let frame = Grid::new([400, 1], 1, 1, mode, [1, 1]);
        makers.push(Box::new(move |_| {
            let mut calls: Vec<Call> = (0..399).map(|row| Call::Skip { row, column: 0 }).collect();
            calls.push(Call::Finish);
            calls.push(Call::Write { row: 399, column: 0, shape: [1, 1, 1], data: vec![1] });
            calls.push(Call::Finish);
            Case::Frame { grid: frame, calls }
        }));
    }
}

/// No samples, with large other counts. In R with no columns the original goes round an empty loop as
/// often as rows times bands, so these counts stay small.
fn zero_counts(makers: &mut Makers) {
    for mode in Mode::ALL {
        for [rows, columns, bands] in [[0, u32::MAX, u32::MAX], [2000, 2000, 0], [2000, 0, 2000]] {
            let pack = Pack { mode, rows, columns, bands, size: 8 };
            makers.push(Box::new(move |_| Case::ToSequential { pack, data: Vec::new() }));
            makers.push(Box::new(move |_| Case::FromSequential { pack, data: Vec::new() }));
        }
    }
}
