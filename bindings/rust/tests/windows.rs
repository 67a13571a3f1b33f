//! The window.

mod common;

use common::{counting, exact, refused_grids, shape, small};
use gezdunar::{read_window, read_window_vec, Bands, EdgeRule, Grid, InterleaveMode, Refusal, Widths, Window};

const WHOLE: Window = Window { row: 0, column: 0, rows: 3, columns: 5 };

/// The number of a window on an image of this length, with an output of three bytes that must be kept.
fn refused(grid: &Grid, length: usize, window: Window, bands: Bands) -> u32 {
    let image = counting(length);
    let mut out = exact(&[1, 2, 3]);
    let answer = read_window(&image, grid, &Widths::STANDARD, window, bands, &mut out);
    assert_eq!(*out, [1, 2, 3]);
    answer.map_or_else(Refusal::number, |_| 0)
}

#[test]
fn figures_a_to_d_through_a_window() {
    let corner = Window { row: 2, column: 4, rows: 1, columns: 1 };
    for (imode, places) in InterleaveMode::ALL.into_iter().zip([[48, 56], [48, 49], [48, 52], [24, 56]]) {
        let mut out = exact(&[0; 2]);
        let answer = read_window(&counting(64), &small(imode), &Widths::STANDARD, corner, Bands::All, &mut out);
        assert_eq!((answer, &out[..]), (Ok(shape(2, 1, 1)), &places[..]));
    }
}

#[test]
fn figures_e_f_and_h_to_j_through_a_window() {
    let (grid, corner) = (small(InterleaveMode::P), Window { row: 2, column: 4, rows: 1, columns: 1 });
    let read = |length, bands: Bands| {
        read_window_vec(&counting(length), &grid, &Widths::STANDARD, corner, bands).map_err(Refusal::number)
    };
    assert_eq!(read(50, Bands::All), Ok((shape(2, 1, 1), vec![48, 49])));
    assert_eq!(read(49, Bands::All), Err(7));
    assert_eq!(read(64, Bands::Listed(&exact(&[1, 1]))), Ok((shape(2, 1, 1), vec![49, 49])));
    assert_eq!(read(64, Bands::Listed(&exact(&[2]))), Err(8));
    assert_eq!(read(64, Bands::Listed(&exact(&[]))), Ok((shape(0, 1, 1), vec![])));
}

#[test]
fn a_window_across_all_blocks() {
    let mut out = exact(&[0; 15]);
    let answer = read_window(
        &counting(64),
        &small(InterleaveMode::B),
        &Widths::STANDARD,
        WHOLE,
        Bands::Listed(&exact(&[1])),
        &mut out,
    );
    assert_eq!(answer, Ok(shape(1, 3, 5)));
    assert_eq!(*out, [8, 9, 10, 11, 24, 12, 13, 14, 15, 28, 40, 41, 42, 43, 56]);
}

#[test]
fn a_longer_output_keeps_its_rest() {
    let window = Window { row: 1, column: 3, rows: 1, columns: 2 };
    let mut out = exact(&[0xAA; 6]);
    let answer = read_window(&counting(64), &small(InterleaveMode::B), &Widths::STANDARD, window, Bands::All, &mut out);
    assert_eq!((answer, &out[..]), (Ok(shape(2, 1, 2)), &[7, 20, 15, 28, 0xAA, 0xAA][..]));
}

#[test]
fn read_window_refuses() {
    for (grid, number) in refused_grids() {
        assert_eq!(refused(&grid, 64, WHOLE, Bands::All), number);
        assert_eq!(
            read_window_vec(&counting(64), &grid, &Widths::STANDARD, WHOLE, Bands::All).map_err(Refusal::number),
            Err(number)
        );
    }
    let grid = small(InterleaveMode::R);
    let wrong = [
        Window { rows: 0, ..WHOLE },
        Window { columns: 0, ..WHOLE },
        Window { rows: 4, ..WHOLE },
        Window { columns: 6, ..WHOLE },
        Window { row: 1, ..WHOLE },
        Window { column: 1, ..WHOLE },
        Window { row: u32::MAX, column: u32::MAX, rows: u32::MAX, columns: u32::MAX },
        Window { row: u32::MAX, rows: 1, ..WHOLE },
        Window { row: 1, rows: u32::MAX, ..WHOLE },
    ];
    for window in wrong {
        assert_eq!(refused(&grid, 64, window, Bands::All), 10, "{window:?}");
        assert_eq!(
            read_window_vec(&counting(64), &grid, &Widths::STANDARD, window, Bands::All).map_err(Refusal::number),
            Err(10)
        );
    }
    assert_eq!(refused(&grid, 48, WHOLE, Bands::All), 7);
    assert_eq!(refused(&grid, 64, WHOLE, Bands::Listed(&exact(&[1, 2]))), 8);
    assert_eq!(refused(&grid, 64, WHOLE, Bands::All), 9);
}

#[test]
fn read_window_asks_in_order() {
    let (grid, empty, list) = (small(InterleaveMode::B), Window { rows: 0, ..WHOLE }, exact(&[9]));
    let bands = Bands::Listed(&list);
    assert_eq!(refused(&Grid { bands: 0, ..grid }, 0, empty, bands), 1);
    assert_eq!(refused(&grid, 0, empty, bands), 10);
    assert_eq!(refused(&grid, 0, WHOLE, bands), 7);
    assert_eq!(refused(&grid, 64, WHOLE, bands), 8);
    assert_eq!(refused(&grid, 64, WHOLE, Bands::Listed(&exact(&[1]))), 9);
}

#[test]
fn a_window_looks_only_at_the_blocks_that_it_crosses() {
    let (grid, left) = (small(InterleaveMode::B), Window { row: 0, column: 0, rows: 2, columns: 4 });
    let answer = read_window_vec(&counting(16), &grid, &Widths::STANDARD, left, Bands::All);
    assert_eq!(answer, Ok((shape(2, 2, 4), counting(16).to_vec())));
    assert_eq!(read_window_vec(&counting(15), &grid, &Widths::STANDARD, left, Bands::All), Err(Refusal::ImageEnds));
}

#[test]
fn an_answer_that_memory_cannot_hold_is_refused() {
    // 67,108,864 samples, asked for 4,194,304 times.
    let grid = Grid::new(8_192, 8_192, 1, 1, InterleaveMode::B, EdgeRule::Full, 8_192, 8_192);
    let image = vec![0; 8_388_608];
    let list = vec![0; 4_194_304];
    let window = Window { row: 0, column: 0, rows: 8_192, columns: 8_192 };
    let answer = read_window_vec(&image, &grid, &Widths::STANDARD, window, Bands::Listed(&list));
    assert_eq!(answer, Err(Refusal::OutputTooShort));
}
