//! Writes a test picture to the file that is named: 203 rows by 317 columns, 5 bands of 12 bits, band by band, row by
//! row, each sample in two big-endian bytes. Edges and a diagonal are bright in every band. Bands 4, 2 and 0 have a
//! large disc each, which overlap; bands 3 and 1 have squares. Behind them it becomes brighter to the right.

use std::process::ExitCode;
use std::{env, fs};

const ROWS: i32 = 203;
const COLUMNS: i32 = 317;
const BANDS: i32 = 5;
const LARGEST: i32 = 4095;
const RADIUS: i32 = 55;

/// Is a place on the picture's edge or on its diagonal?
fn on_line(row: i32, column: i32) -> bool {
    let edge = row == 0 || column == 0 || row == ROWS - 1 || column == COLUMNS - 1;
    edge || row * (COLUMNS - 1) / (ROWS - 1) == column
}

/// Is a place inside a band's disc or square?
fn in_shape(band: i32, row: i32, column: i32) -> bool {
    let (middle_row, middle_column) = [(125, 195), (40, 50), (125, 125), (40, 265), (70, 160)][band as usize];
    let (down, across) = (row - middle_row, column - middle_column);
    match band % 2 {
        0 => down * down + across * across <= RADIUS * RADIUS,
        _ => down.abs() <= RADIUS / 2 && across.abs() <= RADIUS / 2,
    }
}

/// The sample at a place of a band.
fn sample(band: i32, row: i32, column: i32) -> u16 {
    let behind = 200 + 1100 * column / COLUMNS + 60 * band;
    let number = if on_line(row, column) {
        LARGEST
    } else if in_shape(band, row, column) {
        2600 + 1400 * row / ROWS
    } else {
        behind
    };
    number as u16
}

fn main() -> ExitCode {
    let Some(path) = env::args_os().nth(1) else {
        eprintln!("usage: test_picture FILE");
        return ExitCode::from(2);
    };
    let places = (0..BANDS * ROWS * COLUMNS).map(|i| (i / (ROWS * COLUMNS), i / COLUMNS % ROWS, i % COLUMNS));
    let bytes: Vec<u8> = places.flat_map(|(band, row, column)| sample(band, row, column).to_be_bytes()).collect();
    match fs::write(&path, bytes) {
        Ok(()) => ExitCode::SUCCESS,
        Err(error) => {
            eprintln!("cannot write {}: {error}", path.to_string_lossy());
            ExitCode::from(3)
        }
    }
}
