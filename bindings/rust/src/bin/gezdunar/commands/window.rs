//! A rectangle of the picture, read across blocks.

use super::Command;
use crate::answer::{self, Answer};
use crate::arguments::{required, Given, Known};
use crate::edges;
use crate::failure::Failure;
use crate::image::{self, Image};
use crate::parts;
use crate::picture::{self, Picture};
use crate::widths;
use gezdunar::{read_window_vec, Window};

pub const COMMAND: Command = Command {
    name: "window",
    summary: "reads a rectangle of the picture, across blocks",
    help: &[HEAD, picture::HELP, edges::HELP, widths::HELP, parts::HELP, image::HELP, answer::HELP, EXAMPLE],
    options: &[
        &OPTIONS,
        &picture::OPTIONS,
        &edges::OPTIONS,
        &widths::OPTIONS,
        &parts::OPTIONS,
        &image::OPTIONS,
        &answer::OPTIONS,
    ],
    run,
};

const OPTIONS: [Known; 4] =
    [required("--row"), required("--column"), required("--window-rows"), required("--window-columns")];

const HEAD: &str = "\
usage: gezdunar window --row N --column N --window-rows N --window-columns N
         GRID IMAGE [ANSWER]

  --row N             the window's first row in the picture, from 0
  --column N          the window's first column in the picture, from 0
  --window-rows N     how many rows
  --window-columns N  how many columns
";

const EXAMPLE: &str = "\
example, 40 rows and 60 columns in colour:
  gezdunar window --row 100 --column 90 --window-rows 40 --window-columns 60 \\
    --list 4,2,0 --preview window.ppm --image picture.P \\
    --rows 203 --columns 317 --bands 5 --bits 12 --mode P \\
    --block-rows 64 --block-columns 48 --edges full
the same window of a NITF file, in which the image subheader begins at byte 404
and the image at byte 895, with the grid from that subheader:
  gezdunar window --row 100 --column 90 --window-rows 40 --window-columns 60 \\
    --list 4,2,0 --preview window.ppm --image picture.ntf --offset 895 \\
    --bands 5 --edges full --part-offsets 737,777,846
";

fn run(given: &Given) -> Result<(), Failure> {
    let picture = Picture::of_image(given)?;
    let window = window(given)?;
    let image = Image::new(given)?;
    let answer = Answer::new(given, &picture)?;
    let block_row = last(window.row, window.rows) / picture.grid.nppbv;
    let block_col = last(window.column, window.columns) / picture.grid.nppbh;
    let bytes = image.read(&picture, block_row, block_col)?;
    match read_window_vec(&bytes, &picture.grid, &picture.widths, window, answer.list.bands()) {
        Ok((shape, samples)) => answer.give(&picture, shape, &samples),
        Err(refusal) => Err(image.refused(&picture, refusal, bytes.len(), &asked(window))),
    }
}

fn window(given: &Given) -> Result<Window, Failure> {
    Ok(Window {
        row: given.number("--row")?,
        column: given.number("--column")?,
        rows: given.number("--window-rows")?,
        columns: given.number("--window-columns")?,
    })
}

/// The last row or column of a window.
fn last(first: u32, count: u32) -> u32 {
    first.saturating_add(count).saturating_sub(1)
}

fn asked(window: Window) -> String {
    let Window { row, column, rows, columns } = window;
    format!("asked for: {rows} rows from row {row}, {columns} columns from column {column}")
}
