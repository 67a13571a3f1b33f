//! The sizes of a grid.

use super::Command;
use crate::arguments::Given;
use crate::edges;
use crate::failure::Failure;
use crate::parts;
use crate::picture::{self, Picture};
use crate::streams;
use crate::widths;
use crate::words::{lines, mode};

pub const COMMAND: Command = Command {
    name: "info",
    summary: "shows the blocks and bytes of a grid",
    help: &[HEAD, picture::HELP, edges::HELP, widths::HELP, parts::HELP, EXAMPLE],
    options: &[&picture::OPTIONS, &edges::OPTIONS, &widths::OPTIONS, &parts::OPTIONS],
    run,
};

const HEAD: &str = "\
usage: gezdunar info GRID

Prints one fact a line. No file is read but that of the parts. A grid that is
not accepted is refused with 1, 2, 3 or 4.
";

const EXAMPLE: &str = "\
example:
  gezdunar info --rows 203 --columns 317 --bands 5 --bits 12 --mode P \\
    --block-rows 64 --block-columns 48 --edges full
the same, with the grid from the parts of a subheader:
  printf '0000020300000317INTMULTI   MS      12RNCP000700040048006412' > parts
  gezdunar info --bands 5 --edges full --part-offsets 0,38,40 \\
    --parts-file parts
";

fn run(given: &Given) -> Result<(), Failure> {
    let picture = Picture::new(given)?;
    let masked = picture.masked.then(|| ("mask (IC)", "NM, masked; the bytes are those of all blocks".to_owned()));
    let rule = edges::fact(&picture.grid);
    streams::print(&lines(shape(&picture).into_iter().chain(rule).chain(bytes(&picture)).chain(masked)))
}

/// The picture and its blocks.
fn shape(picture: &Picture) -> Vec<(&'static str, String)> {
    let grid = &picture.grid;
    vec![
        ("rows (NROWS)", grid.nrows.to_string()),
        ("columns (NCOLS)", grid.ncols.to_string()),
        ("bands", grid.bands.to_string()),
        ("bits of a sample (NBPP)", grid.nbpp.to_string()),
        ("mode (IMODE)", mode(grid.imode).to_owned()),
        ("rows of a block (NPPBV)", grid.nppbv.to_string()),
        ("columns of a block (NPPBH)", grid.nppbh.to_string()),
        ("blocks down (NBPC)", grid.nbpc.to_string()),
        ("blocks across (NBPR)", grid.nbpr.to_string()),
        ("blocks in all", picture.sizes.blocks.to_string()),
        ("actual rows of the last block row", grid.actual_rows(grid.nbpc.saturating_sub(1)).to_string()),
        ("actual columns of the last column", grid.actual_columns(grid.nbpr.saturating_sub(1)).to_string()),
    ]
}

/// The sizes.
fn bytes(picture: &Picture) -> Vec<(&'static str, String)> {
    let sizes = &picture.sizes;
    vec![
        ("bytes of a sample outside the image", sizes.sample_bytes.to_string()),
        ("bytes of all samples, as pack reads", picture.sample_bytes().to_string()),
        ("bytes of one band of a block", sizes.band_bytes.to_string()),
        ("bytes of a block", sizes.block_bytes.to_string()),
        ("bytes of the image", sizes.image_bytes.to_string()),
        ("64-bit words for the marks", sizes.mark_words.to_string()),
    ]
}
