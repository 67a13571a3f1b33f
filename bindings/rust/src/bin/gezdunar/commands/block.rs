//! One block, read.

use super::Command;
use crate::answer::{self, Answer};
use crate::arguments::{required, Given, Known};
use crate::edges;
use crate::failure::Failure;
use crate::image::{self, Image};
use crate::parts;
use crate::picture::{self, Picture};
use crate::widths;
use gezdunar::decode_block_vec;

pub const COMMAND: Command = Command {
    name: "block",
    summary: "reads one block of an image",
    help: &[HEAD, picture::HELP, edges::HELP, widths::HELP, parts::HELP, image::HELP, answer::HELP, EXAMPLE],
    options: &[
        &OPTIONS,
        &picture::OPTIONS,
        &edges::OPTIONS,
        &widths::OPTIONS,
        &parts::OPTIONS,
        &image::OPTIONS,
        &answer::OPTIONS,
    ],
    run,
};

const OPTIONS: [Known; 2] = [required("--row"), required("--column")];

const HEAD: &str = "\
usage: gezdunar block --row N --column N GRID IMAGE [ANSWER]

  --row N             the block's row, in blocks from 0
  --column N          the block's column, in blocks from 0
  The last row and column of blocks hold only the rows and columns inside the
  picture.
";

const EXAMPLE: &str = "\
example, band 2 of the lower right block to look at:
  gezdunar block --row 3 --column 6 --list 2 --preview corner.pgm \\
    --image picture.P --rows 203 --columns 317 --bands 5 --bits 12 --mode P \\
    --block-rows 64 --block-columns 48 --edges full
the same block, with the grid from the parts of a subheader:
  printf '0000020300000317INTMULTI   MS      12RNCP000700040048006412' > parts
  gezdunar block --row 3 --column 6 --list 2 --preview corner.pgm \\
    --image picture.P --bands 5 --edges full --part-offsets 0,38,40 \\
    --parts-file parts
";

fn run(given: &Given) -> Result<(), Failure> {
    let picture = Picture::of_image(given)?;
    let (row, column) = (given.number("--row")?, given.number("--column")?);
    let image = Image::new(given)?;
    let answer = Answer::new(given, &picture)?;
    let bytes = image.read(&picture, row, column)?;
    match decode_block_vec(&bytes, &picture.grid, &picture.widths, row, column, 0, answer.list.bands()) {
        Ok((shape, samples)) => answer.give(&picture, shape, &samples),
        Err(refusal) => {
            let asked = format!("asked for: block row {row}, block column {column}");
            Err(image.refused(&picture, refusal, bytes.len(), &asked))
        }
    }
}
