//! An image laid anew, from tight edge blocks to full ones.

use super::Command;
use crate::arguments::{missing_one, optional, required, Given, Known};
use crate::edges;
use crate::failure::Failure;
use crate::files;
use crate::image::Image;
use crate::output::Output;
use crate::parts;
use crate::picture::{self, Picture};
use crate::widths;
use crate::words::count;
use gezdunar::{relay, Refusal};

pub const COMMAND: Command = Command {
    name: "relay",
    summary: "lays an image's blocks anew, from tight edge blocks to full",
    help: &[HEAD, picture::HELP, edges::HELP, widths::HELP, parts::HELP, EXAMPLE],
    options: &[&OPTIONS, &picture::OPTIONS, &edges::OPTIONS, &widths::OPTIONS, &parts::OPTIONS],
    run,
};

const OPTIONS: [Known; 4] = [required("--image"), optional("--output"), optional("--offset"), optional("--length")];

const HEAD: &str = "\
usage: gezdunar relay --image FILE [--output FILE] GRID
         [--offset N] [--length N]

  --image FILE        the file that holds the image
  --output FILE       the file with the image laid anew; - is standard output.
                      If it is not given, it takes the image's place: it is
                      written beside it and then renamed
  --offset N          bytes of the file before the image, as in a NITF file;
                      0 if not given
  --length N          bytes of the image in the file; up to the file's end if
                      not given
  Each block, written or not, goes from tight to full: samples keep their
  values, and the bits beside them become zero. At multiples of 8 no byte
  changes. The file's other bytes stay. Here --edges is the rule of the image
  as it is, and must be given; full is refused with 27. Afterwards the image is
  read with --edges full. The file is held in memory.
";

const EXAMPLE: &str = "\
example, an image of gezdunar 0.4 for other readers:
  gezdunar relay --image old.P --output new.P \\
    --rows 203 --columns 317 --bands 5 --bits 12 --mode P \\
    --block-rows 64 --block-columns 48 --edges tight
";

fn run(given: &Given) -> Result<(), Failure> {
    let picture = Picture::of_image(given)?;
    if !given.has("--edges") {
        return Err(missing_one("--edges"));
    }
    let image = Image::new(given)?;
    let name = given.value("--output").map_or_else(|| given.needed("--image"), Ok)?;
    let output = Output::new("--output", name, &given.files(&["--parts-file"]))?;
    let (mut bytes, place) = image.read_file()?;
    let held = place.len();
    let marks: Vec<u64> = files::zeros(picture.sizes.mark_words)?;
    let mut scratch: Vec<u8> = files::zeros(picture.sizes.block_bytes)?;
    let grid =
        relay(&mut bytes[place], &marks, &picture.grid, &picture.widths, &mut scratch).map_err(
            |refusal| match refusal {
                Refusal::ImageTooShort => Failure::Refused(refusal, image.held(&picture, held)),
                _ => picture.refused(refusal, &format!("--edges {}", picture.grid.edges)),
            },
        )?;
    output.write(&[&bytes])?;
    let laid = Picture { grid, ..picture };
    output.tell(&format!("{}: {} laid anew", laid.words(), count(laid.sizes.blocks, "block")))
}
