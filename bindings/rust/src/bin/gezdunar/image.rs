//! The image that is read, from its options.

use crate::arguments::{optional, required, Given, Known};
use crate::failure::Failure;
use crate::files;
use crate::picture::Picture;
use gezdunar::{InterleaveMode, Refusal};
use std::ops::Range;
use std::path::PathBuf;

/// The options of an image.
pub const OPTIONS: [Known; 3] = [required("--image"), optional("--offset"), optional("--length")];

/// What help says of an image.
pub const HELP: &str = "\
image:
  --image FILE        the file that holds the image
  --offset N          bytes of the file before the image, as in a NITF file;
                      0 if not given
  --length N          bytes of the image in the file; up to the file's end if
                      not given
  The image is read into memory up to the end of the last block that is needed,
  at most 4,294,967,294 bytes. The file may be longer than the grid's image: the
  rest is not looked at. It may be shorter: a block that it does not hold to its
  end is refused with 7.
";

/// A part of a file that holds an image.
#[derive(Debug)]
pub struct Image {
    path: PathBuf,
    offset: u64,
    length: u64,
}

impl Image {
    /// The image that the options give.
    pub fn new(given: &Given) -> Result<Image, Failure> {
        let path = PathBuf::from(given.needed("--image")?);
        Ok(Image { path, offset: given.bytes("--offset", 0)?, length: given.bytes("--length", u64::MAX)? })
    }

    /// The image's bytes up to the end of a block, or as many as the file holds.
    pub fn read(&self, picture: &Picture, block_row: u32, block_col: u32) -> Result<Vec<u8>, Failure> {
        let needed = end_of_block(picture, block_row, block_col) as u64;
        files::read(&self.path, self.offset, self.length.min(needed))
    }

    /// The whole file, and where in it the image is.
    pub fn read_file(&self) -> Result<(Vec<u8>, Range<usize>), Failure> {
        let bytes = files::read(&self.path, 0, u64::MAX)?;
        let inside = |place: u64| usize::try_from(place).map_or(bytes.len(), |place| place.min(bytes.len()));
        let place = inside(self.offset)..inside(self.offset.saturating_add(self.length));
        Ok((bytes, place))
    }

    /// How much of the image the file holds.
    pub fn held(&self, picture: &Picture, held: usize) -> String {
        let (path, offset, whole) = (self.path.display(), self.offset, picture.sizes.image_bytes);
        format!("{path} holds {held} bytes of the image from byte {offset} on, of {whole} in all")
    }

    /// A refusal of a read, with the facts that it was decided on.
    pub fn refused(&self, picture: &Picture, refusal: Refusal, held: usize, asked: &str) -> Failure {
        if refusal != Refusal::ImageEnds {
            return picture.refused(refusal, asked);
        }
        Failure::Refused(refusal, format!("{asked}; {}", self.held(picture, held)))
    }
}

/// Bytes of the image up to the end of a block; none where there is no such block, which is refused before the image
/// is looked at. A number that is too small would show as a refusal with 7.
fn end_of_block(picture: &Picture, block_row: u32, block_col: u32) -> usize {
    let (grid, sizes) = (&picture.grid, &picture.sizes);
    if block_row >= grid.nbpc || block_col >= grid.nbpr {
        return 0;
    }
    let index = block_row as usize * grid.nbpr as usize + block_col as usize;
    match grid.imode {
        InterleaveMode::S => sizes.image_bytes - (sizes.blocks - 1 - index) * sizes.band_bytes,
        _ => (index + 1) * sizes.block_bytes,
    }
}
