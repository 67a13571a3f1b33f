//! A picture's samples, written into an image.

use super::Command;
use crate::arguments::{optional, pair, repeated, required, Given, Known};
use crate::edges;
use crate::failure::Failure;
use crate::files;
use crate::output::Output;
use crate::parts;
use crate::picture::{self, Picture};
use crate::preview::number;
use crate::progress::Progress;
use crate::widths;
use crate::words::count;
use gezdunar::{Frame, Refusal, Shape};
use std::collections::BTreeSet;
use std::fs::File;
use std::io::{Read, Seek, SeekFrom};
use std::path::{Path, PathBuf};

pub const COMMAND: Command = Command {
    name: "pack",
    summary: "writes a picture's samples into a blocked image",
    help: &[HEAD, picture::HELP, edges::HELP, widths::HELP, parts::HELP, TAIL],
    options: &[&OPTIONS, &picture::OPTIONS, &edges::OPTIONS, &widths::OPTIONS, &parts::OPTIONS],
    run,
};

const OPTIONS: [Known; 4] = [required("--input"), required("--output"), repeated("--skip"), optional("--progress")];

const HEAD: &str = "\
usage: gezdunar pack --input FILE --output FILE GRID
         [--skip R,C]... [--progress WHEN]

  --input FILE        the picture's samples: band by band, row by row,
                      big-endian, each in as many whole bytes as its bits need;
                      the bits above a sample's own are zero
  --output FILE       the image; a file of that name is replaced; - is standard
                      output
  --skip R,C          leaves the block at block row R, block column C unwritten,
                      as zeros; may be given several times
  --progress WHEN     lines on standard error: auto (on a terminal every half
                      second, else at every tenth after one second), always (at
                      every tenth) or never; auto if not given
";

const TAIL: &str = "\
The image is finished only if each block was written or skipped. Where the input
ends early, the blocks that it does not hold are a hole: refused with 15 and the
first such block, and no file is written. A longer input is refused with 14. No
bits are dropped: a sample with a bit above its own is refused with 26, and the
first such sample of its block is named with its place and its number. The image
and one row of blocks are held in memory.

example:
  gezdunar pack --input picture.raw --output picture.P \\
    --rows 203 --columns 317 --bands 5 --bits 12 --mode P \\
    --block-rows 64 --block-columns 48 --edges full
the same, with the grid from the parts of a subheader:
  printf '0000020300000317INTMULTI   MS      12RNCP000700040048006412' > parts
  gezdunar pack --input picture.raw --output picture.P \\
    --bands 5 --edges full --part-offsets 0,38,40 --parts-file parts
";

fn run(given: &Given) -> Result<(), Failure> {
    let picture = Picture::of_image(given)?;
    let skipped = given.all("--skip").map(|text| pair("--skip", text)).collect::<Result<BTreeSet<_>, _>>()?;
    let mut progress = Progress::new(given, picture.sizes.blocks)?;
    let input = Path::new(given.needed("--input")?);
    let inputs = given.files(&["--input", "--parts-file"]);
    let output = Output::new("--output", given.needed("--output")?, &inputs)?;
    let mut source = Source::open(input, &picture)?;
    let mut frame = started(&picture, &skipped)?;
    write_blocks(&picture, &mut source, &skipped, &mut frame, &mut progress)?;
    frame.finalize().map_err(|refusal| picture.refused(refusal, &source.facts(&picture)))?;
    progress.next("writing the file");
    output.write(&[frame.image()])?;
    drop(progress);
    let blocks = format!("{}, {} skipped", count(picture.sizes.blocks, "block"), skipped.len());
    output.tell(&format!("{}: {blocks}, {}", picture.words(), count(picture.sizes.image_bytes, "byte")))
}

/// A frame in which the skipped blocks are marked.
fn started(picture: &Picture, skipped: &BTreeSet<(u32, u32)>) -> Result<Frame, Failure> {
    let image = format!("the image takes {} bytes", picture.sizes.image_bytes);
    let mut frame = Frame::new(picture.grid, picture.widths).map_err(|refusal| picture.refused(refusal, &image))?;
    for (row, column) in skipped {
        let asked = format!("--skip {row},{column}");
        frame.skip_block(*row, *column).map_err(|refusal| picture.refused(refusal, &asked))?;
    }
    Ok(frame)
}

/// Writes the blocks that are not skipped, by rows, then columns, up to the first that the input does not hold.
fn write_blocks(
    picture: &Picture,
    source: &mut Source,
    skipped: &BTreeSet<(u32, u32)>,
    frame: &mut Frame,
    progress: &mut Progress,
) -> Result<(), Failure> {
    let grid = &picture.grid;
    let blocks = (0..grid.nbpc).flat_map(|row| (0..grid.nbpr).map(move |column| (row, column)));
    for (row, column) in blocks {
        if !skipped.contains(&(row, column)) {
            if !source.holds(picture, row, column) {
                return Ok(());
            }
            let data = source.block(picture, row, column)?;
            let written = frame.encode_block(row, column, grid.block_shape(row, column), data);
            written.map_err(|refusal| not_written(picture, (row, column), data, refusal))?;
        }
        if progress.pass() {
            progress.tell(frame.progress().map_err(|refusal| picture.refused(refusal, "progress"))?);
        }
    }
    Ok(())
}

/// The failure of a block that was refused; with 26 its first sample that does not fit is told.
fn not_written(picture: &Picture, (row, column): (u32, u32), data: &[u8], refusal: Refusal) -> Failure {
    let mut facts = format!("block row {row}, block column {column}");
    if refusal == Refusal::SampleBits {
        if let Some(sample) = too_large(picture, (row, column), data) {
            facts = format!("{facts}: {sample}");
        }
    }
    picture.refused(refusal, &facts)
}

/// A block's first sample with a bit above NBPP: its place in the picture, its number, and the largest that fits.
fn too_large(picture: &Picture, (row, column): (u32, u32), data: &[u8]) -> Option<String> {
    let grid = &picture.grid;
    let largest = u64::MAX >> (64 - grid.nbpp);
    let mut samples = data.chunks_exact(picture.sizes.sample_bytes).map(number).enumerate();
    let (place, sample) = samples.find(|&(_, sample)| sample > largest)?;
    let Shape { rows, columns, .. } = grid.block_shape(row, column);
    let band = place / (rows * columns);
    let row = row as usize * grid.nppbv as usize + place / columns % rows;
    let column = column as usize * grid.nppbh as usize + place % columns;
    let bits = count(grid.nbpp as usize, "bit");
    let place = format!("band {band}, row {row}, column {column} of the picture");
    Some(format!("{place} has the sample {sample} (0x{sample:X}); the largest of {bits} is {largest}"))
}

/// The input, of which one row of blocks is in memory.
struct Source {
    path: PathBuf,
    file: File,
    bytes: u64,
    row: Option<u32>,
    strip: Vec<u8>,
    data: Vec<u8>,
}

impl Source {
    /// Opens the input, which must not be longer than the picture.
    fn open(path: &Path, picture: &Picture) -> Result<Source, Failure> {
        let fault = |error| Failure::file("read", path, error);
        let file = File::open(path).map_err(fault)?;
        let metadata = file.metadata().map_err(fault)?;
        if !metadata.is_file() {
            return Err(Failure::File(format!("cannot read {}: it is not a regular file", path.display())));
        }
        let bytes = metadata.len();
        let source = Source { path: path.to_owned(), file, bytes, row: None, strip: Vec::new(), data: Vec::new() };
        if bytes > picture.sample_bytes() {
            return Err(picture.refused(Refusal::DataLength, &source.facts(picture)));
        }
        Ok(source)
    }

    fn facts(&self, picture: &Picture) -> String {
        let (path, bytes, whole) = (self.path.display(), self.bytes, picture.sample_bytes());
        format!("{path} has {bytes} bytes; the picture's samples take {whole}")
    }

    /// Does the input reach the end of a block's last band?
    fn holds(&self, picture: &Picture, row: u32, column: u32) -> bool {
        let grid = &picture.grid;
        let shape = grid.block_shape(row, column);
        let rows_before = u64::from(grid.bands - 1) * u64::from(grid.nrows) + u64::from(row) * u64::from(grid.nppbv);
        let last_row = rows_before + shape.rows as u64 - 1;
        let columns = u64::from(column) * u64::from(grid.nppbh) + shape.columns as u64;
        (last_row * u64::from(grid.ncols) + columns) * picture.sizes.sample_bytes as u64 <= self.bytes
    }

    /// A block's samples, band by band, row by row.
    fn block(&mut self, picture: &Picture, row: u32, column: u32) -> Result<&[u8], Failure> {
        if self.row != Some(row) {
            self.read_strip(picture, row)?;
            self.row = Some(row);
        }
        let sample_bytes = picture.sizes.sample_bytes;
        let line = picture.grid.ncols as usize * sample_bytes;
        let start = column as usize * picture.grid.nppbh as usize * sample_bytes;
        let length = picture.grid.actual_columns(column) * sample_bytes;
        self.data.clear();
        for row in self.strip.chunks_exact(line) {
            self.data.extend_from_slice(&row[start..start + length]);
        }
        Ok(&self.data)
    }

    /// Reads the rows of a row of blocks, of every band, as far as the input goes; zeros after its end.
    fn read_strip(&mut self, picture: &Picture, row: u32) -> Result<(), Failure> {
        let (grid, line) = (&picture.grid, u64::from(picture.grid.ncols) * picture.sizes.sample_bytes as u64);
        let rows = grid.actual_rows(row) as u64;
        let bytes = rows * line;
        if self.strip.capacity() == 0 {
            // No later row of blocks has more rows.
            self.strip = files::room(u64::from(grid.bands) * bytes)?;
            self.data = files::room(grid.block_shape(row, 0).bytes(picture.sizes.sample_bytes) as u64)?;
        }
        self.strip.clear();
        for band in 0..u64::from(grid.bands) {
            let first = band * u64::from(grid.nrows) + u64::from(row) * u64::from(grid.nppbv);
            let held = self.bytes.saturating_sub(first * line).min(bytes);
            self.read_rows(first * line, held, bytes)?;
        }
        Ok(())
    }

    /// Adds so many bytes of the input to the strip, and zeros up to a length.
    fn read_rows(&mut self, offset: u64, held: u64, bytes: u64) -> Result<(), Failure> {
        let start = self.strip.len();
        let fault = |error| Failure::file("read", &self.path, error);
        self.file.seek(SeekFrom::Start(offset)).map_err(fault)?;
        let read = Read::by_ref(&mut self.file).take(held).read_to_end(&mut self.strip).map_err(fault)?;
        if (read as u64) < held {
            return Err(Failure::File(format!("cannot read {}: it became shorter", self.path.display())));
        }
        self.strip.resize(start + bytes as usize, 0);
        Ok(())
    }
}
