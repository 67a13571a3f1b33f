//! An image data mask table, shown.

use super::Command;
use crate::arguments::{flag, optional, required, Given, Known};
use crate::edges;
use crate::failure::Failure;
use crate::parts;
use crate::picture::{self, Picture};
use crate::{files, streams, widths};
use gezdunar::{get_block_offset, has_block, mask_parse, InterleaveMode, Parsed, Refusal};
use std::path::Path;

pub const COMMAND: Command = Command {
    name: "mask",
    summary: "shows an image data mask table",
    help: &[HEAD, picture::HELP, edges::HELP, widths::HELP, parts::HELP, EXAMPLE],
    options: &[&OPTIONS, &picture::OPTIONS, &edges::OPTIONS, &widths::OPTIONS, &parts::OPTIONS],
    run,
};

const OPTIONS: [Known; 3] = [required("--table"), optional("--offset"), flag("--records")];

const HEAD: &str = "\
usage: gezdunar mask --table FILE [--offset N] [--records] GRID

  --table FILE        the file that holds the table
  --offset N          bytes of the file before the table; 0 if not given
  --records           prints each block's record too, one a line
  Prints the table's header, the bytes that it takes, how many blocks are
  present and how many are empty, and a map: a line for each row of blocks, #
  for a present block, . for an empty one; no map for more than 128 blocks
  across or down. In mode S each band has its own map, from the records at block
  index + band, as the library looks them up. A table that is not accepted is
  refused with 16, 17, 18 or 19.
";

const EXAMPLE: &str = "\
example, two blocks of which the second is empty:
  printf '\\0\\0\\0\\22\\0\\4\\0\\0\\0\\0\\0\\0\\0\\0\\377\\377\\377\\377' > table
  gezdunar mask --table table --rows 1 --columns 2 --bands 1 --bits 8 --mode B \\
    --block-rows 1 --block-columns 1
the same, with the grid from the parts of a subheader:
  printf '0000000100000002INTMONO    VIS     08RNMB000200010001000108' > parts
  gezdunar mask --table table --bands 1 --part-offsets 0,38,40 \\
    --parts-file parts
";

/// The most blocks across or down of which there is a map.
const MAP: u32 = 128;

fn run(given: &Given) -> Result<(), Failure> {
    let picture = Picture::new(given)?;
    let path = Path::new(given.needed("--table")?);
    let table = Table::read(&picture, path, given.bytes("--offset", 0)?)?;
    let parsed = mask_parse(&table.bytes, &picture.grid, &picture.widths).map_err(|refusal| table.refused(refusal))?;
    streams::print(&header(&parsed))?;
    for band in 0..maps(&picture) {
        if picture.grid.imode == InterleaveMode::S {
            streams::print(&format!("band {band}\n"))?;
        }
        streams::print(&table.map(band)?)?;
        if given.has("--records") {
            table.print_records(band)?;
        }
    }
    Ok(())
}

/// The header in lines.
fn header(parsed: &Parsed) -> String {
    let mask = &parsed.mask;
    let code = match mask.pad_pixel_code_length {
        0 => "none".to_owned(),
        _ => mask.pad_pixel_code.to_string(),
    };
    let lines = [
        ("first block after (IMDATOFF)", format!("{} bytes", mask.image_data_offset)),
        ("block record (BMRLNTH)", format!("{} bytes", mask.block_mask_record_length)),
        ("pad record (TMRLNTH)", format!("{} bytes", mask.pad_pixel_mask_record_length)),
        ("pad code length (TPXCDLNTH)", format!("{} bits", mask.pad_pixel_code_length)),
        ("pad code (TPXCD)", code),
        ("the table takes", format!("{} bytes", parsed.used)),
    ];
    lines.into_iter().map(|(name, value)| format!("{name:32}{value}\n")).collect()
}

/// How many maps a picture has: one for each band in S.
fn maps(picture: &Picture) -> u32 {
    match picture.grid.imode {
        InterleaveMode::S => picture.grid.bands,
        _ => 1,
    }
}

/// A table's bytes, as many as a table of the picture can take.
struct Table<'a> {
    picture: &'a Picture,
    path: &'a Path,
    offset: u64,
    bytes: Vec<u8>,
}

impl<'a> Table<'a> {
    fn read(picture: &'a Picture, path: &'a Path, offset: u64) -> Result<Table<'a>, Failure> {
        let records = (picture.sizes.blocks as u64).saturating_mul(u64::from(maps(picture)));
        let most = records.saturating_mul(8).saturating_add(14);
        Ok(Table { picture, path, offset, bytes: files::read(path, offset, most)? })
    }

    fn refused(&self, refusal: Refusal) -> Failure {
        let (path, held, offset) = (self.path.display(), self.bytes.len(), self.offset);
        self.picture.refused(refusal, &format!("{path}: {held} bytes were read from byte {offset} on"))
    }

    /// The counts of present and empty blocks, and the map where it is small.
    fn map(&self, band: u32) -> Result<String, Failure> {
        let grid = &self.picture.grid;
        let small = grid.nbpr <= MAP && grid.nbpc <= MAP;
        let mut present = 0;
        let mut map = String::new();
        for row in 0..grid.nbpc {
            let line = self.line(row, band)?;
            present += line.bytes().filter(|mark| *mark == b'#').count();
            if small {
                map += &format!("  {line}\n");
            }
        }
        let empty = self.picture.sizes.blocks.saturating_sub(present);
        Ok(format!("{:32}{present}\n{:32}{empty}\n{map}", "present blocks", "empty blocks"))
    }

    /// A mark for each block of a row of blocks.
    fn line(&self, row: u32, band: u32) -> Result<String, Failure> {
        let Picture { grid, widths, .. } = self.picture;
        let present = |column| has_block(&self.bytes, grid, widths, row, column, band);
        let mark = |column| present(column).map(|present| if present { '#' } else { '.' });
        (0..grid.nbpr).map(mark).collect::<Result<String, Refusal>>().map_err(|refusal| self.refused(refusal))
    }

    /// Prints each block's record.
    fn print_records(&self, band: u32) -> Result<(), Failure> {
        let grid = &self.picture.grid;
        for row in 0..grid.nbpc {
            let records = (0..grid.nbpr).map(|column| self.record(row, column, band));
            let lines = records.collect::<Result<String, Refusal>>().map_err(|refusal| self.refused(refusal))?;
            streams::print(&lines)?;
        }
        Ok(())
    }

    /// A block's record in words.
    fn record(&self, row: u32, column: u32, band: u32) -> Result<String, Refusal> {
        let Picture { grid, widths, .. } = self.picture;
        let offset = get_block_offset(&self.bytes, grid, widths, row, column, band)?;
        let what = match offset {
            Some(offset) => format!("offset {offset}"),
            None if has_block(&self.bytes, grid, widths, row, column, band)? => "present, no record".to_owned(),
            None => "empty".to_owned(),
        };
        Ok(format!("block row {row}, block column {column}: {what}\n"))
    }
}
