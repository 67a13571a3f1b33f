//! The grid, from its options or from parts of a subheader.

use crate::arguments::{required, Given, Known};
use crate::edges::{self, Edges};
use crate::failure::Failure;
use crate::parts::{self, Parts};
use crate::widths::Table;
use crate::words::count;
use gezdunar::{EdgeRule, Grid, ImageCompression, InterleaveMode, Refusal, Sizes, Widths};

/// The options of a grid.
pub const OPTIONS: [Known; 7] = [
    required("--rows").or(&parts::NAMES),
    required("--columns").or(&parts::NAMES),
    required("--bands"),
    required("--bits").or(&parts::NAMES),
    required("--mode").or(&parts::NAMES),
    required("--block-rows").or(&parts::NAMES),
    required("--block-columns").or(&parts::NAMES),
];

/// What help says of a grid.
pub const HELP: &str = "\
grid (all seven options, or --bands with the parts of a subheader, and in both
cases the edge rule):
  --rows N            rows of the picture (NROWS), 1 to 99,999,999
  --columns N         columns of the picture (NCOLS), 1 to 99,999,999
  --bands N           bands of the picture, 1 to 99,999
  --bits N            bits of a sample (NBPP): 1 to 16, 24 to 32, 40, 48, 56
                      or 64
  --mode M            order of the samples (IMODE), a capital letter:
                      B  band after band in each block
                      P  pixel after pixel, all bands of a pixel together
                      R  row after row, all bands of a row together
                      S  band after band over the whole image, in blocks
  --block-rows N      rows of a block (NPPBV), 1 to 8,192, or as many as --rows
  --block-columns N   columns of a block (NPPBH), 1 to 8,192, or as many as
                      --columns
";

/// A grid that was accepted, and its sizes.
#[derive(Debug)]
pub struct Picture {
    /// The grid.
    pub grid: Grid,
    /// The width table that it was accepted with.
    pub widths: Widths,
    /// Its sizes.
    pub sizes: Sizes,
    /// Do the parts say that it is masked?
    pub masked: bool,
}

impl Picture {
    /// The grid that the options give, or the parts that they name.
    pub fn new(given: &Given) -> Result<Picture, Failure> {
        let edges = Edges::new(given)?;
        let table = Table::new(given)?;
        let (grid, masked) = if parts::NAMES.iter().any(|name| given.has(name)) {
            let subheader = Parts::new(given)?.subheader(given.number("--bands")?, edges.rule(), &table)?;
            (subheader.grid, subheader.ic == ImageCompression::NM)
        } else {
            (grid(given, edges.rule())?, false)
        };
        let refused = |refusal| Failure::Refused(refusal, fields(&grid) + &table.facts(refusal, grid.nbpp));
        let sizes = grid.sizes(&table.widths).map_err(refused)?;
        edges.check(grid.nbpp)?;
        Ok(Picture { grid, widths: table.widths, sizes, masked })
    }

    /// The same for a command that takes an image: a masked picture's blocks do not lie where the grid has them.
    pub fn of_image(given: &Given) -> Result<Picture, Failure> {
        let picture = Picture::new(given)?;
        if picture.masked {
            let what = "masked pictures are neither read nor written by this command yet";
            return Err(Failure::Arguments(format!(
                "IC of the parts is NM: {what}; info, mask and subheader take them"
            )));
        }
        Ok(picture)
    }

    /// A refusal of a call on this picture, with the facts that it was decided on.
    pub fn refused(&self, refusal: Refusal, facts: &str) -> Failure {
        let grid = &self.grid;
        let facts = match refusal {
            Refusal::BlockOutsideGrid => {
                format!("{facts}; block rows are 0 to {}, block columns 0 to {}", grid.nbpc - 1, grid.nbpr - 1)
            }
            Refusal::NoSuchBand => format!("the bands are 0 to {}", grid.bands - 1),
            Refusal::WindowOutsidePicture => {
                format!("{facts}; the picture's rows are 0 to {}, its columns 0 to {}", grid.nrows - 1, grid.ncols - 1)
            }
            Refusal::OutputTooShort | Refusal::ImageTooShort | Refusal::MarksTooShort => {
                format!("{facts}; there is no memory for that")
            }
            _ => facts.to_owned(),
        };
        Failure::Refused(refusal, facts)
    }

    /// Bytes of all samples of the picture, outside the image.
    pub fn sample_bytes(&self) -> u64 {
        let grid = &self.grid;
        let rows = u64::from(grid.bands).saturating_mul(u64::from(grid.nrows));
        rows.saturating_mul(u64::from(grid.ncols)).saturating_mul(self.sizes.sample_bytes as u64)
    }

    /// The grid in a few words.
    pub fn words(&self) -> String {
        let Grid { nrows, ncols, bands, nbpp, imode, edges, .. } = self.grid;
        let sides = [count(bands as usize, "band"), count(nrows as usize, "row"), count(ncols as usize, "column")];
        let rule = if edges::matter(nbpp) { format!(", edges {edges}") } else { String::new() };
        format!("{}, {}, mode {imode}{rule}", sides.join(", "), count(nbpp as usize, "bit"))
    }
}

/// The grid of the seven options, under an edge rule.
fn grid(given: &Given, edges: EdgeRule) -> Result<Grid, Failure> {
    Ok(Grid::new(
        given.number("--rows")?,
        given.number("--columns")?,
        given.number("--bands")?,
        given.number("--bits")?,
        mode(given)?,
        edges,
        given.number("--block-columns")?,
        given.number("--block-rows")?,
    ))
}

fn mode(given: &Given) -> Result<InterleaveMode, Failure> {
    let text = given.needed("--mode")?.to_string_lossy();
    text.parse()
        .map_err(|_| Failure::Arguments(format!("--mode: '{text}' is not one of the capital letters B, P, R and S")))
}

/// The fields of a grid, for a refusal.
fn fields(grid: &Grid) -> String {
    let Grid { nrows, ncols, bands, nbpp, imode, nppbh, nppbv, nbpr, nbpc, .. } = grid;
    format!(
        "the grid: NROWS {nrows}, NCOLS {ncols}, bands {bands}, NBPP {nbpp}, IMODE {imode}, \
         NPPBH {nppbh}, NPPBV {nppbv}, NBPR {nbpr}, NBPC {nbpc}"
    )
}
