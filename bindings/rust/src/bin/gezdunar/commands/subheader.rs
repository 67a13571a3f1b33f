//! The fields of three parts of an image subheader.

use super::Command;
use crate::arguments::{required, Given, Known};
use crate::edges::{self, Edges};
use crate::failure::Failure;
use crate::parts::{self, Parts, NPPBH, NPPBV};
use crate::streams;
use crate::widths::{self, Table};
use crate::words::{lines, mode};
use gezdunar::{ImageCompression, ImageSubheader, PixelJustification, PixelValueType};

pub const COMMAND: Command = Command {
    name: "subheader",
    summary: "shows the fields of three parts of an image subheader",
    help: &[HEAD, edges::HELP, widths::HELP, parts::HELP, EXAMPLE],
    options: &[&OPTIONS, &edges::OPTIONS, &widths::OPTIONS, &parts::OPTIONS],
    run,
};

const OPTIONS: [Known; 1] = [required("--bands")];

const HEAD: &str = "\
usage: gezdunar subheader --bands N [--edges RULE] --parts A,B,C
       gezdunar subheader --bands N [--edges RULE] --part-offsets A,B,C
         --parts-file FILE

  --bands N           bands of the picture, 1 to 99,999

Prints one fact a line, in the order of the standard. IREP and ICAT are printed
as they stand; a byte that is no printable character is written as in \\x00.
";

const EXAMPLE: &str = "\
example, the parts one after the other in a file:
  printf '0000020300000317INTMULTI   MS      12RNCP000700040048006412' > parts
  gezdunar subheader --bands 5 --edges full --part-offsets 0,38,40 \\
    --parts-file parts
";

fn run(given: &Given) -> Result<(), Failure> {
    let (edges, table, parts) = (Edges::new(given)?, Table::new(given)?, Parts::new(given)?);
    let subheader = parts.subheader(given.number("--bands")?, edges.rule(), &table)?;
    edges.check(subheader.grid.nbpp)?;
    let rule = edges::fact(&subheader.grid);
    streams::print(&lines(first(&subheader).into_iter().chain(rest(&subheader, &parts)).chain(rule)))
}

/// The fields of the first part.
fn first(subheader: &ImageSubheader) -> Vec<(&'static str, String)> {
    vec![
        ("rows (NROWS)", subheader.grid.nrows.to_string()),
        ("columns (NCOLS)", subheader.grid.ncols.to_string()),
        ("kind of the samples (PVTYPE)", kind(subheader.pvtype).to_owned()),
        ("representation (IREP)", format!("'{}'", subheader.irep.escape_ascii())),
        ("category (ICAT)", format!("'{}'", subheader.icat.escape_ascii())),
        ("used bits of a sample (ABPP)", subheader.abpp.to_string()),
        ("place of the used bits (PJUST)", place(subheader.pjust).to_owned()),
    ]
}

/// The fields of the other parts, and the bands, which stand between them in the standard.
fn rest(subheader: &ImageSubheader, parts: &Parts) -> Vec<(&'static str, String)> {
    let grid = &subheader.grid;
    vec![
        ("compression (IC)", compression(subheader.ic).to_owned()),
        ("bands, as given", grid.bands.to_string()),
        ("mode (IMODE)", mode(grid.imode).to_owned()),
        ("blocks across (NBPR)", grid.nbpr.to_string()),
        ("blocks down (NBPC)", grid.nbpc.to_string()),
        ("columns of a block (NPPBH)", parts.side(&NPPBH, grid.nppbh)),
        ("rows of a block (NPPBV)", parts.side(&NPPBV, grid.nppbv)),
        ("bits of a sample (NBPP)", grid.nbpp.to_string()),
    ]
}

fn kind(pvtype: PixelValueType) -> &'static str {
    match pvtype {
        PixelValueType::UnsignedInt => "INT, unsigned integers",
        PixelValueType::SignedInt => "SI, signed integers",
        PixelValueType::Real => "R, real numbers",
        PixelValueType::Complex => "C, complex numbers",
        PixelValueType::BiLevel => "B, two levels",
    }
}

fn place(pjust: PixelJustification) -> &'static str {
    match pjust {
        PixelJustification::Right => "R, at the right: the low bits",
        PixelJustification::Left => "L, at the left: the high bits",
    }
}

fn compression(ic: ImageCompression) -> &'static str {
    match ic {
        ImageCompression::NC => "NC, not compressed and not masked",
        ImageCompression::NM => "NM, not compressed, masked: a mask table tells which blocks are there",
    }
}
