//! Image subheaders.

use crate::model::subheader;
use crate::{Case, Compression, Grid, Justification, Lent, PixelValue, Source, Subheader, Widths};

/// Any named values, with IREP and ICAT of any bytes.
fn fields(grid: Grid, from: &mut Source) -> Subheader {
    Subheader {
        pvtype: PixelValue::ALL[from.below(5) as usize],
        irep: std::array::from_fn(|_| from.byte()),
        icat: std::array::from_fn(|_| from.byte()),
        abpp: from.number(100),
        pjust: Justification::ALL[from.below(2) as usize],
        ic: Compression::ALL[from.below(2) as usize],
        grid,
    }
}

pub fn write(grid: Grid, from: &mut Source) -> Case {
    Case::WriteSubheader { subheader: fields(grid, from) }
}

/// The parts as the model writes them; the side of a single block may be 0.
pub fn read(grid: Grid, from: &mut Source) -> Case {
    let case = write(grid, from);
    let Case::WriteSubheader { subheader } = &case else { unreachable!("a write") };
    let mut parts = Lent::of(&case).parts();
    assert_eq!(subheader::write(subheader, &Widths::STANDARD, &mut parts), 0, "a grid of the compared domain");
    for (blocks, at) in [(grid.nbpr, 9), (grid.nbpc, 13)] {
        if blocks == 1 && from.below(2) == 1 {
            parts[2][at..at + 4].fill(b'0');
        }
    }
    Case::ReadSubheader { parts, bands: grid.bands, edges: grid.edges }
}
