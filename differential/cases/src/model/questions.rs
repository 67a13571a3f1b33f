//! The questions that more than one call asks.

use super::layout;
use crate::{Grid, Widths, BLOCK_SIDE};

/// Question 1 of a side of the picture and of the same side of a block, which may be longer if it is the picture's.
fn sides(picture: u32, block: u32) -> bool {
    (1..=99_999_999).contains(&picture) && ((1..=BLOCK_SIDE).contains(&block) || block == picture)
}

/// Questions 1 to 4, with a width table.
pub fn grid(g: &Grid, widths: &Widths) -> u8 {
    if !(sides(g.nrows, g.nppbv) && sides(g.ncols, g.nppbh) && (1..=99_999).contains(&g.bands)) {
        return 1;
    }
    if !widths.takes(g.nbpp) {
        return 2;
    }
    if g.nbpr != g.ncols.div_ceil(g.nppbh) || g.nbpc != g.nrows.div_ceil(g.nppbv) || g.nbpr > 9_999 || g.nbpc > 9_999 {
        return 3;
    }
    if layout::image_bytes(g) > 4_294_967_294 {
        return 4;
    }
    0
}

/// Question 6.
pub fn block_inside(g: &Grid, row: u32, column: u32) -> bool {
    row < g.nbpc && column < g.nbpr
}

/// Question 8.
pub fn bands_inside(bands: u32, list: Option<&[u32]>) -> bool {
    list.is_none_or(|list| list.iter().all(|&band| band < bands))
}

/// Question 11.
pub fn holds_image(g: &Grid, image: &[u8]) -> bool {
    image.len() as u128 >= layout::image_bytes(g)
}

/// Question 12.
pub fn holds_marks(g: &Grid, marks: &[u64]) -> bool {
    marks.len() as u64 >= mark_words(g)
}

/// The words that hold the grid's marks.
pub fn mark_words(g: &Grid) -> u64 {
    g.blocks().div_ceil(64)
}
