//! Three parts of an image subheader, read and written: document 02's words, with the fields of MIL-STD-2500C.

use super::questions;
use crate::{Compression, Edges, Grid, Justification, Mode, PixelValue, Subheader, Widths, BLOCK_SIDE};

/// The bytes of each field: NROWS, NCOLS, PVTYPE, IREP, ICAT, ABPP, PJUST.
const FIRST: [usize; 7] = [8, 8, 3, 8, 8, 2, 1];
/// IC.
const SECOND: [usize; 1] = [2];
/// IMODE, NBPR, NBPC, NPPBH, NPPBV, NBPP.
const THIRD: [usize; 6] = [1, 4, 4, 4, 4, 2];

/// The bytes of each part.
pub const PARTS: [u64; 3] = [38, 2, 19];

/// The fields of a part; 23 if it has another length.
fn fields<const COUNT: usize>(part: &[u8], sizes: [usize; COUNT]) -> Result<[&[u8]; COUNT], u8> {
    if part.len() != sizes.iter().sum() {
        return Err(23);
    }
    let mut rest = part;
    Ok(sizes.map(|size| {
        let (field, after) = rest.split_at(size);
        rest = after;
        field
    }))
}

/// The number of a field; 23 if a byte of it is no digit.
fn number(field: &[u8]) -> Result<u32, u8> {
    field.iter().try_fold(0, |number, byte| match byte {
        b'0'..=b'9' => Ok(number * 10 + u32::from(byte - b'0')),
        _ => Err(23),
    })
}

/// The value whose bytes a field holds; 24 if there is none.
fn named<T: Copy>(values: &[T], is: impl Fn(T) -> bool) -> Result<T, u8> {
    values.iter().copied().find(|&value| is(value)).ok_or(24)
}

/// A block's side as it is meant: the picture's where the field is 0 and there is one block.
fn meant(side: u32, blocks: u32, picture: u32) -> u32 {
    if side == 0 && blocks == 1 {
        picture
    } else {
        side
    }
}

/// The fields, or the number. The parts hold neither the count of bands nor the edge rule.
pub fn read([first, second, third]: [&[u8]; 3], bands: u32, edges: Edges, widths: &Widths) -> Result<Subheader, u8> {
    let [nrows, ncols, pvtype, irep, icat, abpp, pjust] = fields(first, FIRST)?;
    let [ic] = fields(second, SECOND)?;
    let [imode, nbpr, nbpc, nppbh, nppbv, nbpp] = fields(third, THIRD)?;
    let (nrows, ncols, abpp) = (number(nrows)?, number(ncols)?, number(abpp)?);
    let (nbpr, nbpc, nbpp) = (number(nbpr)?, number(nbpc)?, number(nbpp)?);
    let (nppbh, nppbv) = (number(nppbh)?, number(nppbv)?);

    let pvtype = named(&PixelValue::ALL, |value| value.text() == pvtype)?;
    let pjust = named(&Justification::ALL, |value| [value.letter()] == pjust)?;
    let ic = named(&Compression::ALL, |value| value.text() == ic)?;
    let mode = named(&Mode::ALL, |value| [value.letter()] == imode)?;

    let (nppbh, nppbv) = (meant(nppbh, nbpr, ncols), meant(nppbv, nbpc, nrows));
    let grid = Grid { nrows, ncols, bands, nbpp, mode, edges, nppbh, nppbv, nbpr, nbpc };
    let unread = |field: &[u8]| field.try_into().expect("a field of 8 bytes");
    match questions::grid(&grid, widths) {
        0 => Ok(Subheader { pvtype, irep: unread(irep), icat: unread(icat), abpp, pjust, ic, grid }),
        number => Err(number),
    }
}

/// The bytes of the parts; what is written passes 24 and questions 1 to 4.
fn parts(s: &Subheader) -> [Vec<u8>; 3] {
    let Grid { nrows, ncols, nbpp, mode, nbpr, nbpc, .. } = s.grid;
    let [nppbh, nppbv] = [s.grid.nppbh, s.grid.nppbv].map(|side| if side > BLOCK_SIDE { 0 } else { side });
    let mut first = format!("{nrows:08}{ncols:08}").into_bytes();
    first.extend(s.pvtype.text());
    first.extend(s.irep);
    first.extend(s.icat);
    first.extend(format!("{:02}", s.abpp).into_bytes());
    first.push(s.pjust.letter());
    let mut third = vec![mode.letter()];
    third.extend(format!("{nbpr:04}{nbpc:04}{nppbh:04}{nppbv:04}{nbpp:02}").into_bytes());
    [first, s.ic.text().to_vec(), third]
}

/// The number; an accepted call puts each part at the front of its output.
pub fn write(s: &Subheader, widths: &Widths, outputs: &mut [Vec<u8>; 3]) -> u8 {
    if s.abpp > 99 {
        return 24;
    }
    let number = questions::grid(&s.grid, widths);
    if number != 0 {
        return number;
    }
    let parts = parts(s);
    if outputs.iter().zip(&parts).any(|(output, part)| output.len() < part.len()) {
        return 9;
    }
    for (output, part) in outputs.iter_mut().zip(&parts) {
        output[..part.len()].copy_from_slice(part);
    }
    0
}
