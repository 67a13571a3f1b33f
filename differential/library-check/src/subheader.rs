//! The library's answer to a read or a write of three parts of an image subheader.

use cases::{Answer, Compression, Edges, Grid, Justification, Lent, Mode, PixelValue, Subheader};
use gezdunar::{ImageCompression, ImageSubheader, PixelJustification, PixelValueType, Widths};

use crate::library::{imode, number, record, rule};

fn pvtype(value: PixelValue) -> PixelValueType {
    match value {
        PixelValue::Int => PixelValueType::UnsignedInt,
        PixelValue::Si => PixelValueType::SignedInt,
        PixelValue::R => PixelValueType::Real,
        PixelValue::C => PixelValueType::Complex,
        PixelValue::B => PixelValueType::BiLevel,
    }
}

fn pjust(value: Justification) -> PixelJustification {
    match value {
        Justification::R => PixelJustification::Right,
        Justification::L => PixelJustification::Left,
    }
}

fn ic(value: Compression) -> ImageCompression {
    match value {
        Compression::Nc => ImageCompression::NC,
        Compression::Nm => ImageCompression::NM,
    }
}

/// The value of a list that the library has as `held`.
fn named<T: Copy, L: PartialEq>(values: &[T], to: fn(T) -> L, held: &L) -> T {
    values.iter().copied().find(|&value| to(value) == *held).expect("a value of the list")
}

/// The fields, or the number.
pub fn read([first, second, third]: [&[u8]; 3], bands: u32, edges: Edges, widths: &Widths) -> Result<Subheader, u8> {
    let s = ImageSubheader::read(first, second, third, bands, rule(edges), widths).map_err(number)?;
    let gezdunar::Grid { nrows, ncols, bands, nbpp, imode: held, edges, nppbh, nppbv, nbpr, nbpc } = s.grid;
    let (mode, edges) = (named(&Mode::ALL, imode, &held), named(&Edges::ALL, rule, &edges));
    Ok(Subheader {
        pvtype: named(&PixelValue::ALL, pvtype, &s.pvtype),
        irep: s.irep,
        icat: s.icat,
        abpp: s.abpp,
        pjust: named(&Justification::ALL, pjust, &s.pjust),
        ic: named(&Compression::ALL, ic, &s.ic),
        grid: Grid { nrows, ncols, bands, nbpp, mode, edges, nppbh, nppbv, nbpr, nbpc },
    })
}

/// The number.
pub fn write(s: &Subheader, widths: &Widths, outputs: &mut [Vec<u8>; 3]) -> u8 {
    let Subheader { irep, icat, abpp, .. } = *s;
    let (pvtype, pjust, ic, grid) = (pvtype(s.pvtype), pjust(s.pjust), ic(s.ic), record(&s.grid));
    let [first, second, third] = outputs;
    let written = ImageSubheader { pvtype, irep, icat, abpp, pjust, ic, grid }.write(widths, first, second, third);
    written.map_or_else(number, |()| 0)
}

pub fn read_answer(parts: &[Vec<u8>; 3], bands: u32, edges: Edges, widths: &Widths) -> Answer {
    let parts = parts.each_ref().map(Vec::as_slice);
    read(parts, bands, edges, widths).map_or_else(Answer::refused, |subheader| subheader.answer())
}

/// What is written is read again: it has no values if it is the same, else a 1, so that it shows.
pub fn write_answer(subheader: &Subheader, lent: &Lent, widths: &Widths) -> Answer {
    let mut outputs = lent.parts();
    let number = write(subheader, widths, &mut outputs);
    let mut values = Vec::new();
    if number == 0 {
        let parts = [&outputs[0][..38], &outputs[1][..2], &outputs[2][..19]];
        let Grid { bands, edges, .. } = subheader.grid;
        if read(parts, bands, edges, widths) != Ok(*subheader) {
            values.push(1);
        }
    }
    Answer { number, values, bytes: outputs.concat() }
}
