//! The fields of three parts of an image subheader, with the named values that they may hold.

use crate::{Answer, Grid};

/// PVTYPE.
#[derive(Clone, Copy, Debug, PartialEq, Eq)]
pub enum PixelValue {
    Int,
    Si,
    R,
    C,
    B,
}

impl PixelValue {
    pub const ALL: [PixelValue; 5] = [PixelValue::Int, PixelValue::Si, PixelValue::R, PixelValue::C, PixelValue::B];

    /// The bytes of the field.
    pub fn text(self) -> [u8; 3] {
        *match self {
            PixelValue::Int => b"INT",
            PixelValue::Si => b"SI ",
            PixelValue::R => b"R  ",
            PixelValue::C => b"C  ",
            PixelValue::B => b"B  ",
        }
    }
}

/// PJUST.
#[derive(Clone, Copy, Debug, PartialEq, Eq)]
pub enum Justification {
    R,
    L,
}

impl Justification {
    pub const ALL: [Justification; 2] = [Justification::R, Justification::L];

    pub fn letter(self) -> u8 {
        match self {
            Justification::R => b'R',
            Justification::L => b'L',
        }
    }
}

/// IC.
#[derive(Clone, Copy, Debug, PartialEq, Eq)]
pub enum Compression {
    Nc,
    Nm,
}

impl Compression {
    pub const ALL: [Compression; 2] = [Compression::Nc, Compression::Nm];

    /// The bytes of the field.
    pub fn text(self) -> [u8; 2] {
        *match self {
            Compression::Nc => b"NC",
            Compression::Nm => b"NM",
        }
    }
}

/// The grid has the block's sides as they are meant, where a field may hold 0.
#[derive(Clone, Copy, Debug, PartialEq)]
pub struct Subheader {
    pub pvtype: PixelValue,
    pub irep: [u8; 8],
    pub icat: [u8; 8],
    pub abpp: u32,
    pub pjust: Justification,
    pub ic: Compression,
    pub grid: Grid,
}

impl Subheader {
    /// The answer of a call that read it.
    pub fn answer(&self) -> Answer {
        let Grid { nrows, ncols, bands, nbpp, mode, edges, nppbh, nppbv, nbpr, nbpc } = self.grid;
        let named = [self.pvtype as u32, self.pjust as u32, self.ic as u32, self.abpp];
        let fields = [nrows, ncols, bands, nbpp, u32::from(mode.letter()), edges as u32, nppbh, nppbv, nbpr, nbpc];
        let values = named.into_iter().chain(fields).map(u64::from).collect();
        Answer { number: 0, values, bytes: [self.irep, self.icat].concat() }
    }
}
