//! The grid record that a call takes.

#[derive(Clone, Copy, Debug, PartialEq, Eq)]
pub enum Mode {
    B,
    P,
    R,
    S,
}

impl Mode {
    pub const ALL: [Mode; 4] = [Mode::B, Mode::P, Mode::R, Mode::S];

    /// The IMODE character.
    pub fn letter(self) -> u8 {
        match self {
            Mode::B => b'B',
            Mode::P => b'P',
            Mode::R => b'R',
            Mode::S => b'S',
        }
    }

    pub fn from_letter(letter: u8) -> Option<Mode> {
        Mode::ALL.into_iter().find(|mode| mode.letter() == letter)
    }
}

/// The edge rule: what stands in a block at widths that are no byte multiple. Tight: its actual samples. Full: the
/// nominal block, with zeros outside the picture.
#[derive(Clone, Copy, Debug, PartialEq, Eq)]
pub enum Edges {
    Tight,
    Full,
}

impl Edges {
    pub const ALL: [Edges; 2] = [Edges::Tight, Edges::Full];
}

/// Names as in document 01; `bands` is the number of bands.
#[derive(Clone, Copy, Debug, PartialEq, Eq)]
pub struct Grid {
    pub nrows: u32,
    pub ncols: u32,
    pub bands: u32,
    pub nbpp: u32,
    pub mode: Mode,
    pub edges: Edges,
    pub nppbh: u32,
    pub nppbv: u32,
    pub nbpr: u32,
    pub nbpc: u32,
}

impl Grid {
    /// A picture of `nrows` x `ncols` in blocks of `nppbv` x `nppbh`, tight.
    pub fn new([nrows, ncols]: [u32; 2], bands: u32, nbpp: u32, mode: Mode, [nppbv, nppbh]: [u32; 2]) -> Grid {
        let (nbpr, nbpc) = (ncols.div_ceil(nppbh), nrows.div_ceil(nppbv));
        Grid { nrows, ncols, bands, nbpp, mode, edges: Edges::Tight, nppbh, nppbv, nbpr, nbpc }
    }

    /// How many values the first byte of a sample may have in lent data: in it stand the bits above NBPP, which are
    /// zero.
    pub fn first_byte_values(&self) -> u64 {
        1 << ((self.nbpp - 1) % 8 + 1)
    }

    /// Clears the bits above NBPP in lent data.
    pub fn clear_higher_bits(&self, data: &mut [u8]) {
        let (size, values) = (self.nbpp.div_ceil(8) as usize, self.first_byte_values());
        data.iter_mut().step_by(size).for_each(|byte| *byte = (u64::from(*byte) % values) as u8);
    }

    pub fn blocks(&self) -> u64 {
        u64::from(self.nbpr) * u64::from(self.nbpc)
    }

    /// The blocks by rows, then columns.
    pub fn every_block(&self) -> impl Iterator<Item = (u32, u32)> {
        let columns = self.nbpr;
        (0..self.nbpc).flat_map(move |row| (0..columns).map(move |column| (row, column)))
    }
}

/// The longest side of a block that is not the picture's own.
pub const BLOCK_SIDE: u32 = 8_192;

/// The accepted values of NBPP.
pub const WIDTHS: [u32; 29] =
    [1, 2, 3, 4, 5, 6, 7, 8, 9, 10, 11, 12, 13, 14, 15, 16, 24, 25, 26, 27, 28, 29, 30, 31, 32, 40, 48, 56, 64];
