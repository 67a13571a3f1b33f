//! Three parts of an image subheader.

use crate::boundary;
use crate::refusal::accepted;
use crate::{EdgeRule, Grid, ImageCompression, InterleaveMode, PixelJustification, PixelValueType, Refusal, Widths};

/// Three parts of an image subheader: NROWS to PJUST, IC, and IMODE to NBPP.
pub type SubheaderParts = ([u8; 38], [u8; 2], [u8; 19]);

/// The fields of three parts of an image subheader: NROWS to PJUST, IC, and IMODE to NBPP. The count of bands and the
/// edge rule are the grid's; the parts do not hold them.
///
/// ```
/// # fn main() -> Result<(), gezdunar::Refusal> {
/// use gezdunar::{EdgeRule, ImageSubheader, Widths};
/// let (first, second, third) = (b"0000020300000317INTMULTI   MS      12R", b"NC", b"P000700040048006412");
/// let subheader = ImageSubheader::read(first, second, third, 5, EdgeRule::Full, &Widths::STANDARD)?;
/// assert_eq!((subheader.grid.nrows, subheader.grid.ncols), (203, 317));
/// assert_eq!(subheader.to_parts(&Widths::STANDARD)?, (*first, *second, *third));
/// # Ok(())
/// # }
/// ```
#[derive(Debug, Clone, Copy, PartialEq, Eq, Hash)]
pub struct ImageSubheader {
    /// PVTYPE.
    pub pvtype: PixelValueType,
    /// IREP, carried unread.
    pub irep: [u8; 8],
    /// ICAT, carried unread.
    pub icat: [u8; 8],
    /// ABPP: the bits of a sample that are used. It is not compared with NBPP.
    pub abpp: u32,
    /// PJUST.
    pub pjust: PixelJustification,
    /// IC.
    pub ic: ImageCompression,
    /// The grid, with NPPBH and NPPBV as they are meant, not as a zero field.
    pub grid: Grid,
}

impl ImageSubheader {
    /// Bytes of the first part: NROWS 8, NCOLS 8, PVTYPE 3, IREP 8, ICAT 8, ABPP 2, PJUST 1.
    pub const FIRST_BYTES: usize = 38;
    /// Bytes of the second part: IC.
    pub const SECOND_BYTES: usize = 2;
    /// Bytes of the third part: IMODE 1, NBPR 4, NBPC 4, NPPBH 4, NPPBV 4, NBPP 2.
    pub const THIRD_BYTES: usize = 19;

    /// Reads three parts, of exactly [`FIRST_BYTES`](Self::FIRST_BYTES), [`SECOND_BYTES`](Self::SECOND_BYTES) and
    /// [`THIRD_BYTES`](Self::THIRD_BYTES) bytes, for a picture of so many bands under an edge rule. A zero NPPBH with
    /// NBPR 1 is read as NCOLS, a zero NPPBV with NBPC 1 as NROWS. Numbers: 1 to 4, 23, 24, in the order 23, 24, 1, 2,
    /// 3, 4.
    ///
    /// ```
    /// # fn main() -> Result<(), gezdunar::Refusal> {
    /// use gezdunar::{EdgeRule, ImageSubheader, PixelValueType, Refusal, Widths};
    /// // One block of 2 rows and 9,000 columns.
    /// let (first, third) = (b"0000000200009000INTMONO    VIS     08R", b"B000100010000000208");
    /// let read = |ic: &[u8]| ImageSubheader::read(first, ic, third, 1, EdgeRule::Full, &Widths::STANDARD);
    /// let subheader = read(b"NC")?;
    /// assert_eq!((subheader.pvtype, &subheader.irep), (PixelValueType::UnsignedInt, b"MONO    "));
    /// assert_eq!((subheader.grid.nppbh, subheader.grid.nppbv), (9_000, 2));
    /// assert_eq!(read(b""), Err(Refusal::SubheaderPart));
    /// assert_eq!(read(b"C8"), Err(Refusal::NamedValue));
    /// # Ok(())
    /// # }
    /// ```
    pub fn read(
        first: &[u8],
        second: &[u8],
        third: &[u8],
        bands: u32,
        edges: EdgeRule,
        widths: &Widths,
    ) -> Result<ImageSubheader, Refusal> {
        let answer = boundary::subheader_read(first, second, third, bands, edges, widths);
        accepted(answer.number)?;
        from_boundary(&answer.subheader)
    }

    /// Writes the parts into the front of the three outputs: numbers in digits with leading zeros, NPPBH and NPPBV as
    /// zeros where they are above 8,192. The edge rule is not written. Numbers: 1 to 4, 9, 24, in the order 24, 1, 2,
    /// 3, 4, 9.
    ///
    /// ```
    /// # fn main() -> Result<(), gezdunar::Refusal> {
    /// use gezdunar::{
    ///     EdgeRule, Grid, ImageCompression, ImageSubheader, InterleaveMode, PixelJustification, PixelValueType,
    ///     Refusal, Widths,
    /// };
    /// let subheader = ImageSubheader {
    ///     pvtype: PixelValueType::UnsignedInt,
    ///     irep: *b"MONO    ",
    ///     icat: *b"VIS     ",
    ///     abpp: 8,
    ///     pjust: PixelJustification::Right,
    ///     ic: ImageCompression::NC,
    ///     grid: Grid::new(2, 9_000, 1, 8, InterleaveMode::B, EdgeRule::Full, 9_000, 2),
    /// };
    /// let (mut first, mut second, mut third) = ([0; 38], [0; 2], [0; 19]);
    /// subheader.write(&Widths::STANDARD, &mut first, &mut second, &mut third)?;
    /// assert_eq!((&first, &second), (b"0000000200009000INTMONO    VIS     08R", b"NC"));
    /// assert_eq!(&third, b"B000100010000000208");
    /// assert_eq!(subheader.write(&Widths::STANDARD, &mut first, &mut second, &mut []), Err(Refusal::OutputTooShort));
    /// # Ok(())
    /// # }
    /// ```
    pub fn write(&self, widths: &Widths, first: &mut [u8], second: &mut [u8], third: &mut [u8]) -> Result<(), Refusal> {
        accepted(boundary::subheader_write(to_boundary(self), widths, first, second, third))
    }

    /// [`write`](Self::write) into three arrays of exact size. Numbers: 1 to 4, 24.
    ///
    /// ```
    /// # fn main() -> Result<(), gezdunar::Refusal> {
    /// use gezdunar::{EdgeRule, ImageSubheader, Refusal, Widths};
    /// let first = b"0000020300000317INTMULTI   MS      12R";
    /// let (third, widths) = (b"P000700040048006412", Widths::STANDARD);
    /// let subheader = ImageSubheader::read(first, b"NM", third, 5, EdgeRule::Full, &widths)?;
    /// let (written, ic, _) = subheader.to_parts(&widths)?;
    /// assert_eq!((&written, &ic), (first, b"NM"));
    /// assert_eq!(ImageSubheader { abpp: 100, ..subheader }.to_parts(&widths), Err(Refusal::NamedValue));
    /// # Ok(())
    /// # }
    /// ```
    pub fn to_parts(&self, widths: &Widths) -> Result<SubheaderParts, Refusal> {
        let mut parts = ([0; Self::FIRST_BYTES], [0; Self::SECOND_BYTES], [0; Self::THIRD_BYTES]);
        self.write(widths, &mut parts.0, &mut parts.1, &mut parts.2)?;
        Ok(parts)
    }
}

/// The fields of an accepted answer.
fn from_boundary(fields: &boundary::Subheader) -> Result<ImageSubheader, Refusal> {
    Ok(ImageSubheader {
        pvtype: PixelValueType::from_bytes(&fields.pvtype)?,
        irep: fields.irep,
        icat: fields.icat,
        abpp: fields.abpp,
        pjust: PixelJustification::from_letter(fields.pjust)?,
        ic: ImageCompression::from_bytes(&fields.ic)?,
        grid: grid_from_boundary(&fields.grid)?,
    })
}

fn grid_from_boundary(fields: &boundary::SubheaderGrid) -> Result<Grid, Refusal> {
    Ok(Grid {
        nrows: fields.nrows,
        ncols: fields.ncols,
        bands: fields.bands,
        nbpp: fields.nbpp,
        imode: InterleaveMode::from_letter(fields.imode)?,
        edges: EdgeRule::from_letter(fields.edges)?,
        nppbh: fields.nppbh,
        nppbv: fields.nppbv,
        nbpr: fields.nbpr,
        nbpc: fields.nbpc,
    })
}

/// The fields as they cross the boundary.
fn to_boundary(subheader: &ImageSubheader) -> boundary::Subheader {
    boundary::Subheader {
        pvtype: subheader.pvtype.to_bytes(),
        irep: subheader.irep,
        icat: subheader.icat,
        abpp: subheader.abpp,
        pjust: subheader.pjust.letter(),
        ic: subheader.ic.to_bytes(),
        grid: grid_to_boundary(&subheader.grid),
    }
}

fn grid_to_boundary(grid: &Grid) -> boundary::SubheaderGrid {
    boundary::SubheaderGrid {
        nrows: grid.nrows,
        ncols: grid.ncols,
        bands: grid.bands,
        nbpp: grid.nbpp,
        imode: grid.imode.letter(),
        edges: grid.edges.letter(),
        nppbh: grid.nppbh,
        nppbv: grid.nppbv,
        nbpr: grid.nbpr,
        nbpc: grid.nbpc,
    }
}
