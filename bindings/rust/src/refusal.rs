//! Why a call was refused.

use std::error::Error;
use std::fmt;

/// What was wrong first, in the order in which a call asks its questions. A refused call has written nothing.
///
/// ```
/// use gezdunar::{EdgeRule, Grid, InterleaveMode, Refusal, Widths};
/// let grid = Grid::new(3, 5, 2, 17, InterleaveMode::B, EdgeRule::Full, 4, 2);
/// let refusal = grid.check(&Widths::STANDARD).unwrap_err();
/// assert_eq!((refusal, refusal.number()), (Refusal::Width, 2));
/// assert_eq!(refusal.to_string(), "2: the width or sample size is not one that is taken");
/// ```
#[derive(Debug, Clone, Copy, PartialEq, Eq, Hash)]
#[non_exhaustive]
pub enum Refusal {
    /// 1: NROWS, NCOLS, NPPBH, NPPBV or the count of bands is outside its limits.
    Limits,
    /// 2: NBPP is not 1 to 16, 24 to 32, 40, 48, 56 or 64, or the width table bars it; in a reordering, a sample does
    /// not have 1 to 8 bytes.
    Width,
    /// 3: NBPR or NBPC does not follow from the rest, or is more than 9,999.
    BlockCounts,
    /// 4: the image, or the data of a reordering by its counts, is larger than 4,294,967,294 bytes.
    TooLarge,
    /// 5: the resolution level is not 0.
    ResolutionLevel,
    /// 6: the block is outside the grid.
    BlockOutsideGrid,
    /// 7: the image ends before the block does.
    ImageEnds,
    /// 8: a band is asked for that the picture does not have.
    NoSuchBand,
    /// 9: an output is too short; in a `_vec` form, there is no memory for it.
    OutputTooShort,
    /// 10: the window is empty or outside the picture.
    WindowOutsidePicture,
    /// 11: the image buffer is too short; in [`Frame::new`](crate::Frame::new), there is no memory for it.
    ImageTooShort,
    /// 12: there are too few words for the marks; in [`Frame::new`](crate::Frame::new), there is no memory for them.
    MarksTooShort,
    /// 13: the shape is not the block's.
    OtherShape,
    /// 14: the data has another length.
    DataLength,
    /// 15: a block was neither written nor skipped: the first one by rows, then columns.
    UnmarkedBlock {
        /// The block's row.
        row: u32,
        /// The block's column.
        column: u32,
    },
    /// 16: the mask table has less than ten bytes.
    TableTooShort,
    /// 17: a record length is neither 0 nor 4.
    RecordLength,
    /// 18: the pad code has more than 32 bits.
    PadCodeLength,
    /// 19: the mask table ends before its records do.
    TableEnds,
    /// 20: the pad code does not fit its length.
    PadCode,
    /// 21: the mask table would be too large.
    TableTooLarge,
    /// 22: an offset list has another length than its records.
    OffsetCount,
    /// 23: a part of the subheader has another length, or one of its numbers is not all digits.
    SubheaderPart,
    /// 24: PVTYPE, PJUST, IC or IMODE has no named value, or an ABPP to be written is above 99.
    NamedValue,
    /// 26: a sample that is to be written has a bit above NBPP.
    SampleBits,
    /// 27: the edge rule is full already.
    AlreadyFull,
    /// 33: a width table to load does not have 68 bytes, or its length, its version or an entry is wrong.
    WidthTable,
    /// 99: a byte or a text that is no mode, or no edge rule.
    NoMode,
    /// A number that has no name here.
    Unknown(u32),
}

impl Refusal {
    /// The refusal of a number; none for 0, which is acceptance. With 15 the block is row 0, column 0.
    ///
    /// ```
    /// use gezdunar::Refusal;
    /// assert_eq!(Refusal::from_number(0), None);
    /// assert_eq!(Refusal::from_number(7), Some(Refusal::ImageEnds));
    /// assert_eq!(Refusal::from_number(98), Some(Refusal::Unknown(98)));
    /// ```
    pub fn from_number(number: u32) -> Option<Refusal> {
        Some(match number {
            0 => return None,
            1 => Refusal::Limits,
            2 => Refusal::Width,
            3 => Refusal::BlockCounts,
            4 => Refusal::TooLarge,
            5 => Refusal::ResolutionLevel,
            6 => Refusal::BlockOutsideGrid,
            7 => Refusal::ImageEnds,
            8 => Refusal::NoSuchBand,
            9 => Refusal::OutputTooShort,
            10 => Refusal::WindowOutsidePicture,
            11 => Refusal::ImageTooShort,
            12 => Refusal::MarksTooShort,
            13 => Refusal::OtherShape,
            14 => Refusal::DataLength,
            15 => Refusal::UnmarkedBlock { row: 0, column: 0 },
            16 => Refusal::TableTooShort,
            17 => Refusal::RecordLength,
            18 => Refusal::PadCodeLength,
            19 => Refusal::TableEnds,
            20 => Refusal::PadCode,
            21 => Refusal::TableTooLarge,
            22 => Refusal::OffsetCount,
            23 => Refusal::SubheaderPart,
            24 => Refusal::NamedValue,
            26 => Refusal::SampleBits,
            27 => Refusal::AlreadyFull,
            33 => Refusal::WidthTable,
            99 => Refusal::NoMode,
            other => Refusal::Unknown(other),
        })
    }

    /// The refusal's number.
    ///
    /// ```
    /// assert_eq!(gezdunar::Refusal::UnmarkedBlock { row: 1, column: 2 }.number(), 15);
    /// ```
    pub fn number(self) -> u32 {
        match self {
            Refusal::Limits => 1,
            Refusal::Width => 2,
            Refusal::BlockCounts => 3,
            Refusal::TooLarge => 4,
            Refusal::ResolutionLevel => 5,
            Refusal::BlockOutsideGrid => 6,
            Refusal::ImageEnds => 7,
            Refusal::NoSuchBand => 8,
            Refusal::OutputTooShort => 9,
            Refusal::WindowOutsidePicture => 10,
            Refusal::ImageTooShort => 11,
            Refusal::MarksTooShort => 12,
            Refusal::OtherShape => 13,
            Refusal::DataLength => 14,
            Refusal::UnmarkedBlock { .. } => 15,
            Refusal::TableTooShort => 16,
            Refusal::RecordLength => 17,
            Refusal::PadCodeLength => 18,
            Refusal::TableEnds => 19,
            Refusal::PadCode => 20,
            Refusal::TableTooLarge => 21,
            Refusal::OffsetCount => 22,
            Refusal::SubheaderPart => 23,
            Refusal::NamedValue => 24,
            Refusal::SampleBits => 26,
            Refusal::AlreadyFull => 27,
            Refusal::WidthTable => 33,
            Refusal::NoMode => 99,
            Refusal::Unknown(number) => number,
        }
    }

    /// What was wrong, without the number and the block.
    fn words(self) -> &'static str {
        match self {
            Refusal::Limits => "a picture, block or band count is outside its limits",
            Refusal::Width => "the width or sample size is not one that is taken",
            Refusal::BlockCounts => "NBPR or NBPC does not follow from the rest, or is more than 9,999",
            Refusal::TooLarge => "the image or product is too large",
            Refusal::ResolutionLevel => "the resolution level is not 0",
            Refusal::BlockOutsideGrid => "the block is outside the grid",
            Refusal::ImageEnds => "the image ends before the block does",
            Refusal::NoSuchBand => "a band is asked for that the picture does not have",
            Refusal::OutputTooShort => "the output is too short for the answer",
            Refusal::WindowOutsidePicture => "the window is empty or outside the picture",
            Refusal::ImageTooShort => "the image buffer is too short for the image",
            Refusal::MarksTooShort => "there are too few words for the marks",
            Refusal::OtherShape => "the shape is not the block's",
            Refusal::DataLength => "the data has another length than its counts give",
            Refusal::UnmarkedBlock { .. } => "a block was neither written nor skipped",
            Refusal::TableTooShort => "the mask table has less than ten bytes",
            Refusal::RecordLength => "a record length is neither 0 nor 4",
            Refusal::PadCodeLength => "the pad code has more than 32 bits",
            Refusal::TableEnds => "the mask table ends before its records do",
            Refusal::PadCode => "the pad code does not fit its length",
            Refusal::TableTooLarge => "the mask table would be too large",
            Refusal::OffsetCount => "an offset list has another length than its records",
            Refusal::SubheaderPart => "a part of the subheader has another length, or a number that is not all digits",
            Refusal::NamedValue => "PVTYPE, PJUST, IC or IMODE has no named value, or ABPP is above 99",
            Refusal::SampleBits => "a sample has a bit above NBPP",
            Refusal::AlreadyFull => "the edge rule is full already",
            Refusal::WidthTable => {
                "a width table has another length than 68 bytes, or a wrong length, version or entry"
            }
            Refusal::NoMode => "the mode is none of B, P, R and S, or the edge rule none of T and F",
            Refusal::Unknown(_) => "refused with a number that has no name here",
        }
    }
}

impl fmt::Display for Refusal {
    /// The number and what was wrong in words; beside 15 the block.
    fn fmt(&self, f: &mut fmt::Formatter<'_>) -> fmt::Result {
        write!(f, "{}: {}", self.number(), self.words())?;
        match self {
            Refusal::UnmarkedBlock { row, column } => write!(f, ": row {row}, column {column}"),
            _ => Ok(()),
        }
    }
}

impl Error for Refusal {}

/// Acceptance for 0, else the number's refusal.
pub(crate) fn accepted(number: u32) -> Result<(), Refusal> {
    match Refusal::from_number(number) {
        None => Ok(()),
        Some(refusal) => Err(refusal),
    }
}
