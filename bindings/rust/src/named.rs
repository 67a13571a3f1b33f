//! PVTYPE, PJUST and IC.

use crate::Refusal;
use std::fmt;
use std::str::FromStr;

/// PVTYPE: what the bits of a sample stand for.
#[derive(Debug, Clone, Copy, PartialEq, Eq, Hash)]
pub enum PixelValueType {
    /// `INT`: an unsigned integer.
    UnsignedInt,
    /// `SI`: a signed integer.
    SignedInt,
    /// `R`: a real number.
    Real,
    /// `C`: a complex number.
    Complex,
    /// `B`: one of two levels.
    BiLevel,
}

impl PixelValueType {
    /// The five types.
    pub const ALL: [PixelValueType; 5] = [
        PixelValueType::UnsignedInt,
        PixelValueType::SignedInt,
        PixelValueType::Real,
        PixelValueType::Complex,
        PixelValueType::BiLevel,
    ];

    /// The field's bytes: the name, padded with spaces.
    ///
    /// ```
    /// assert_eq!(&gezdunar::PixelValueType::SignedInt.to_bytes(), b"SI ");
    /// ```
    pub fn to_bytes(self) -> [u8; 3] {
        match self {
            PixelValueType::UnsignedInt => *b"INT",
            PixelValueType::SignedInt => *b"SI ",
            PixelValueType::Real => *b"R  ",
            PixelValueType::Complex => *b"C  ",
            PixelValueType::BiLevel => *b"B  ",
        }
    }

    /// The type of a field's bytes; [`Refusal::NamedValue`] (24) for any other bytes.
    ///
    /// ```
    /// use gezdunar::{PixelValueType, Refusal};
    /// assert_eq!(PixelValueType::from_bytes(b"SI "), Ok(PixelValueType::SignedInt));
    /// assert_eq!(PixelValueType::from_bytes(b" SI"), Err(Refusal::NamedValue));
    /// ```
    pub fn from_bytes(bytes: &[u8]) -> Result<PixelValueType, Refusal> {
        match bytes {
            b"INT" => Ok(PixelValueType::UnsignedInt),
            b"SI " => Ok(PixelValueType::SignedInt),
            b"R  " => Ok(PixelValueType::Real),
            b"C  " => Ok(PixelValueType::Complex),
            b"B  " => Ok(PixelValueType::BiLevel),
            _ => Err(Refusal::NamedValue),
        }
    }
}

impl fmt::Display for PixelValueType {
    /// The field's text, with its spaces.
    fn fmt(&self, f: &mut fmt::Formatter<'_>) -> fmt::Result {
        f.pad(match self {
            PixelValueType::UnsignedInt => "INT",
            PixelValueType::SignedInt => "SI ",
            PixelValueType::Real => "R  ",
            PixelValueType::Complex => "C  ",
            PixelValueType::BiLevel => "B  ",
        })
    }
}

impl FromStr for PixelValueType {
    type Err = Refusal;

    /// The type of a field's text, with its spaces.
    fn from_str(text: &str) -> Result<PixelValueType, Refusal> {
        PixelValueType::from_bytes(text.as_bytes())
    }
}

/// PJUST: at which end of a sample's NBPP bits its ABPP bits stand. Each is its letter's byte.
#[repr(u8)]
#[derive(Debug, Clone, Copy, PartialEq, Eq, Hash)]
pub enum PixelJustification {
    /// At the low end.
    Right = b'R',
    /// At the high end.
    Left = b'L',
}

impl PixelJustification {
    /// The two ends.
    pub const ALL: [PixelJustification; 2] = [PixelJustification::Right, PixelJustification::Left];

    /// The letter's byte.
    ///
    /// ```
    /// assert_eq!(gezdunar::PixelJustification::Left.letter(), b'L');
    /// ```
    pub fn letter(self) -> u8 {
        self as u8
    }

    /// The justification of a letter's byte; [`Refusal::NamedValue`] (24) for any other byte.
    ///
    /// ```
    /// use gezdunar::{PixelJustification, Refusal};
    /// assert_eq!(PixelJustification::from_letter(b'R'), Ok(PixelJustification::Right));
    /// assert_eq!(PixelJustification::from_letter(b'r'), Err(Refusal::NamedValue));
    /// ```
    pub fn from_letter(letter: u8) -> Result<PixelJustification, Refusal> {
        match letter {
            b'R' => Ok(PixelJustification::Right),
            b'L' => Ok(PixelJustification::Left),
            _ => Err(Refusal::NamedValue),
        }
    }
}

impl fmt::Display for PixelJustification {
    fn fmt(&self, f: &mut fmt::Formatter<'_>) -> fmt::Result {
        f.pad(match self {
            PixelJustification::Right => "R",
            PixelJustification::Left => "L",
        })
    }
}

impl FromStr for PixelJustification {
    type Err = Refusal;

    /// The justification of a text of one letter.
    fn from_str(text: &str) -> Result<PixelJustification, Refusal> {
        match text.as_bytes() {
            [letter] => PixelJustification::from_letter(*letter),
            _ => Err(Refusal::NamedValue),
        }
    }
}

/// IC of an image that is not compressed.
#[derive(Debug, Clone, Copy, PartialEq, Eq, Hash)]
pub enum ImageCompression {
    /// Without a mask: every block is there.
    NC,
    /// With a mask table, which says what blocks are there.
    NM,
}

impl ImageCompression {
    /// The two values.
    pub const ALL: [ImageCompression; 2] = [ImageCompression::NC, ImageCompression::NM];

    /// The field's bytes.
    ///
    /// ```
    /// assert_eq!(&gezdunar::ImageCompression::NM.to_bytes(), b"NM");
    /// ```
    pub fn to_bytes(self) -> [u8; 2] {
        match self {
            ImageCompression::NC => *b"NC",
            ImageCompression::NM => *b"NM",
        }
    }

    /// The value of a field's bytes; [`Refusal::NamedValue`] (24) for any other bytes.
    ///
    /// ```
    /// use gezdunar::{ImageCompression, Refusal};
    /// assert_eq!(ImageCompression::from_bytes(b"NC"), Ok(ImageCompression::NC));
    /// assert_eq!(ImageCompression::from_bytes(b"C8"), Err(Refusal::NamedValue));
    /// ```
    pub fn from_bytes(bytes: &[u8]) -> Result<ImageCompression, Refusal> {
        match bytes {
            b"NC" => Ok(ImageCompression::NC),
            b"NM" => Ok(ImageCompression::NM),
            _ => Err(Refusal::NamedValue),
        }
    }
}

impl fmt::Display for ImageCompression {
    fn fmt(&self, f: &mut fmt::Formatter<'_>) -> fmt::Result {
        f.pad(match self {
            ImageCompression::NC => "NC",
            ImageCompression::NM => "NM",
        })
    }
}

impl FromStr for ImageCompression {
    type Err = Refusal;

    /// The value of a text of two letters.
    fn from_str(text: &str) -> Result<ImageCompression, Refusal> {
        ImageCompression::from_bytes(text.as_bytes())
    }
}
