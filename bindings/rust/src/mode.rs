//! IMODE.

use crate::Refusal;
use std::fmt;
use std::str::FromStr;

/// IMODE: the order in which the samples of an image stand. Each is its letter's byte.
#[repr(u8)]
#[derive(Debug, Clone, Copy, PartialEq, Eq, Hash)]
pub enum InterleaveMode {
    /// Band after band in each block.
    B = b'B',
    /// Pixel after pixel, with all bands of a pixel together.
    P = b'P',
    /// Row after row, with all bands of a row together.
    R = b'R',
    /// Band after band over the whole image, with the blocks inside each band.
    S = b'S',
}

impl InterleaveMode {
    /// The four modes.
    pub const ALL: [InterleaveMode; 4] = [InterleaveMode::B, InterleaveMode::P, InterleaveMode::R, InterleaveMode::S];

    /// The letter's byte.
    ///
    /// ```
    /// assert_eq!(gezdunar::InterleaveMode::P.letter(), b'P');
    /// ```
    pub fn letter(self) -> u8 {
        self as u8
    }

    /// The mode of a letter's byte; [`Refusal::NoMode`] (99) for any other byte.
    ///
    /// ```
    /// use gezdunar::{InterleaveMode, Refusal};
    /// assert_eq!(InterleaveMode::from_letter(b'R'), Ok(InterleaveMode::R));
    /// assert_eq!(InterleaveMode::from_letter(b'r'), Err(Refusal::NoMode));
    /// ```
    pub fn from_letter(letter: u8) -> Result<InterleaveMode, Refusal> {
        match letter {
            b'B' => Ok(InterleaveMode::B),
            b'P' => Ok(InterleaveMode::P),
            b'R' => Ok(InterleaveMode::R),
            b'S' => Ok(InterleaveMode::S),
            _ => Err(Refusal::NoMode),
        }
    }
}

impl fmt::Display for InterleaveMode {
    fn fmt(&self, f: &mut fmt::Formatter<'_>) -> fmt::Result {
        f.pad(match self {
            InterleaveMode::B => "B",
            InterleaveMode::P => "P",
            InterleaveMode::R => "R",
            InterleaveMode::S => "S",
        })
    }
}

impl FromStr for InterleaveMode {
    type Err = Refusal;

    /// The mode of a text of one letter.
    fn from_str(text: &str) -> Result<InterleaveMode, Refusal> {
        match text.as_bytes() {
            [letter] => InterleaveMode::from_letter(*letter),
            _ => Err(Refusal::NoMode),
        }
    }
}
