//! The edge rule.

use crate::Refusal;
use std::fmt;
use std::str::FromStr;

/// The edge rule: how the samples of a block lie that is partly outside the picture, where NBPP is no multiple of 8.
/// Multiples of 8 lie the same under both rules. Each is its letter's byte.
///
/// The standard's blocks are full, and with them those of other writers and viewers; images of version 0.4 and earlier
/// are tight. An image does not tell its rule, and there is no default: a wrong guess gives believable samples.
///
/// ```
/// # fn main() -> Result<(), gezdunar::Refusal> {
/// use gezdunar::{EdgeRule, Frame, Grid, InterleaveMode, Widths};
/// // 2 rows by 3 columns of 4 bits, in blocks of 2 by 2: block (0, 1) has one column in the picture.
/// for (edges, bytes) in [(EdgeRule::Tight, [0x59, 0x00]), (EdgeRule::Full, [0x50, 0x90])] {
///     let mut frame = Frame::new(Grid::new(2, 3, 1, 4, InterleaveMode::B, edges, 2, 2), Widths::STANDARD)?;
///     frame.encode_block(0, 1, frame.grid().block_shape(0, 1), &[5, 9])?;
///     assert_eq!(frame.image()[2..], bytes);
/// }
/// # Ok(())
/// # }
/// ```
#[repr(u8)]
#[derive(Debug, Clone, Copy, PartialEq, Eq, Hash)]
pub enum EdgeRule {
    /// The samples inside the picture, without gaps.
    Tight = b'T',
    /// The samples of a whole block, with zeros outside the picture.
    Full = b'F',
}

impl EdgeRule {
    /// The two rules.
    pub const ALL: [EdgeRule; 2] = [EdgeRule::Tight, EdgeRule::Full];

    /// The letter's byte.
    ///
    /// ```
    /// assert_eq!(gezdunar::EdgeRule::Full.letter(), b'F');
    /// ```
    pub fn letter(self) -> u8 {
        self as u8
    }

    /// The rule of a letter's byte; [`Refusal::NoMode`] (99) for any other byte.
    ///
    /// ```
    /// use gezdunar::{EdgeRule, Refusal};
    /// assert_eq!(EdgeRule::from_letter(b'T'), Ok(EdgeRule::Tight));
    /// assert_eq!(EdgeRule::from_letter(0), Err(Refusal::NoMode));
    /// ```
    pub fn from_letter(letter: u8) -> Result<EdgeRule, Refusal> {
        match letter {
            b'T' => Ok(EdgeRule::Tight),
            b'F' => Ok(EdgeRule::Full),
            _ => Err(Refusal::NoMode),
        }
    }
}

impl fmt::Display for EdgeRule {
    /// The rule's name: `tight` or `full`.
    fn fmt(&self, f: &mut fmt::Formatter<'_>) -> fmt::Result {
        f.pad(match self {
            EdgeRule::Tight => "tight",
            EdgeRule::Full => "full",
        })
    }
}

impl FromStr for EdgeRule {
    type Err = Refusal;

    /// The rule of its name.
    fn from_str(text: &str) -> Result<EdgeRule, Refusal> {
        match text {
            "tight" => Ok(EdgeRule::Tight),
            "full" => Ok(EdgeRule::Full),
            _ => Err(Refusal::NoMode),
        }
    }
}
