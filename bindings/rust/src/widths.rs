//! The width table.

use crate::boundary;
use crate::refusal::accepted;
use crate::Refusal;

/// A width table: bytes of a sample by NBPP, from 0 to 64. A site may bar widths that its displays can't show: it loads
/// a table in which they are 0, and hands it to every call in place of [`STANDARD`](Widths::STANDARD). A call whose
/// table has for NBPP another value than the constant one, or 0, is refused with [`Refusal::Width`].
///
/// ```
/// # fn main() -> Result<(), gezdunar::Refusal> {
/// use gezdunar::{EdgeRule, Grid, InterleaveMode, Refusal, Widths};
/// // A table as a site stores it, with 12 bits barred: the length 66, version 1, and the entries.
/// let mut stored = Widths::STANDARD.to_bytes();
/// stored[3 + 12] = 0;
/// let widths = Widths::load(&stored)?;
/// let grid = Grid::new(2, 3, 1, 12, InterleaveMode::B, EdgeRule::Full, 2, 2);
/// assert_eq!(grid.check(&Widths::STANDARD), Ok(()));
/// assert_eq!(grid.check(&widths), Err(Refusal::Width));
/// assert_eq!(Grid { nbpp: 16, ..grid }.check(&widths), Ok(()));
/// # Ok(())
/// # }
/// ```
#[derive(Debug, Clone, Copy, PartialEq, Eq, Hash)]
pub struct Widths {
    pub(crate) entries: [u8; Widths::ENTRIES],
}

impl Widths {
    /// Entries of a table.
    pub const ENTRIES: usize = 65;
    /// Bytes of a stored table.
    pub const STORED_BYTES: usize = 68;
    /// What a stored table begins with: the bytes that follow the length, in two bytes, and the version.
    const HEADER: [u8; 3] = [0, 66, 1];

    /// The constant table.
    #[rustfmt::skip]
    pub const STANDARD: Widths = Widths {
        entries: [
            0, 1, 1, 1, 1, 1, 1, 1, 1, 2, 2, 2, 2, 2, 2, 2, 2,
            0, 0, 0, 0, 0, 0, 0, 3, 4, 4, 4, 4, 4, 4, 4, 4,
            0, 0, 0, 0, 0, 0, 0, 5, 0, 0, 0, 0, 0, 0, 0, 6,
            0, 0, 0, 0, 0, 0, 0, 7, 0, 0, 0, 0, 0, 0, 0, 8,
        ],
    };

    /// Loads a table from its 68 bytes: the length 66 in two bytes, high byte first, version 1, and the bytes of a
    /// sample for NBPP 0 to 64. Each entry is 0 or the constant table's. Number: 33.
    ///
    /// ```
    /// use gezdunar::{Refusal, Widths};
    /// let mut stored = Widths::STANDARD.to_bytes();
    /// assert_eq!(Widths::load(&stored), Ok(Widths::STANDARD));
    /// stored[3 + 17] = 3; // no samples of 17 bits
    /// assert_eq!(Widths::load(&stored), Err(Refusal::WidthTable));
    /// ```
    pub fn load(bytes: &[u8]) -> Result<Widths, Refusal> {
        let answer = boundary::load_widths(bytes);
        accepted(answer.number)?;
        Ok(Widths { entries: answer.entries })
    }

    /// The table of these entries, for NBPP 0 to 64, which is not loaded: an entry that is neither 0 nor the constant
    /// table's bars its own width and no other.
    ///
    /// ```
    /// use gezdunar::{EdgeRule, Grid, InterleaveMode, Refusal, Widths};
    /// let mut entries = *Widths::STANDARD.entries();
    /// entries[12] = 1;
    /// let grid = Grid::new(2, 3, 1, 12, InterleaveMode::B, EdgeRule::Full, 2, 2);
    /// assert_eq!(grid.check(&Widths::new(entries)), Err(Refusal::Width));
    /// ```
    pub const fn new(entries: [u8; Widths::ENTRIES]) -> Widths {
        Widths { entries }
    }

    /// The entries, for NBPP 0 to 64.
    pub const fn entries(&self) -> &[u8; Widths::ENTRIES] {
        &self.entries
    }

    /// The bytes that [`load`](Widths::load) takes.
    ///
    /// ```
    /// assert_eq!(gezdunar::Widths::STANDARD.to_bytes()[..5], [0, 66, 1, 0, 1]);
    /// ```
    pub fn to_bytes(&self) -> [u8; Widths::STORED_BYTES] {
        let mut bytes = [0; Widths::STORED_BYTES];
        let (header, entries) = bytes.split_at_mut(Widths::HEADER.len());
        header.copy_from_slice(&Widths::HEADER);
        entries.copy_from_slice(&self.entries);
        bytes
    }
}
