//! The bands that a read is asked for.

/// The bands that a read is asked for.
#[derive(Debug, Clone, Copy, PartialEq, Eq)]
pub enum Bands<'a> {
    /// Every band of the picture, in order.
    All,
    /// These bands, in the list's order. A band may be repeated; an empty list selects none.
    Listed(&'a [u32]),
}

impl<'a> Bands<'a> {
    /// How many bands these are of a picture of `bands` bands.
    ///
    /// ```
    /// use gezdunar::Bands;
    /// assert_eq!((Bands::All.count(3), Bands::Listed(&[1, 1]).count(3), Bands::Listed(&[]).count(3)), (3, 2, 0));
    /// ```
    pub fn count(self, bands: u32) -> usize {
        match self {
            Bands::All => bands as usize,
            Bands::Listed(list) => list.len(),
        }
    }

    /// As they cross the boundary: are all asked for, and the list.
    pub(crate) fn all_and_list(self) -> (bool, &'a [u32]) {
        match self {
            Bands::All => (true, &[]),
            Bands::Listed(list) => (false, list),
        }
    }
}
