//! Loading a width table.

use crate::Widths;

/// The table, or the number.
pub fn load(bytes: &[u8]) -> Result<Widths, u8> {
    let [0, 66, 1, entries @ ..] = bytes else {
        return Err(33);
    };
    let entries: [u8; 65] = entries.try_into().map_err(|_| 33)?;
    let right = entries.iter().zip(Widths::STANDARD.0).all(|(&entry, constant)| entry == 0 || entry == constant);
    right.then_some(Widths(entries)).ok_or(33)
}
