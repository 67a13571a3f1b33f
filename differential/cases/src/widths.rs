//! The width table that a call is handed.

use std::fmt;

/// Bytes of a sample by NBPP, from 0 to 64.
#[derive(Clone, Copy, PartialEq)]
pub struct Widths(pub [u8; 65]);

/// Document 01's table at NBPP: zero where the width is refused.
const fn constant(nbpp: u32) -> u8 {
    match nbpp {
        1..=16 | 24..=32 | 40 | 48 | 56 | 64 => nbpp.div_ceil(8) as u8,
        _ => 0,
    }
}

impl Widths {
    /// The constant table.
    pub const STANDARD: Widths = {
        let mut entries = [0; 65];
        let mut nbpp = 0;
        while nbpp < 65 {
            entries[nbpp] = constant(nbpp as u32);
            nbpp += 1;
        }
        Widths(entries)
    };

    /// The constant table with all widths barred but one.
    pub fn alone(nbpp: u32) -> Widths {
        Widths(std::array::from_fn(|n| if n as u32 == nbpp { constant(nbpp) } else { 0 }))
    }

    /// The table with another entry, if it has one for these bits.
    pub fn with_entry(mut self, nbpp: u32, entry: u8) -> Widths {
        if let Some(held) = self.0.get_mut(nbpp as usize) {
            *held = entry;
        }
        self
    }

    /// Question 2 of a call that is handed the table.
    pub fn takes(&self, nbpp: u32) -> bool {
        let entry = self.0.get(nbpp as usize).copied().unwrap_or(0);
        entry != 0 && entry == constant(nbpp)
    }

    /// The bytes that are loaded.
    pub fn stored(&self) -> Vec<u8> {
        [&[0, 66, 1], &self.0[..]].concat()
    }
}

impl Default for Widths {
    fn default() -> Widths {
        Widths::STANDARD
    }
}

impl fmt::Debug for Widths {
    /// The entries that are not the constant table's.
    fn fmt(&self, f: &mut fmt::Formatter<'_>) -> fmt::Result {
        let others = self.0.iter().enumerate().filter(|&(nbpp, &entry)| entry != constant(nbpp as u32));
        f.write_str("Widths ")?;
        f.debug_map().entries(others).finish()
    }
}
