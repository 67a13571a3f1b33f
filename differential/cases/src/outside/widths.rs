//! Every call with width tables, and every table loaded.

use super::{pairs, short_calls};
use crate::{Call, Case, Grid, Lent, Mode, Widths, WIDTHS};

/// The case with a table.
fn with_widths(case: Case, widths: Widths) -> Case {
    let lent = Lent { widths, ..Lent::of(&case) };
    match case {
        Case::Lent { case, .. } => Case::Lent { case, lent },
        case => Case::Lent { case: Box::new(case), lent },
    }
}

/// With an empty mask table, so that an accepted grid gives 16: each entry at its own width and at those beside it.
pub fn entries() -> impl Iterator<Item = Case> {
    pairs(0..=64, (0..=9).chain([16, 128, 255])).flat_map(|(nbpp, entry): (u32, u8)| {
        let widths = Widths::STANDARD.with_entry(nbpp, entry);
        (nbpp.saturating_sub(1)..=nbpp + 2).map(move |nbpp| {
            let grid = Grid::new([1, 1], 1, nbpp, Mode::B, [1, 1]);
            with_widths(Case::Parse { grid, table: Vec::new() }, widths)
        })
    })
}

/// The tables that are tried at a width: it barred, by zero and by another entry; all others barred; all barred.
fn tables(nbpp: u32) -> [Widths; 5] {
    let barred = [0, 9, 255].map(|entry| Widths::STANDARD.with_entry(nbpp, entry));
    [barred[0], barred[1], barred[2], Widths::alone(nbpp), Widths([0; 65])]
}

/// With next to nothing lent, and on grids that are refused with 1 and 3 before and after.
pub fn calls() -> impl Iterator<Item = Case> {
    pairs(WIDTHS.into_iter(), Mode::ALL.into_iter()).flat_map(|(nbpp, mode)| {
        let grid = Grid::new([1, 1], 1, nbpp, mode, [1, 1]);
        let grids = [grid, Grid { bands: 0, ..grid }, Grid { nbpr: 2, ..grid }];
        pairs(grids.into_iter(), tables(nbpp).into_iter())
            .flat_map(|(grid, widths)| short_calls(grid).into_iter().map(move |case| with_widths(case, widths)))
    })
}

/// Blocks written and skipped, with one call of each list handed a table that bars the width, and one that bars the
/// others; a re-lay among them.
pub fn frames() -> impl Iterator<Item = Case> {
    pairs(WIDTHS.into_iter(), Mode::ALL.into_iter()).flat_map(|(nbpp, mode)| {
        let grid = Grid::new([3, 2], 2, nbpp, mode, [2, 2]);
        let write = |row: u32, rows: u32| {
            let mut data = vec![0x6b; (2 * rows * 2 * nbpp.div_ceil(8)) as usize];
            grid.clear_higher_bits(&mut data);
            Call::Write { row, column: 0, shape: [2, rows, 2], data }
        };
        let scratch = 2 * u64::from(4 * nbpp).div_ceil(8);
        let relay = Call::Relay { scratch };
        let calls =
            vec![write(0, 2), write(1, 1), Call::Progress, relay, Call::Skip { row: 0, column: 0 }, Call::Finish];
        (0..calls.len()).map(move |at| {
            let mut calls = calls.clone();
            calls[at] = handed(Widths::STANDARD.with_entry(nbpp, 0), calls[at].clone());
            let next = (at + 1) % calls.len();
            calls[next] = handed(Widths::alone(nbpp), calls[next].clone());
            Case::Frame { grid, calls }
        })
    })
}

fn handed(widths: Widths, call: Call) -> Call {
    Call::Handed { widths, call: Box::new(call) }
}

pub fn bytes() -> impl Iterator<Item = Case> {
    let stored = Widths::STANDARD.stored();
    pairs(0..stored.len(), 0..=255).map(move |(place, byte)| {
        let mut bytes = stored.clone();
        bytes[place] = byte;
        Case::Load { bytes }
    })
}

/// Of zeros after the constant table, and of a table of zeros.
pub fn lengths() -> impl Iterator<Item = Case> {
    let zeros = Widths([0; 65]).stored();
    [Widths::STANDARD.stored(), zeros].into_iter().flat_map(|mut bytes| {
        bytes.resize(200, 0);
        (0..=bytes.len()).map(move |length| Case::Load { bytes: bytes[..length].to_vec() })
    })
}
