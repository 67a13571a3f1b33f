//! Reorderings.

use super::{band_list, bytes, refusal, Size};
use crate::{Case, Mode, Pack, Source};

/// Counts may be 0.
fn pack(mode: Mode, from: &mut Source, size: &Size) -> Pack {
    Pack {
        mode,
        rows: from.number(size.block + 1),
        columns: from.number(size.block + 1),
        bands: from.number(size.bands + 1),
        size: 1 + from.number(8),
    }
}

fn pack_data(pack: &Pack, from: &mut Source, size: &Size) -> Vec<u8> {
    let exact = [pack.rows, pack.columns, pack.bands, pack.size].iter().map(|&n| u64::from(n)).product::<u64>();
    let length = if refusal(from, size, 8) { (exact + from.below(4)).saturating_sub(2) } else { exact };
    bytes(from, size, length)
}

pub fn sequential(from: &mut Source, size: &Size, to: bool) -> Case {
    let mode = size.mode.unwrap_or_else(|| Mode::ALL[from.below(4) as usize]);
    let pack = pack(mode, from, size);
    let data = pack_data(&pack, from, size);
    if to {
        Case::ToSequential { pack, data }
    } else {
        Case::FromSequential { pack, data }
    }
}

pub fn select(from: &mut Source, size: &Size) -> Case {
    let pack = pack(Mode::P, from, size);
    let bands = band_list(pack.bands, from, size);
    let tile = [64, 1, 2, 3][from.below(4) as usize];
    let parallel = from.below(2) == 1;
    Case::Select { pack, data: pack_data(&pack, from, size), bands, tile, parallel }
}
