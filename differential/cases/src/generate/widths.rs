//! Width tables.

use super::Size;
use crate::{Call, Case, Source, Widths};

/// The constant table; one in which widths are barred, all but one among them; one with up to three other entries.
pub fn table(nbpp: u32, from: &mut Source) -> Widths {
    let mut widths = match from.below(8) {
        5 => Widths::STANDARD.with_entry(nbpp, 0),
        6 => Widths::alone(nbpp),
        7 => some(from),
        _ => return Widths::STANDARD,
    };
    for _ in 0..from.below(4) {
        widths = widths.with_entry([nbpp, from.number(65)][from.below(2) as usize], from.below(10) as u8);
    }
    widths
}

/// Each width barred or not.
fn some(from: &mut Source) -> Widths {
    let mut widths = Widths::STANDARD;
    widths.0.iter_mut().for_each(|entry| *entry *= from.below(2) as u8);
    widths
}

/// A table that is loaded, or has one byte that is another.
pub fn load(from: &mut Source, size: &Size) -> Case {
    let mut bytes = [Widths::STANDARD, some(from)][from.below(2) as usize].stored();
    if super::refusal(from, size, 2) {
        let place = from.below(bytes.len() as u64) as usize;
        bytes[place] = from.byte();
    }
    Case::Load { bytes }
}

/// Up to two of a frame's calls with a table of their own.
pub fn handed(calls: &mut [Call], nbpp: u32, from: &mut Source) {
    for _ in 0..from.below(3) {
        let place = from.below(calls.len() as u64 + 1) as usize;
        let widths = table(nbpp, from);
        match calls.get_mut(place) {
            Some(Call::Handed { .. }) | None => {}
            Some(call) => *call = Call::Handed { widths, call: Box::new(call.clone()) },
        }
    }
}
