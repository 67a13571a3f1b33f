//! Cases changed so that they may leave the compared domain: a field of the grid, an argument, the
//! lengths of the lent buffers, the width table, a frame without a start, re-lays and tables in it.

use super::{widths, Size};
use crate::model::layout;
use crate::{Area, Call, Case, Grid, Header, Lent, Pack, Source, Widths};

/// Most bytes and words of a frame's lent buffers, and with a long side.
const MOST: u64 = 4096;
const MOST_LONG: u64 = 1 << 19;

/// Up to two changes, and other lengths.
pub fn changed(mut case: Case, from: &mut Source, size: &Size) -> Case {
    for _ in 0..from.below(3) {
        change(&mut case, from);
    }
    let most = if size.long == 0 { MOST } else { MOST_LONG };
    relays(&mut case, from, most);
    let nbpp = bits(&case);
    if let Case::Frame { calls, .. } = &mut case {
        widths::handed(calls, nbpp, from);
    }
    let widths = widths::table(nbpp, from);
    lent(case, widths, from, most)
}

/// NBPP of the grid that a case has or names.
fn bits(case: &Case) -> u32 {
    match case {
        Case::ReadSubheader { parts, .. } => {
            let digit = |&byte: &u8| u32::from(byte.wrapping_sub(b'0'));
            parts[2].iter().skip(17).fold(0, |number, byte| number * 10 + digit(byte))
        }
        case => case.grid().map_or(0, |grid| grid.nbpp),
    }
}

/// Up to two re-lays among a frame's calls.
fn relays(case: &mut Case, from: &mut Source, most: u64) {
    let Case::Frame { grid, calls } = case else {
        return;
    };
    for _ in 0..from.below(3) {
        let place = from.below(calls.len() as u64 + 1) as usize;
        let exact = u64::try_from(layout::block_bytes(grid)).unwrap_or(most).min(most);
        calls.insert(place, Call::Relay { scratch: length(from, exact) });
    }
}

/// A number near another, or at a limit.
fn number(from: &mut Source, near: u32) -> u32 {
    let limits = [8_192, 8_193, 9_999, 10_000, 99_999, 100_000, 99_999_999, 100_000_000];
    match from.number(6 + limits.len() as u64) {
        0 => 0,
        1 => near.wrapping_add(1),
        2 => near.wrapping_sub(1),
        3 => u32::MAX,
        4 => 1 << 31,
        5 => near,
        i => limits[i as usize - 6],
    }
}

fn replace(from: &mut Source, mut fields: Vec<&mut u32>) {
    let i = from.below(fields.len() as u64) as usize;
    *fields[i] = number(from, *fields[i]);
}

fn fields(g: &mut Grid) -> Vec<&mut u32> {
    let sizes = [&mut g.nrows, &mut g.ncols, &mut g.bands, &mut g.nbpp];
    sizes.into_iter().chain([&mut g.nppbh, &mut g.nppbv, &mut g.nbpr, &mut g.nbpc]).collect()
}

/// One field, or the sides of a block exchanged.
fn grid(g: &mut Grid, from: &mut Source) {
    if from.below(9) == 8 {
        std::mem::swap(&mut g.nppbh, &mut g.nppbv);
    } else {
        replace(from, fields(g));
    }
}

fn pack_fields(p: &mut Pack) -> Vec<&mut u32> {
    vec![&mut p.rows, &mut p.columns, &mut p.bands, &mut p.size]
}

fn area_fields(a: &mut Area) -> Vec<&mut u32> {
    vec![&mut a.top, &mut a.left, &mut a.rows, &mut a.columns]
}

/// One entry more, less, or another.
fn list<T: Clone + Default>(entries: &mut Vec<T>, from: &mut Source, other: fn(&mut Source) -> T) {
    let i = from.below(entries.len() as u64 + 1) as usize;
    match from.below(3) {
        0 => entries.truncate(i),
        1 => entries.push(other(from)),
        _ => {
            if let Some(entry) = entries.get_mut(i) {
                *entry = other(from);
            }
        }
    }
}

/// No list, an empty one, or another.
fn bands(listed: &mut Option<Vec<u32>>, from: &mut Source) {
    match listed {
        Some(entries) => list(entries, from, |from| number(from, 1)),
        None => *listed = Some(Vec::new()),
    }
}

fn bytes(data: &mut Vec<u8>, from: &mut Source) {
    list(data, from, Source::byte);
}

/// One field or argument.
fn change(case: &mut Case, from: &mut Source) {
    let in_grid = from.below(2) == 1;
    match case.grid_mut() {
        Some(g) if in_grid => grid(g, from),
        _ => argument(case, from),
    }
}

fn argument(case: &mut Case, from: &mut Source) {
    let in_data = from.below(2) == 1;
    match case {
        Case::Read { image: data, .. }
        | Case::Whole { image: data, .. }
        | Case::Window { image: data, .. }
        | Case::Parse { table: data, .. }
        | Case::Rewrite { table: data, .. }
        | Case::Lookup { table: data, .. }
        | Case::ToSequential { data, .. }
        | Case::FromSequential { data, .. }
        | Case::Select { data, .. }
        | Case::Load { bytes: data }
            if in_data =>
        {
            bytes(data, from);
        }
        Case::ReadSubheader { parts, .. } if in_data => bytes(&mut parts[from.below(3) as usize], from),
        Case::MaskWrite { blocks, pads, .. } if in_data => {
            list([blocks, pads][from.below(2) as usize], from, |from| number(from, 7));
        }
        case => counted(case, from),
    }
}

/// An argument that is a number or a list of bands, if there is one.
fn counted(case: &mut Case, from: &mut Source) {
    let in_list = from.below(2) == 1;
    match case {
        Case::Read { bands: listed, .. } | Case::Window { bands: listed, .. } | Case::Select { bands: listed, .. }
            if in_list =>
        {
            bands(listed, from);
        }
        Case::Read { row, column, level, .. } => replace(from, vec![row, column, level]),
        Case::Whole { row, column, .. } => replace(from, vec![row, column]),
        Case::Window { area, .. } => replace(from, area_fields(area)),
        Case::Frame { calls, .. } => call(calls, from),
        Case::MaskWrite { header, .. } => field(header, from),
        Case::Lookup { row, column, band, .. } => replace(from, vec![row, column, band]),
        Case::FromMarks { marks, .. } => list(marks, from, |from| from.below(1 << 52)),
        Case::ToSequential { pack, .. } | Case::FromSequential { pack, .. } | Case::Select { pack, .. } => {
            replace(from, pack_fields(pack))
        }
        Case::ReadSubheader { parts, .. } if in_list => digit(&mut parts[from.below(3) as usize], from),
        Case::ReadSubheader { bands, .. } => replace(from, vec![bands]),
        Case::WriteSubheader { subheader } => replace(from, vec![&mut subheader.abpp]),
        Case::Parse { .. } | Case::Rewrite { .. } | Case::Load { .. } | Case::Lent { .. } => {}
    }
}

/// A byte becomes a digit.
fn digit(part: &mut [u8], from: &mut Source) {
    let i = from.below(part.len() as u64 + 1) as usize;
    if let Some(byte) = part.get_mut(i) {
        *byte = b'0' + from.below(10) as u8;
    }
}

fn field(header: &mut Header, from: &mut Source) {
    match from.below(4) {
        0 => header.block_length = number(from, 4) as u16,
        1 => header.pad_length = number(from, 4) as u16,
        2 => header.code_bits = number(from, 32) as u16,
        _ => header.code = number(from, 256),
    }
}

/// One argument of one call.
fn call(calls: &mut [Call], from: &mut Source) {
    let i = from.below(calls.len() as u64 + 1) as usize;
    match calls.get_mut(i) {
        Some(Call::Write { row, column, shape: [a, b, c], data }) => match from.below(2) {
            0 => replace(from, vec![row, column, a, b, c]),
            _ => bytes(data, from),
        },
        Some(Call::Skip { row, column }) => replace(from, vec![row, column]),
        _ => {}
    }
}

/// The length, a shorter or a longer one.
fn length(from: &mut Source, exact: u64) -> u64 {
    match from.below(4) {
        0 | 1 => exact,
        2 => exact + from.below(9),
        _ => exact.saturating_sub(1 + from.below(exact.max(1))),
    }
}

fn lent(case: Case, widths: Widths, from: &mut Source, most: u64) -> Case {
    let exact = Lent { widths, ..Lent::of(&case) };
    let lent = match case {
        Case::Frame { .. } => {
            let image = length(from, exact.image.min(most));
            let marks = length(from, exact.marks.min(most));
            Lent { image, marks, no_start: from.below(4) == 3, ..exact }
        }
        Case::WriteSubheader { .. } => Lent { parts: exact.parts.map(|part| length(from, part)), ..exact },
        Case::Whole { .. }
        | Case::Parse { .. }
        | Case::Rewrite { .. }
        | Case::Lookup { .. }
        | Case::Load { .. }
        | Case::ReadSubheader { .. } => exact,
        _ => Lent { output: length(from, exact.output), ..exact },
    };
    Case::Lent { case: Box::new(case), lent }
}
