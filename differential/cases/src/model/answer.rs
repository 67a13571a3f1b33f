//! The model's answer to a case.

use super::{frame, mask, read, reorder, subheader, widths};
use crate::lent::pattern;
use crate::{Answer, Call, Case, Edges, Grid, Header, Lent, Subheader, Widths};

pub fn answer(case: &Case) -> Answer {
    lent_answer(case.call(), &Lent::of(case))
}

/// The answer of a call that is lent these buffers.
pub fn lent_answer(case: &Case, lent: &Lent) -> Answer {
    let widths = &lent.widths;
    match case {
        Case::Read { grid, image, row, column, level, bands } => with_output(lent, |out| {
            let (block, list) = ((*row, *column), bands.as_deref());
            let (number, shape) = read::block(grid, widths, image, block, *level, list, out);
            (number, shape.to_vec())
        }),
        Case::Whole { grid, image, row, column } => {
            let (number, part) = read::whole(grid, widths, image, (*row, *column));
            Answer { number, values: Vec::new(), bytes: part.to_vec() }
        }
        Case::Window { grid, image, area, bands } => {
            with_output(lent, |out| (read::window(grid, widths, image, *area, bands.as_deref(), out), Vec::new()))
        }
        Case::Frame { grid, calls } => frame_answer(grid, calls, lent),
        Case::Parse { grid, table } => parse(grid, widths, table),
        Case::Rewrite { grid, table } => rewrite(grid, widths, table),
        Case::MaskWrite { grid, header, blocks, pads } => {
            with_output(lent, |out| (mask::write(grid, widths, header, blocks, pads, out).0, Vec::new()))
        }
        Case::Lookup { grid, table, row, column, band } => lookup(grid, widths, table, (*row, *column), *band),
        Case::FromMarks { grid, marks } => from_marks(grid, marks, lent),
        Case::ToSequential { pack, data } => {
            with_output(lent, |out| (reorder::to_sequential(pack, data, out), Vec::new()))
        }
        Case::FromSequential { pack, data } => {
            with_output(lent, |out| (reorder::from_sequential(pack, data, out), Vec::new()))
        }
        Case::Select { pack, data, bands, .. } => {
            with_output(lent, |out| (reorder::select(pack, data, bands.as_deref(), out), Vec::new()))
        }
        Case::ReadSubheader { parts, bands, edges } => read_subheader(parts, *bands, *edges, widths),
        Case::WriteSubheader { subheader } => write_subheader(subheader, lent),
        Case::Load { bytes } => widths::load(bytes)
            .map_or_else(Answer::refused, |widths| Answer { bytes: widths.0.to_vec(), ..Answer::default() }),
        Case::Lent { .. } => unreachable!("lengths are given once"),
    }
}

/// Runs a call on a lent output.
fn with_output(lent: &Lent, call: impl FnOnce(&mut [u8]) -> (u8, Vec<u64>)) -> Answer {
    let mut bytes = lent.output();
    let (number, values) = call(&mut bytes);
    Answer { number, values: if number == 0 { values } else { Vec::new() }, bytes }
}

fn read_subheader(parts: &[Vec<u8>; 3], bands: u32, edges: Edges, widths: &Widths) -> Answer {
    let parts = parts.each_ref().map(Vec::as_slice);
    subheader::read(parts, bands, edges, widths).map_or_else(Answer::refused, |subheader| subheader.answer())
}

fn write_subheader(subheader: &Subheader, lent: &Lent) -> Answer {
    let mut outputs = lent.parts();
    let number = subheader::write(subheader, &lent.widths, &mut outputs);
    Answer { number, values: Vec::new(), bytes: outputs.concat() }
}

fn lengths(h: &Header) -> [u64; 3] {
    [h.block_length, h.pad_length, h.code_bits].map(u64::from)
}

fn parse(grid: &Grid, widths: &Widths, table: &[u8]) -> Answer {
    let (number, h, used) = mask::parse(grid, widths, table);
    if number != 0 {
        return Answer::refused(number);
    }
    let mut values = vec![u64::from(h.imdatoff)];
    values.extend(lengths(&h));
    values.extend([u64::from(h.code), used]);
    Answer { number, values, bytes: Vec::new() }
}

fn rewrite(grid: &Grid, widths: &Widths, table: &[u8]) -> Answer {
    let (number, _, used) = mask::parse(grid, widths, table);
    if number != 0 {
        return Answer::refused(number);
    }
    let mut bytes = table[..used as usize].to_vec();
    bytes[..4].copy_from_slice(&(used as u32).to_be_bytes());
    Answer { number, values: Vec::new(), bytes }
}

fn lookup(grid: &Grid, widths: &Widths, table: &[u8], block: (u32, u32), band: u32) -> Answer {
    let (number, present, offset) = mask::lookup(grid, widths, table, block, band);
    if number != 0 {
        return Answer::refused(number);
    }
    let known = u64::from(offset.is_some());
    let values = vec![u64::from(present), known, u64::from(offset.unwrap_or(0))];
    Answer { number, values, bytes: Vec::new() }
}

fn from_marks(grid: &Grid, marks: &[u64], lent: &Lent) -> Answer {
    let mut out = lent.output_words();
    let (number, h) = mask::from_marks(grid, &lent.widths, marks, &mut out);
    let values = if number == 0 { lengths(&h).to_vec() } else { Vec::new() };
    Answer { number, values, bytes: out.into_iter().flat_map(u32::to_be_bytes).collect() }
}

/// The calls on one image and one set of marks.
fn frame_answer(grid: &Grid, calls: &[Call], lent: &Lent) -> Answer {
    let (mut image, mut marks) = (lent.image(), lent.marks());
    let number = if lent.no_start { 0 } else { frame::start(grid, &lent.widths, &mut image, &mut marks) };
    let (mut grid, mut values, mut scratches) = (*grid, Vec::new(), Vec::new());
    for call in calls {
        let (call, widths) = &call.with_widths(&lent.widths);
        let answer = match call {
            Call::Write { row, column, shape, data } => {
                let block = (*row, *column);
                let number = frame::write(&grid, widths, &mut image, &mut marks, block, *shape, data);
                [u64::from(number), 0, 0]
            }
            Call::Skip { row, column } => {
                let number = frame::skip(&grid, widths, &image, &mut marks, (*row, *column));
                [u64::from(number), 0, 0]
            }
            Call::Progress => {
                let (number, count) = frame::progress(&grid, widths, &marks);
                [u64::from(number), count, 0]
            }
            Call::Finish => {
                let (number, row, column) = frame::finish(&grid, widths, &image, &marks);
                [u64::from(number), u64::from(row), u64::from(column)]
            }
            Call::Handed { .. } => unreachable!("a table is handed once"),
            Call::Relay { scratch } => {
                let mut scratch = pattern(*scratch);
                let number;
                (number, grid) = frame::relay(&grid, widths, &mut image, &marks, &mut scratch);
                scratches.extend(scratch);
                [u64::from(number), u64::from(grid.edges == Edges::Full), 0]
            }
        };
        values.extend(answer);
    }
    let mut bytes = image;
    bytes.extend(marks.into_iter().flat_map(u64::to_be_bytes));
    bytes.extend(scratches);
    Answer { number, values, bytes }
}
