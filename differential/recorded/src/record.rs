//! One record of the file. FORMAT.md describes it.

use cases::{Answer, Call, Case, Grid, Mode, Pack};

pub const HEADER: &[u8; 4] = b"REC1";

/// Most bytes of an input or an output, and most words of arguments.
pub const BYTES: usize = 1024;
pub const WORDS: usize = 256;

/// What a record asks for.
#[derive(Clone, Copy, Debug, PartialEq, Eq, PartialOrd, Ord)]
pub enum Ask {
    Read = 1,
    Whole,
    Window,
    Start,
    Write,
    Skip,
    Progress,
    Finish,
    Contents,
    Parse,
    MaskWrite,
    Lookup,
    FromMarks,
    ToSequential,
    FromSequential,
    Select,
}

impl Ask {
    pub const ALL: [Ask; 16] = [
        Ask::Read,
        Ask::Whole,
        Ask::Window,
        Ask::Start,
        Ask::Write,
        Ask::Skip,
        Ask::Progress,
        Ask::Finish,
        Ask::Contents,
        Ask::Parse,
        Ask::MaskWrite,
        Ask::Lookup,
        Ask::FromMarks,
        Ask::ToSequential,
        Ask::FromSequential,
        Ask::Select,
    ];
}

/// The fields of a grid in document 01's order.
fn grid_words(g: &Grid) -> [u32; 9] {
    let mode = u32::from(g.mode.letter());
    [g.nrows, g.ncols, g.bands, g.nbpp, mode, g.nppbh, g.nppbv, g.nbpr, g.nbpc]
}

/// A reordering has no grid: only the mode is set.
fn mode_words(mode: Mode) -> [u32; 9] {
    [0, 0, 0, 0, u32::from(mode.letter()), 0, 0, 0, 0]
}

fn pack_words(pack: &Pack) -> Vec<u32> {
    vec![pack.rows, pack.columns, pack.bands, pack.size]
}

/// 0 for all bands; 1 and the list for listed ones.
fn list_words(list: &Option<Vec<u32>>) -> Vec<u32> {
    match list {
        None => vec![0],
        Some(list) => [&[1][..], list].concat(),
    }
}

fn record(
    ask: Ask,
    grid: [u32; 9],
    arguments: &[u32],
    input: &[u8],
    number: u8,
    values: &[u64],
    output: &[u8],
) -> Vec<u8> {
    fn words(out: &mut Vec<u8>, words: impl ExactSizeIterator<Item = u32>) {
        out.extend((words.len() as u32).to_be_bytes());
        words.for_each(|word| out.extend(word.to_be_bytes()));
    }
    fn bytes(out: &mut Vec<u8>, bytes: &[u8]) {
        out.extend((bytes.len() as u32).to_be_bytes());
        out.extend(bytes);
    }
    assert!(input.len() <= BYTES && output.len() <= BYTES && arguments.len() <= WORDS);
    let mut out = (ask as u32).to_be_bytes().to_vec();
    grid.iter().for_each(|field| out.extend(field.to_be_bytes()));
    words(&mut out, arguments.iter().copied());
    bytes(&mut out, input);
    out.extend(u32::from(number).to_be_bytes());
    words(&mut out, values.iter().map(|&value| u32::try_from(value).expect("32 bits")));
    bytes(&mut out, output);
    [&(out.len() as u32).to_be_bytes()[..], &out].concat()
}

/// The records of a case: one, or for a frame one a call with the contents after the last.
pub fn records(case: &Case, answer: &Answer) -> Vec<Vec<u8>> {
    let one = |ask, grid, arguments: &[u32], input: &[u8]| {
        vec![record(ask, grid, arguments, input, answer.number, &answer.values, &answer.bytes)]
    };
    match case {
        Case::Read { grid, image, row, column, level, bands } => {
            let place = [*row, *column, *level];
            one(Ask::Read, grid_words(grid), &[&place[..], &list_words(bands)].concat(), image)
        }
        Case::Whole { grid, image, row, column } => one(Ask::Whole, grid_words(grid), &[*row, *column], image),
        Case::Window { grid, image, area, bands } => {
            let area = [area.top, area.left, area.rows, area.columns];
            one(Ask::Window, grid_words(grid), &[&area[..], &list_words(bands)].concat(), image)
        }
        Case::Frame { grid, calls } => frame_records(grid, calls, answer),
        Case::Parse { grid, table } => one(Ask::Parse, grid_words(grid), &[], table),
        Case::MaskWrite { grid, header, blocks, pads } => {
            let lengths = [header.block_length, header.pad_length, header.code_bits].map(u32::from);
            let counts = [header.code, blocks.len() as u32];
            let arguments = [&lengths[..], &counts, blocks, pads].concat();
            one(Ask::MaskWrite, grid_words(grid), &arguments, &[])
        }
        Case::Lookup { grid, table, row, column, band } => {
            one(Ask::Lookup, grid_words(grid), &[*row, *column, *band], table)
        }
        Case::FromMarks { grid, marks } => {
            let words: Vec<u8> = marks.iter().flat_map(|word| word.to_be_bytes()).collect();
            one(Ask::FromMarks, grid_words(grid), &[], &words)
        }
        Case::ToSequential { pack, data } => one(Ask::ToSequential, mode_words(pack.mode), &pack_words(pack), data),
        Case::FromSequential { pack, data } => one(Ask::FromSequential, mode_words(pack.mode), &pack_words(pack), data),
        Case::Select { pack, data, bands, .. } => {
            let arguments = [pack_words(pack), list_words(bands)].concat();
            one(Ask::Select, mode_words(pack.mode), &arguments, data)
        }
        Case::Rewrite { .. } => unreachable!("not recorded: a parse and a write are"),
        _ => unreachable!("not recorded: lent lengths, and subheaders, which the original has not"),
    }
}

fn frame_records(grid: &Grid, calls: &[Call], answer: &Answer) -> Vec<Vec<u8>> {
    let grid = grid_words(grid);
    let mut list = vec![record(Ask::Start, grid, &[], &[], answer.number, &[], &[])];
    for (call, answers) in calls.iter().zip(answer.values.chunks(3)) {
        let (number, values) = (answers[0] as u8, &answers[1..]);
        list.push(match call {
            Call::Write { row, column, shape, data } => {
                let arguments = [*row, *column, shape[0], shape[1], shape[2]];
                record(Ask::Write, grid, &arguments, data, number, &[], &[])
            }
            Call::Skip { row, column } => record(Ask::Skip, grid, &[*row, *column], &[], number, &[], &[]),
            Call::Progress => record(Ask::Progress, grid, &[], &[], number, &values[..1], &[]),
            Call::Finish => record(Ask::Finish, grid, &[], &[], number, values, &[]),
            Call::Relay { .. } | Call::Handed { .. } => {
                unreachable!("not recorded: the original has no re-lay and no table")
            }
        });
    }
    list.push(record(Ask::Contents, grid, &[], &[], 0, &[], &answer.bytes));
    list
}
