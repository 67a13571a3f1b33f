//! The library's answer to a case, through its Rust crate and over lent buffers.

use cases::{pattern, Answer, Area, Call, Case, Edges, Grid, Header, Lent, Mode, Pack, UNKNOWN};
use gezdunar::{Bands, EdgeRule, ImageDataMask, InterleaveMode, Refusal, Reordered, Shape, Widths, Window};

use crate::subheader;

pub fn answer(case: &Case) -> Answer {
    lent_answer(case.call(), &Lent::of(case))
}

/// The same of a case that has no table of its own, and with tables that take its width: one that bars all others, one
/// that bars 12 only. If that is another answer, it is given, so that it shows.
pub fn answer_with_others_barred(case: &Case) -> Answer {
    let lent = Lent::of(case);
    let answer = lent_answer(case.call(), &lent);
    let Some(grid) = case.grid() else {
        return answer;
    };
    let tables = [cases::Widths::alone(grid.nbpp), cases::Widths::STANDARD.with_entry(12, 0)];
    let taking = tables.into_iter().filter(|widths| widths.takes(grid.nbpp));
    let mut others = taking.map(|widths| lent_answer(case.call(), &Lent { widths, ..lent }));
    others.find(|other| *other != answer).unwrap_or(answer)
}

/// The answer of a call that is lent these buffers and handed this table.
pub fn lent_answer(case: &Case, lent: &Lent) -> Answer {
    let widths = &table(&lent.widths);
    match case {
        Case::Read { grid, image, row, column, level, bands } => with_output(lent, |out| {
            let (grid, bands) = (record(grid), asked(bands));
            gezdunar::decode_block(image, &grid, widths, *row, *column, *level, bands, out).map(numbers)
        }),
        Case::Whole { grid, image, row, column } => {
            match gezdunar::whole_block(image, &record(grid), widths, *row, *column) {
                Ok(part) => Answer { bytes: part.to_vec(), ..Answer::default() },
                Err(refusal) => Answer::refused(number(refusal)),
            }
        }
        Case::Window { grid, image, area, bands } => {
            with_output(lent, |out| window(&record(grid), widths, image, area, asked(bands), out))
        }
        Case::Frame { grid, calls } => frame(&record(grid), calls, lent),
        Case::Parse { grid, table } => parse(&record(grid), widths, table),
        Case::Rewrite { grid, table } => rewrite(&record(grid), widths, table),
        Case::MaskWrite { grid, header, blocks, pads } => {
            with_output(lent, |out| mask_write(&record(grid), widths, &mask(header), blocks, pads, out))
        }
        Case::Lookup { grid, table, row, column, band } => lookup(&record(grid), widths, table, (*row, *column), *band),
        Case::FromMarks { grid, marks } => from_marks(&record(grid), marks, lent),
        Case::ToSequential { pack, data } => {
            with_output(lent, |out| reordered(gezdunar::to_band_sequential, pack, data, out))
        }
        Case::FromSequential { pack, data } => {
            with_output(lent, |out| reordered(gezdunar::from_band_sequential, pack, data, out))
        }
        Case::Select { pack, data, bands, .. } => with_output(lent, |out| selected(pack, data, asked(bands), out)),
        Case::ReadSubheader { parts, bands, edges } => subheader::read_answer(parts, *bands, *edges, widths),
        Case::WriteSubheader { subheader } => subheader::write_answer(subheader, lent, widths),
        Case::Load { bytes } => match gezdunar::Widths::load(bytes) {
            Ok(widths) => Answer { bytes: widths.entries().to_vec(), ..Answer::default() },
            Err(refusal) => Answer::refused(number(refusal)),
        },
        Case::Lent { .. } => unreachable!("lengths are given once"),
    }
}

pub fn imode(mode: Mode) -> InterleaveMode {
    match mode {
        Mode::B => InterleaveMode::B,
        Mode::P => InterleaveMode::P,
        Mode::R => InterleaveMode::R,
        Mode::S => InterleaveMode::S,
    }
}

pub fn rule(edges: Edges) -> EdgeRule {
    match edges {
        Edges::Tight => EdgeRule::Tight,
        Edges::Full => EdgeRule::Full,
    }
}

pub fn record(grid: &Grid) -> gezdunar::Grid {
    let Grid { nrows, ncols, bands, nbpp, mode, edges, nppbh, nppbv, nbpr, nbpc } = *grid;
    gezdunar::Grid { nrows, ncols, bands, nbpp, imode: imode(mode), edges: rule(edges), nppbh, nppbv, nbpr, nbpc }
}

/// The table as the calls are handed it.
pub fn table(widths: &cases::Widths) -> Widths {
    Widths::new(widths.0)
}

fn asked(bands: &Option<Vec<u32>>) -> Bands<'_> {
    bands.as_deref().map_or(Bands::All, Bands::Listed)
}

fn mask(header: &Header) -> ImageDataMask {
    ImageDataMask {
        image_data_offset: header.imdatoff,
        block_mask_record_length: header.block_length,
        pad_pixel_mask_record_length: header.pad_length,
        pad_pixel_code_length: header.code_bits,
        pad_pixel_code: header.code,
    }
}

pub fn number(refusal: Refusal) -> u8 {
    u8::try_from(refusal.number()).unwrap_or(UNKNOWN)
}

fn numbers(shape: Shape) -> Vec<u64> {
    [shape.bands, shape.rows, shape.columns].map(|n| n as u64).to_vec()
}

/// Values that are not in an answer: none if they are as expected, else themselves, so that they show.
fn unexpected(values: Vec<u64>, expected: &[usize]) -> Vec<u64> {
    let same = values.iter().copied().eq(expected.iter().map(|&n| n as u64));
    if same {
        Vec::new()
    } else {
        values
    }
}

/// Runs a call on a lent output.
fn with_output(lent: &Lent, call: impl FnOnce(&mut [u8]) -> Result<Vec<u64>, Refusal>) -> Answer {
    let mut bytes = lent.output();
    match call(&mut bytes) {
        Ok(values) => Answer { number: 0, values, bytes },
        Err(refusal) => Answer { number: number(refusal), values: Vec::new(), bytes },
    }
}

fn window(
    grid: &gezdunar::Grid,
    widths: &Widths,
    image: &[u8],
    area: &Area,
    bands: Bands<'_>,
    out: &mut [u8],
) -> Result<Vec<u64>, Refusal> {
    let Area { top, left, rows, columns } = *area;
    let window = Window { row: top, column: left, rows, columns };
    let expected = [bands.count(grid.bands), rows as usize, columns as usize];
    let shape = gezdunar::read_window(image, grid, widths, window, bands, out)?;
    Ok(unexpected(numbers(shape), &expected))
}

fn mask_write(
    grid: &gezdunar::Grid,
    widths: &Widths,
    mask: &ImageDataMask,
    blocks: &[u32],
    pads: &[u32],
    out: &mut [u8],
) -> Result<Vec<u64>, Refusal> {
    let code = usize::from(mask.pad_pixel_code_length.div_ceil(8));
    let expected = 10 + code + 4 * (blocks.len() + pads.len());
    let bytes = gezdunar::mask_write(grid, widths, mask, blocks, pads, out)?;
    Ok(unexpected(vec![bytes as u64], &[expected]))
}

/// `to_band_sequential` or `from_band_sequential`.
type Reorder = fn(&[u8], InterleaveMode, u32, u32, u32, usize, &mut [u8]) -> Result<Reordered, Refusal>;

fn reordered(reorder: Reorder, pack: &Pack, data: &[u8], out: &mut [u8]) -> Result<Vec<u64>, Refusal> {
    let Pack { mode, rows, columns, bands, size } = *pack;
    let answer = reorder(data, imode(mode), rows, columns, bands, size as usize, out)?;
    Ok(unexpected(counts(answer), &[bands as usize, data.len()]))
}

fn selected(pack: &Pack, data: &[u8], listed: Bands<'_>, out: &mut [u8]) -> Result<Vec<u64>, Refusal> {
    let Pack { rows, columns, bands, size, .. } = *pack;
    let count = listed.count(bands);
    let band = data.len().checked_div(bands as usize).unwrap_or(0);
    let answer = gezdunar::fused_bip_to_bsq(data, rows, columns, bands, size as usize, listed, out)?;
    Ok(unexpected(counts(answer), &[count, count * band]))
}

fn counts(answer: Reordered) -> Vec<u64> {
    vec![answer.bands as u64, answer.bytes as u64]
}

/// The calls on one image and one set of marks.
fn frame(grid: &gezdunar::Grid, calls: &[Call], lent: &Lent) -> Answer {
    let (mut image, mut marks) = (lent.image(), lent.marks());
    let start =
        if lent.no_start { Ok(()) } else { gezdunar::start(&mut image, &mut marks, grid, &table(&lent.widths)) };
    let (mut grid, mut values, mut scratches) = (*grid, Vec::new(), Vec::new());
    for call in calls {
        let (call, widths) = call.with_widths(&lent.widths);
        let widths = &table(&widths);
        let answer = match call {
            Call::Relay { scratch } => {
                let mut scratch = pattern(*scratch);
                let relaid = gezdunar::relay(&mut image, &marks, &grid, widths, &mut scratch);
                scratches.extend(scratch);
                let number = relaid.map_or_else(number, |full| {
                    grid = full;
                    0
                });
                [u64::from(number), u64::from(grid.edges == EdgeRule::Full), 0]
            }
            call => match frame_call(&grid, widths, call, &mut image, &mut marks) {
                Ok(count) => [0, count, 0],
                Err(Refusal::UnmarkedBlock { row, column }) => [15, u64::from(row), u64::from(column)],
                Err(refusal) => [u64::from(number(refusal)), 0, 0],
            },
        };
        values.extend(answer);
    }
    let mut bytes = image;
    bytes.extend(marks.into_iter().flat_map(u64::to_be_bytes));
    bytes.extend(scratches);
    Answer { number: start.map_or_else(number, |()| 0), values, bytes }
}

/// One call but a re-lay; the count for progress.
fn frame_call(
    grid: &gezdunar::Grid,
    widths: &Widths,
    call: &Call,
    image: &mut [u8],
    marks: &mut [u64],
) -> Result<u64, Refusal> {
    match call {
        Call::Write { row, column, shape, data } => {
            let [bands, rows, columns] = shape.map(|n| n as usize);
            let shape = Shape { bands, rows, columns };
            gezdunar::encode_block(image, marks, grid, widths, *row, *column, shape, data).map(|()| 0)
        }
        Call::Skip { row, column } => gezdunar::skip_block(image, marks, grid, widths, *row, *column).map(|()| 0),
        Call::Progress => gezdunar::progress(marks, grid, widths).map(|count| count as u64),
        Call::Finish => gezdunar::finalize(image, marks, grid, widths).map(|()| 0),
        Call::Relay { .. } => unreachable!("it changes the grid"),
        Call::Handed { .. } => unreachable!("a table is handed once"),
    }
}

fn lengths(mask: &ImageDataMask) -> [u64; 3] {
    let lengths = [mask.block_mask_record_length, mask.pad_pixel_mask_record_length];
    [lengths[0], lengths[1], mask.pad_pixel_code_length].map(u64::from)
}

fn parse(grid: &gezdunar::Grid, widths: &Widths, table: &[u8]) -> Answer {
    let parsed = match gezdunar::mask_parse(table, grid, widths) {
        Ok(parsed) => parsed,
        Err(refusal) => return Answer::refused(number(refusal)),
    };
    let mut values = vec![u64::from(parsed.mask.image_data_offset)];
    values.extend(lengths(&parsed.mask));
    values.extend([u64::from(parsed.mask.pad_pixel_code), parsed.used as u64]);
    Answer { number: 0, values, bytes: Vec::new() }
}

/// The records are read out of the table, as many in each list that the header has.
fn rewrite(grid: &gezdunar::Grid, widths: &Widths, table: &[u8]) -> Answer {
    let parsed = match gezdunar::mask_parse(table, grid, widths) {
        Ok(parsed) => parsed,
        Err(refusal) => return Answer::refused(number(refusal)),
    };
    let mask = parsed.mask;
    let start = 10 + usize::from(mask.pad_pixel_code_length.div_ceil(8));
    let words: Vec<u32> = table[start..parsed.used]
        .chunks_exact(4)
        .map(|bytes| bytes.iter().fold(0, |word, &byte| word << 8 | u32::from(byte)))
        .collect();
    let blocks = match (mask.block_mask_record_length, mask.pad_pixel_mask_record_length) {
        (0, _) => 0,
        (_, 0) => words.len(),
        _ => words.len() / 2,
    };
    let lent = Lent { output: parsed.used as u64, ..Lent::default() };
    let (blocks, pads) = words.split_at(blocks);
    with_output(&lent, |out| mask_write(grid, widths, &mask, blocks, pads, out))
}

/// The two calls are refused alike, or the number is none of the documents'.
fn lookup(grid: &gezdunar::Grid, widths: &Widths, table: &[u8], (row, column): (u32, u32), band: u32) -> Answer {
    let present = gezdunar::has_block(table, grid, widths, row, column, band);
    let offset = gezdunar::get_block_offset(table, grid, widths, row, column, band);
    match (present, offset) {
        (Ok(present), Ok(offset)) => {
            let known = u64::from(offset.is_some());
            let values = vec![u64::from(present), known, u64::from(offset.unwrap_or(0))];
            Answer { number: 0, values, bytes: Vec::new() }
        }
        (Err(one), Err(other)) if one == other => Answer::refused(number(one)),
        _ => Answer::refused(UNKNOWN),
    }
}

fn from_marks(grid: &gezdunar::Grid, marks: &[u64], lent: &Lent) -> Answer {
    let mut out = lent.output_words();
    let parsed = gezdunar::mask_from_marks(marks, grid, &table(&lent.widths), &mut out);
    let bytes = out.into_iter().flat_map(u32::to_be_bytes).collect();
    match parsed {
        Ok(parsed) => {
            let bands = if grid.imode == InterleaveMode::S { grid.bands as usize } else { 1 };
            let records = grid.nbpr as usize * grid.nbpc as usize * bands;
            let mut values = lengths(&parsed.mask).to_vec();
            let others = [parsed.mask.image_data_offset, parsed.mask.pad_pixel_code].map(u64::from);
            let used = parsed.used as u64;
            values.extend(unexpected(vec![others[0], others[1], used], &[0, 0, records]));
            Answer { number: 0, values, bytes }
        }
        Err(refusal) => Answer { number: number(refusal), values: Vec::new(), bytes },
    }
}
