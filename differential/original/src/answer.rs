//! The original's answer to a case.
//!
//! Document 01 adds calls that the original lacks. Where its functions decide them, the answer is put
//! together here: a window from the blocks that it crosses, a whole block from `tile_byte_ranges`, the
//! marks and the count of them from the blocks that `finalize` names.

use cases::{Answer, Area, Call, Case, Edges, Grid, Header, Mode, Pack};

use crate::{Encoder, ImageDataMask, Refusal};

/// None where the original has no answer: the rule full, a whole block in S, a subheader, a width table, lent buffers.
pub fn answer(case: &Case) -> Option<Answer> {
    if case.grid().is_some_and(|grid| grid.edges == Edges::Full) {
        return None;
    }
    let answer = match case {
        Case::Read { grid, image, row, column, level, bands } => {
            crate::decode_block(grid, image, *row, *column, *level, bands.as_deref())
                .map(|(bytes, shape)| accepted(shape.map(u64::from).to_vec(), bytes))
        }
        Case::Lent { .. } | Case::ReadSubheader { .. } | Case::WriteSubheader { .. } | Case::Load { .. } => {
            return None
        }
        Case::Whole { grid, .. } if grid.mode == Mode::S => return None,
        Case::Whole { grid, image, row, column } => whole(grid, image, *row, *column),
        Case::Window { grid, image, area, bands } => window(grid, image, *area, bands.as_deref()),
        Case::Frame { grid, calls } => frame(grid, calls),
        Case::Parse { grid, table } => parse(grid, table),
        Case::Rewrite { grid, table } => rewrite(grid, table),
        Case::MaskWrite { header, blocks, pads, .. } => {
            crate::mask_to_bytes(&mask(header, blocks, pads)).map(|bytes| accepted(vec![], bytes))
        }
        Case::Lookup { grid, table, row, column, band } => lookup(grid, table, *row, *column, *band),
        Case::FromMarks { grid, marks } => from_marks(grid, marks),
        Case::ToSequential { pack, data } => reordered(crate::to_band_sequential, pack, data),
        Case::FromSequential { pack, data } => reordered(crate::from_band_sequential, pack, data),
        Case::Select { pack, data, bands, tile, parallel } => {
            let (bands, tile) = (bands.as_deref(), *tile as usize);
            crate::fused_bip_to_bsq_swap(pack, data, bands, tile, *parallel).map(|bytes| accepted(vec![], bytes))
        }
    };
    Some(answer.unwrap_or_else(|refusal| Answer::refused(refusal.number())))
}

fn accepted(values: Vec<u64>, bytes: Vec<u8>) -> Answer {
    Answer { number: 0, values, bytes }
}

fn reordered(
    reorder: fn(&Pack, &[u8]) -> Result<Vec<u8>, Refusal>,
    pack: &Pack,
    data: &[u8],
) -> Result<Answer, Refusal> {
    reorder(pack, data).map(|bytes| accepted(vec![], bytes))
}

fn whole(grid: &Grid, image: &[u8], row: u32, column: u32) -> Result<Answer, Refusal> {
    let Some((start, length)) = crate::block_range(grid, row, column)? else {
        return Ok(Answer::refused(6));
    };
    let part = image.get(start as usize..(start + length) as usize);
    Ok(part.map_or(Answer::refused(7), |part| accepted(vec![], part.to_vec())))
}

fn window(grid: &Grid, image: &[u8], area: Area, bands: Option<&[u32]>) -> Result<Answer, Refusal> {
    let rows = area.top / grid.nppbv..=(area.top + area.rows - 1) / grid.nppbv;
    let columns = area.left / grid.nppbh..=(area.left + area.columns - 1) / grid.nppbh;
    // Every block with all bands, so that missing data is found before a band out of range.
    for row in rows.clone() {
        for column in columns.clone() {
            crate::decode_block(grid, image, row, column, 0, None)?;
        }
    }
    let size = crate::sample_bytes(grid);
    let count = bands.map_or(grid.bands as usize, <[u32]>::len);
    let mut out = vec![0; count * area.rows as usize * area.columns as usize * size];
    for row in rows {
        for column in columns.clone() {
            let (data, [bands, height, width]) = crate::decode_block(grid, image, row, column, 0, bands)?;
            let mut samples = data.chunks_exact(size);
            for band in 0..bands {
                for y in row * grid.nppbv..row * grid.nppbv + height {
                    for x in column * grid.nppbh..column * grid.nppbh + width {
                        let sample = samples.next().expect("a sample for each place");
                        let (y, x) = (y.wrapping_sub(area.top), x.wrapping_sub(area.left));
                        if y < area.rows && x < area.columns {
                            let at = ((band * area.rows + y) * area.columns + x) as usize * size;
                            out[at..at + size].copy_from_slice(sample);
                        }
                    }
                }
            }
        }
    }
    Ok(accepted(vec![], out))
}

/// A fresh encoder after the writes and skips of a list. Refused ones change nothing.
fn replay(grid: &Grid, calls: &[Call]) -> Result<Encoder, Refusal> {
    let mut encoder = Encoder::new(grid)?;
    for call in calls {
        let _ = apply(&mut encoder, call);
    }
    Ok(encoder)
}

fn apply(encoder: &mut Encoder, call: &Call) -> Result<(), Refusal> {
    match call {
        Call::Write { row, column, shape, data } => encoder.encode_block(*row, *column, data, *shape),
        Call::Skip { row, column } => encoder.skip_block(*row, *column),
        Call::Progress | Call::Finish | Call::Relay { .. } | Call::Handed { .. } => Ok(()),
    }
}

/// The blocks that `finalize` misses: each one that it names is skipped before it is asked again.
fn missing(grid: &Grid, calls: &[Call]) -> Result<Vec<(u32, u32)>, Refusal> {
    let mut missing = Vec::new();
    loop {
        let mut encoder = replay(grid, calls)?;
        for &(row, column) in &missing {
            encoder.skip_block(row, column)?;
        }
        match encoder.finalize() {
            Ok(_) => return Ok(missing),
            Err(Refusal::Missing(row, column)) => missing.push((row, column)),
            Err(refusal) => return Err(refusal),
        }
    }
}

fn frame(grid: &Grid, calls: &[Call]) -> Result<Answer, Refusal> {
    let mut encoder = Encoder::new(grid)?;
    let mut values = Vec::new();
    for (i, call) in calls.iter().enumerate() {
        values.extend(match call {
            Call::Write { .. } | Call::Skip { .. } => match apply(&mut encoder, call) {
                Ok(()) => [0; 3],
                Err(refusal) => [u64::from(refusal.number()), 0, 0],
            },
            Call::Relay { .. } | Call::Handed { .. } => unreachable!("the original has no re-lay and no table"),
            Call::Progress => [0, grid.blocks() - missing(grid, &calls[..i])?.len() as u64, 0],
            Call::Finish => match replay(grid, &calls[..i])?.finalize() {
                Ok(_) => [0; 3],
                Err(Refusal::Missing(row, column)) => [15, u64::from(row), u64::from(column)],
                Err(refusal) => [u64::from(refusal.number()), 0, 0],
            },
        });
    }
    let mut marks = vec![0u64; grid.blocks().div_ceil(64) as usize];
    let missing = missing(grid, calls)?;
    for (i, block) in grid.every_block().enumerate() {
        if !missing.contains(&block) {
            marks[i / 64] |= 1 << (i % 64);
        }
    }
    // A skip keeps the image, so that the blocks still missing can be skipped to get it.
    for (row, column) in missing {
        encoder.skip_block(row, column)?;
    }
    let mut bytes = encoder.finalize()?;
    bytes.extend(marks.into_iter().flat_map(u64::to_be_bytes));
    Ok(accepted(values, bytes))
}

fn parse(grid: &Grid, table: &[u8]) -> Result<Answer, Refusal> {
    let (mask, used) = crate::mask_parse(grid, table)?;
    let values = vec![
        u64::from(mask.image_data_offset),
        u64::from(mask.block_mask_record_length),
        u64::from(mask.pad_pixel_mask_record_length),
        u64::from(mask.pad_pixel_code_length),
        u64::from(mask.pad_pixel_code.unwrap_or(0)),
        used as u64,
    ];
    Ok(accepted(values, vec![]))
}

fn rewrite(grid: &Grid, table: &[u8]) -> Result<Answer, Refusal> {
    let (mask, _) = crate::mask_parse(grid, table)?;
    crate::mask_to_bytes(&mask).map(|bytes| accepted(vec![], bytes))
}

fn mask(header: &Header, blocks: &[u32], pads: &[u32]) -> ImageDataMask {
    ImageDataMask {
        image_data_offset: header.imdatoff,
        block_mask_record_length: header.block_length,
        pad_pixel_mask_record_length: header.pad_length,
        pad_pixel_code_length: header.code_bits,
        pad_pixel_code: (header.code_bits > 0).then_some(header.code),
        block_offsets: blocks.to_vec(),
        pad_pixel_offsets: pads.to_vec(),
    }
}

fn lookup(grid: &Grid, table: &[u8], row: u32, column: u32, band: u32) -> Result<Answer, Refusal> {
    let (mask, _) = crate::mask_parse(grid, table)?;
    let present = crate::mask_has_block(&mask, grid, row, column, band)?;
    let offset = crate::mask_get_block_offset(&mask, grid, row, column, band)?;
    let known = u64::from(offset.is_some());
    Ok(accepted(vec![u64::from(present), known, offset.unwrap_or(0)], vec![]))
}

fn from_marks(grid: &Grid, marks: &[u64]) -> Result<Answer, Refusal> {
    let marked = |i: usize| marks[i / 64] >> (i % 64) & 1 == 1;
    let provided = grid.every_block().enumerate().filter(|&(i, _)| marked(i)).map(|(_, block)| block).collect();
    let mask = crate::mask_from_provided_blocks(grid, &provided)?;
    let values = [mask.block_mask_record_length, mask.pad_pixel_mask_record_length, mask.pad_pixel_code_length];
    let bytes = mask.block_offsets.into_iter().flat_map(u32::to_be_bytes).collect();
    Ok(accepted(values.map(u64::from).to_vec(), bytes))
}
