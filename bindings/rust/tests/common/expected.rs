//! Answers that follow from the grid and the lengths, the marks, the samples or the table, and those of the reader of a
//! subheader, computed here.

use gezdunar::{
    EdgeRule, Grid, ImageCompression, ImageDataMask, ImageSubheader, InterleaveMode, Parsed, PixelJustification,
    PixelValueType, Refusal, Shape, Widths, EMPTY_BLOCK_OFFSET,
};

/// A product of counts of an accepted grid.
fn product(counts: &[u32]) -> usize {
    counts.iter().map(|&count| count as usize).product()
}

/// t: the bytes that a band of a block takes.
fn band_bytes(grid: &Grid) -> usize {
    product(&[grid.nppbh, grid.nppbv, grid.nbpp]).div_ceil(8)
}

/// The bytes of a block in B, P and R.
fn block_bytes(grid: &Grid) -> usize {
    grid.bands as usize * band_bytes(grid)
}

fn blocks(grid: &Grid) -> usize {
    product(&[grid.nbpr, grid.nbpc])
}

fn block_index(grid: &Grid, row: u32, column: u32) -> usize {
    product(&[row, grid.nbpr]) + column as usize
}

/// The last row and column of a block inside the picture.
fn last_actual(grid: &Grid, row: u32, column: u32) -> (usize, usize) {
    let rows = (grid.nrows - row * grid.nppbv).min(grid.nppbv);
    let columns = (grid.ncols - column * grid.nppbh).min(grid.nppbh);
    (rows as usize - 1, columns as usize - 1)
}

/// At a width that is no byte multiple: the first bit in the image of a sample, by its band, row and column in a block.
/// The samples that the rule has in a block stand in the mode's order, cut into as many runs as there are bands.
pub fn packed_bit(grid: &Grid, block: (u32, u32), [band, row, column]: [usize; 3]) -> usize {
    let (last_row, last_column) = last_actual(grid, block.0, block.1);
    let (rows, columns) = match grid.edges {
        EdgeRule::Tight => (last_row + 1, last_column + 1),
        EdgeRule::Full => (grid.nppbv as usize, grid.nppbh as usize),
    };
    let (index, t, bands) = (block_index(grid, block.0, block.1), band_bytes(grid), grid.bands as usize);
    let place = match grid.imode {
        InterleaveMode::B | InterleaveMode::S => (band * rows + row) * columns + column,
        InterleaveMode::P => (row * columns + column) * bands + band,
        InterleaveMode::R => (row * bands + band) * columns + column,
    };
    let run = place / (rows * columns);
    let start = match grid.imode {
        InterleaveMode::S => (run * blocks(grid) + index) * t,
        _ => (index * bands + run) * t,
    };
    8 * start + place % (rows * columns) * grid.nbpp as usize
}

/// Where a block's last actual sample ends, or at a width that is no byte multiple the t bytes of its last run.
pub fn block_end(grid: &Grid, row: u32, column: u32) -> usize {
    let (index, t, bands) = (block_index(grid, row, column), band_bytes(grid), grid.bands as usize);
    let start = index * bands * t;
    let last_band = match grid.imode {
        InterleaveMode::S => ((bands - 1) * blocks(grid) + index) * t,
        _ => start + (bands - 1) * t,
    };
    if !grid.nbpp.is_multiple_of(8) {
        return last_band + t;
    }
    let (s, nppbh) = (grid.nbpp as usize / 8, grid.nppbh as usize);
    let (r, c) = last_actual(grid, row, column);
    s + match grid.imode {
        InterleaveMode::B | InterleaveMode::S => last_band + (r * nppbh + c) * s,
        InterleaveMode::P => start + ((r * nppbh + c) * bands + bands - 1) * s,
        InterleaveMode::R => start + ((r * bands + bands - 1) * nppbh + c) * s,
    }
}

fn block_inside(grid: &Grid, row: u32, column: u32) -> Result<(), Refusal> {
    (row < grid.nbpc && column < grid.nbpr).then_some(()).ok_or(Refusal::BlockOutsideGrid)
}

pub fn whole_block<'a>(
    image: &'a [u8],
    grid: &Grid,
    widths: &Widths,
    row: u32,
    column: u32,
) -> Result<&'a [u8], Refusal> {
    grid.check(widths)?;
    block_inside(grid, row, column)?;
    if grid.imode == InterleaveMode::S {
        return Ok(&[]);
    }
    let (start, bytes) = (block_index(grid, row, column) * block_bytes(grid), block_bytes(grid));
    image.get(start..start + bytes).ok_or(Refusal::ImageEnds)
}

/// The grid's marks, by rows, then columns.
fn marked(marks: &[u64], grid: &Grid) -> Result<Vec<bool>, Refusal> {
    if marks.len() < blocks(grid).div_ceil(64) {
        return Err(Refusal::MarksTooShort);
    }
    Ok((0..blocks(grid)).map(|i| marks[i / 64] >> (i % 64) & 1 == 1).collect())
}

/// Is the number of every sample below 2^NBPP?
fn samples_fit(grid: &Grid, data: &[u8]) -> bool {
    let mut samples = data.chunks_exact(grid.nbpp.div_ceil(8) as usize);
    let number = |sample: &[u8]| sample.iter().fold(0_u128, |number, &byte| number << 8 | u128::from(byte));
    samples.all(|sample| number(sample) < 1 << grid.nbpp)
}

/// The answer of a write, by what it is lent.
pub fn encode_block(
    (image, marks): (&[u8], &[u64]),
    grid: &Grid,
    widths: &Widths,
    (row, column): (u32, u32),
    shape: Shape,
    data: &[u8],
) -> Result<(), Refusal> {
    grid.check(widths)?;
    if image.len() < blocks(grid) * block_bytes(grid) {
        return Err(Refusal::ImageTooShort);
    }
    marked(marks, grid)?;
    block_inside(grid, row, column)?;
    let (last_row, last_column) = last_actual(grid, row, column);
    if shape != (Shape { bands: grid.bands as usize, rows: last_row + 1, columns: last_column + 1 }) {
        return Err(Refusal::OtherShape);
    }
    if data.len() != shape.bytes(grid.nbpp.div_ceil(8) as usize) {
        return Err(Refusal::DataLength);
    }
    samples_fit(grid, data).then_some(()).ok_or(Refusal::SampleBits)
}

pub fn progress(marks: &[u64], grid: &Grid, widths: &Widths) -> Result<usize, Refusal> {
    grid.check(widths)?;
    Ok(marked(marks, grid)?.into_iter().filter(|&mark| mark).count())
}

pub fn finalize(image: &[u8], marks: &[u64], grid: &Grid, widths: &Widths) -> Result<(), Refusal> {
    grid.check(widths)?;
    if image.len() < blocks(grid) * block_bytes(grid) {
        return Err(Refusal::ImageTooShort);
    }
    match marked(marks, grid)?.into_iter().position(|mark| !mark) {
        Some(i) => Err(Refusal::UnmarkedBlock { row: i as u32 / grid.nbpr, column: i as u32 % grid.nbpr }),
        None => Ok(()),
    }
}

/// A big-endian number in a table.
fn number(table: &[u8], from: usize, bytes: usize) -> u32 {
    table[from..from + bytes].iter().fold(0, |number, &byte| number << 8 | u32::from(byte))
}

pub fn mask_parse(table: &[u8], grid: &Grid, widths: &Widths) -> Result<Parsed, Refusal> {
    grid.check(widths)?;
    if table.len() < 10 {
        return Err(Refusal::TableTooShort);
    }
    let [block, pad, bits] = [4, 6, 8].map(|from| number(table, from, 2) as u16);
    if ![0, 4].contains(&block) || ![0, 4].contains(&pad) {
        return Err(Refusal::RecordLength);
    }
    if bits > 32 {
        return Err(Refusal::PadCodeLength);
    }
    let bands = if grid.imode == InterleaveMode::S { grid.bands } else { 1 };
    let (code, records) = (usize::from(bits.div_ceil(8)), product(&[grid.nbpr, grid.nbpc, bands]));
    let used = 10 + code + records * usize::from(block + pad);
    if table.len() < used {
        return Err(Refusal::TableEnds);
    }
    let mask = ImageDataMask {
        image_data_offset: number(table, 0, 4),
        block_mask_record_length: block,
        pad_pixel_mask_record_length: pad,
        pad_pixel_code_length: bits,
        pad_pixel_code: number(table, 10, code),
    };
    Ok(Parsed { mask, used })
}

/// Is a band of a block present, and its offset.
pub fn lookup(
    table: &[u8],
    grid: &Grid,
    widths: &Widths,
    row: u32,
    column: u32,
    band: u32,
) -> Result<(bool, Option<u32>), Refusal> {
    let mask = mask_parse(table, grid, widths)?.mask;
    block_inside(grid, row, column)?;
    if band >= grid.bands {
        return Err(Refusal::NoSuchBand);
    }
    if mask.block_mask_record_length == 0 {
        return Ok((true, None));
    }
    let band = if grid.imode == InterleaveMode::S { band as usize } else { 0 };
    let record = block_index(grid, row, column) + band;
    let offset = number(table, 10 + usize::from(mask.pad_pixel_code_length.div_ceil(8)) + 4 * record, 4);
    let given = (offset != EMPTY_BLOCK_OFFSET).then_some(offset);
    Ok((given.is_some(), given))
}

/// The number that a part's digits give.
fn digits(part: &[u8], from: usize, bytes: usize) -> Result<u32, Refusal> {
    let digits = &part[from..from + bytes];
    let number = |number: u32, digit: &u8| number * 10 + u32::from(digit - b'0');
    digits.iter().all(u8::is_ascii_digit).then(|| digits.iter().fold(0, number)).ok_or(Refusal::SubheaderPart)
}

/// A part's text.
fn text(part: &[u8], from: usize, bytes: usize) -> Result<&str, Refusal> {
    std::str::from_utf8(&part[from..from + bytes]).map_err(|_| Refusal::NamedValue)
}

/// A side of a block as it is meant.
fn side(field: u32, blocks: u32, picture: u32) -> u32 {
    match (field, blocks) {
        (0, 1) => picture,
        _ => field,
    }
}

pub fn subheader_read(
    first: &[u8],
    second: &[u8],
    third: &[u8],
    bands: u32,
    edges: EdgeRule,
    widths: &Widths,
) -> Result<ImageSubheader, Refusal> {
    if (first.len(), second.len(), third.len()) != (38, 2, 19) {
        return Err(Refusal::SubheaderPart);
    }
    let (nrows, ncols, abpp) = (digits(first, 0, 8)?, digits(first, 8, 8)?, digits(first, 35, 2)?);
    let (nbpr, nbpc, nbpp) = (digits(third, 1, 4)?, digits(third, 5, 4)?, digits(third, 17, 2)?);
    let (nppbh, nppbv) = (side(digits(third, 9, 4)?, nbpr, ncols), side(digits(third, 13, 4)?, nbpc, nrows));
    let pvtype = text(first, 16, 3)?.parse::<PixelValueType>()?;
    let pjust = text(first, 37, 1)?.parse::<PixelJustification>()?;
    let ic = text(second, 0, 2)?.parse::<ImageCompression>()?;
    let imode = text(third, 0, 1)?.parse::<InterleaveMode>().map_err(|_| Refusal::NamedValue)?;
    let grid = Grid { nrows, ncols, bands, nbpp, imode, edges, nppbh, nppbv, nbpr, nbpc };
    grid.check(widths)?;
    let [irep, icat] = [19, 27].map(|from| std::array::from_fn(|i| first[from + i]));
    Ok(ImageSubheader { pvtype, irep, icat, abpp, pjust, ic, grid })
}
