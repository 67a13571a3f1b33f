//! The image data mask table.

use super::{bits, layout, questions};
use crate::{Grid, Header, Mode, Widths};

const EMPTY: u32 = 0xffff_ffff;

/// The records of a table; the grid passes questions 1 to 4.
pub fn records(g: &Grid) -> u64 {
    match g.mode {
        Mode::S => g.blocks() * u64::from(g.bands),
        _ => g.blocks(),
    }
}

fn code_bytes(h: &Header) -> u64 {
    u64::from(h.code_bits).div_ceil(8)
}

/// The bytes of a table with this header.
pub fn table_bytes(g: &Grid, h: &Header) -> u64 {
    let record = u64::from(h.block_length) + u64::from(h.pad_length);
    10 + code_bytes(h) + records(g) * record
}

/// Questions 17 and 18.
fn lengths(h: &Header) -> u8 {
    if !matches!(h.block_length, 0 | 4) || !matches!(h.pad_length, 0 | 4) {
        return 17;
    }
    if h.code_bits > 32 {
        return 18;
    }
    0
}

/// The number, the header and the count of bytes used.
pub fn parse(g: &Grid, widths: &Widths, table: &[u8]) -> (u8, Header, u64) {
    let refused = |number| (number, Header::default(), 0);
    let number = questions::grid(g, widths);
    if number != 0 {
        return refused(number);
    }
    if table.len() < 10 {
        return refused(16);
    }
    let mut header = Header {
        imdatoff: bits::get(table, 0, 32) as u32,
        block_length: bits::get(table, 32, 16) as u16,
        pad_length: bits::get(table, 48, 16) as u16,
        code_bits: bits::get(table, 64, 16) as u16,
        code: 0,
    };
    let number = lengths(&header);
    if number != 0 {
        return refused(number);
    }
    let used = table_bytes(g, &header);
    if (table.len() as u64) < used {
        return refused(19);
    }
    header.code = bits::get(table, 80, 8 * code_bytes(&header)) as u32;
    (0, header, used)
}

/// The number, and the bytes of the table written.
pub fn write(g: &Grid, widths: &Widths, h: &Header, blocks: &[u32], pads: &[u32], out: &mut [u8]) -> (u8, u64) {
    let number = write_number(g, widths, h, blocks, pads, out);
    if number != 0 {
        return (number, 0);
    }
    let size = table_bytes(g, h);
    bits::put(out, 0, 32, size);
    bits::put(out, 32, 16, u64::from(h.block_length));
    bits::put(out, 48, 16, u64::from(h.pad_length));
    bits::put(out, 64, 16, u64::from(h.code_bits));
    bits::put(out, 80, 8 * code_bytes(h), u64::from(h.code));
    let mut at = 80 + 8 * code_bytes(h);
    for &offset in blocks.iter().chain(pads) {
        bits::put(out, at, 32, u64::from(offset));
        at += 32;
    }
    (0, size)
}

fn write_number(g: &Grid, widths: &Widths, h: &Header, blocks: &[u32], pads: &[u32], out: &[u8]) -> u8 {
    let number = questions::grid(g, widths);
    if number != 0 {
        return number;
    }
    let number = lengths(h);
    if number != 0 {
        return number;
    }
    if u64::from(h.code) >= 1 << (8 * code_bytes(h)) {
        return 20;
    }
    if table_bytes(g, h) > 4_294_967_295 {
        return 21;
    }
    let wanted = |length| if length == 0 { 0 } else { records(g) };
    if blocks.len() as u64 != wanted(h.block_length) || pads.len() as u64 != wanted(h.pad_length) {
        return 22;
    }
    if (out.len() as u64) < table_bytes(g, h) {
        return 9;
    }
    0
}

/// The number, whether the block is present, and its offset if it has one.
pub fn lookup(
    g: &Grid,
    widths: &Widths,
    table: &[u8],
    (row, column): (u32, u32),
    band: u32,
) -> (u8, bool, Option<u32>) {
    let (number, header, _) = parse(g, widths, table);
    if number != 0 {
        return (number, false, None);
    }
    if !questions::block_inside(g, row, column) {
        return (6, false, None);
    }
    if !questions::bands_inside(g.bands, Some(&[band])) {
        return (8, false, None);
    }
    if header.block_length == 0 {
        return (0, true, None);
    }
    let record = layout::block_index(g, row, column) + if g.mode == Mode::S { u64::from(band) } else { 0 };
    let at = 10 + code_bytes(&header) + 4 * record;
    let offset = bits::get(table, 8 * at, 32) as u32;
    if offset == EMPTY {
        (0, false, None)
    } else {
        (0, true, Some(offset))
    }
}

/// The number, and the header; IMDATOFF is left 0.
pub fn from_marks(g: &Grid, widths: &Widths, marks: &[u64], out: &mut [u32]) -> (u8, Header) {
    let number = questions::grid(g, widths);
    if number != 0 {
        return (number, Header::default());
    }
    if !questions::holds_marks(g, marks) {
        return (12, Header::default());
    }
    if (out.len() as u64) < records(g) {
        return (9, Header::default());
    }
    let bands = if g.mode == Mode::S { u64::from(g.bands) } else { 1 };
    for i in 0..records(g) {
        let block = i / bands;
        let marked = marks[(block / 64) as usize] >> (block % 64) & 1 == 1;
        out[i as usize] = if marked { 0 } else { EMPTY };
    }
    (0, Header { block_length: 4, ..Header::default() })
}
