//! Small inputs outside the compared domain: what the original and the library do with them.

use std::fmt::Debug;

use cases::{Answer, Call, Case, Edges, Grid, Header, Lent, Mode, Pack};
use original::{ImageDataMask, Refusal};

use crate::library;

pub fn print() {
    band_lists();
    widths();
    block_counts();
    zero_counts();
    limits();
    named_values();
    whole_block();
    frames();
    higher_bits();
    edge_rules();
    tables_read();
    tables_written();
    offset_lists();
    lookups();
    reorderings();
}

fn show<T: Debug>(what: &str, original: Result<T, Refusal>, case: &Case) {
    let original = match original {
        Ok(answer) => format!("{answer:?}"),
        Err(refusal) => format!("refused: {refusal}"),
    };
    let Answer { number, values, bytes } = library::answer(case);
    let library = match (number, case) {
        (0, Case::Frame { .. }) if values[0] != 0 => format!("{bytes:?}, the call refused with {}", values[0]),
        (0, _) => format!("{bytes:?}, {values:?}"),
        (number, _) => format!("refused with {number}"),
    };
    println!("{what}\n  original: {original}\n  library: {library}");
}

/// One sample of 8 bits in B.
fn plain() -> Grid {
    Grid::new([1, 1], 1, 8, Mode::B, [1, 1])
}

fn read(what: &str, grid: Grid, image: &[u8], (row, column): (u32, u32), list: Option<&[u32]>) {
    let original = original::decode_block(&grid, image, row, column, 0, list);
    // Long answers are cut.
    let original = original.map(|(samples, shape)| (samples[..samples.len().min(9)].to_vec(), shape));
    let (image, bands) = (image.to_vec(), list.map(<[u32]>::to_vec));
    show(what, original, &Case::Read { grid, image, row, column, level: 0, bands });
}

fn band_lists() {
    for mode in Mode::ALL {
        let grid = Grid { mode, ..plain() };
        let what = format!("an empty list of bands, {mode:?}, image 01");
        read(&what, grid, &[1], (0, 0), Some(&[]));
    }
}

fn widths() {
    read("a read at NBPP 0 in P, no image", Grid { nbpp: 0, mode: Mode::P, ..plain() }, &[], (0, 0), None);
    for nbpp in [17, 23, 33, 63, 65, 72] {
        let grid = Grid { nbpp, ..plain() };
        read(&format!("a read at NBPP {nbpp}, image 81 and so on"), grid, &[0x81; 9], (0, 0), None);
        let data = vec![0x81; nbpp.div_ceil(8) as usize];
        let original = original::Encoder::new(&grid).and_then(|mut encoder| {
            encoder.encode_block(0, 0, &data, [1, 1, 1])?;
            encoder.finalize()
        });
        let calls = vec![Call::Write { row: 0, column: 0, shape: [1, 1, 1], data }];
        show(&format!("a write at NBPP {nbpp}"), original, &Case::Frame { grid, calls });
    }
}

fn block_counts() {
    let two = Grid { nbpc: 2, ..plain() };
    read("NBPC 2 for one row of blocks, block (1, 0)", two, &[1, 2], (1, 0), None);
    let three = Grid { nbpc: 3, ..plain() };
    read("NBPC 3 for one row of blocks, block (2, 0)", three, &[1, 2, 3], (2, 0), None);
    let few = Grid { nbpr: 1, ..Grid::new([1, 2], 1, 8, Mode::B, [1, 1]) };
    read("NBPR 1 for two blocks across, block (0, 0)", few, &[1], (0, 0), None);
    let many = Grid::new([10_000, 1], 1, 8, Mode::B, [1, 1]);
    read("10,000 blocks down, block (0, 0)", many, &[1], (0, 0), None);
}

fn zero_counts() {
    read("no rows and NBPC 1", Grid { nrows: 0, ..plain() }, &[1], (0, 0), None);
    read("no bands", Grid { bands: 0, ..plain() }, &[1], (0, 0), None);
    read("blocks of no column, NBPR 1", Grid { nppbh: 0, ..plain() }, &[1], (0, 0), None);
}

fn limits() {
    let wide = Grid::new([1, 1], 1, 8, Mode::B, [1, 8_193]);
    read("blocks of 8,193 columns for one column", wide, &[1], (0, 0), None);
    let crosswise = Grid::new([8_193, 1], 1, 8, Mode::B, [1, 8_193]);
    read("blocks of 8,193 columns for one column and 8,193 rows", crosswise, &[1], (0, 0), None);
    let bands = Grid::new([1, 1], 100_000, 1, Mode::B, [1, 1]);
    read("100,000 bands of one bit", bands, &[0x80; 100_000], (0, 0), Some(&[99_999]));
    let tall = Grid::new([100_000_000, 1], 1, 1, Mode::B, [8_192, 1]);
    read("100,000,000 rows, block (0, 0)", tall, &[0x80; 1_024], (0, 0), None);
    let large = Grid::new([15, 4_369], 65_537, 8, Mode::B, [1, 1]);
    read("an image of 4,294,967,295 bytes, block (0, 0)", large, &[7; 65_537], (0, 0), Some(&[0]));
}

/// The parts of a picture of one sample of 8 bits, with PVTYPE and IMODE.
fn parts(pvtype: &str, imode: char) -> Case {
    let first = format!("0000000100000001{pvtype}MONO    VIS     08R");
    let third = format!("{imode}000100010001000108");
    let parts = [first, "NC".to_string(), third].map(String::into_bytes);
    Case::ReadSubheader { parts, bands: 1, edges: Edges::Tight }
}

fn named_values() {
    for text in ["  B", " B ", "B\t\t", " SI", "SI\n"] {
        show(&format!("PVTYPE {text:?}"), original::pixel_value(text), &parts(text, 'B'));
    }
    show("IMODE 'b'", original::mode('b'), &parts("INT", 'b'));
}

fn whole_block() {
    let grid = Grid::new([1, 2], 2, 8, Mode::S, [1, 1]);
    let case = Case::Whole { grid, image: vec![1, 2, 3, 4], row: 0, column: 1 };
    let what = "the place of block (0, 1) of two in S with two bands, which lies at 1 and 3";
    show(what, original::block_range(&grid, 0, 1), &case);
}

fn frames() {
    let frame = |grid| Box::new(Case::Frame { grid, calls: vec![Call::Finish] });
    let lent = Lent { image: 1, marks: 1, ..Lent::default() };
    let grids = [
        ("blocks of no column", Grid { nppbh: 0, ..plain() }),
        ("no rows", Grid::new([0, 1], 1, 8, Mode::B, [1, 1])),
        ("2^32 - 1 rows and columns", Grid::new([u32::MAX; 2], 1, 8, Mode::B, [1, 1])),
    ];
    for (what, grid) in grids {
        let original = original::Encoder::new(&grid).and_then(original::Encoder::finalize);
        let what = format!("a start and a finish on {what}");
        show(&what, original, &Case::Lent { case: frame(grid), lent });
    }
}

/// Beside a refused call stand the image and the marks, which are as the start left them.
fn higher_bits() {
    for (nbpp, data) in [(1, vec![2]), (7, vec![0x80]), (12, vec![0xf1, 0x23]), (31, vec![0x80, 0, 0, 1])] {
        let grid = Grid { nbpp, ..plain() };
        let original = original::Encoder::new(&grid).and_then(|mut encoder| {
            encoder.encode_block(0, 0, &data, [1, 1, 1])?;
            encoder.finalize()
        });
        let what = format!("a write at NBPP {nbpp} of the sample {data:x?}");
        let calls = vec![Call::Write { row: 0, column: 0, shape: [1, 1, 1], data }];
        show(&what, original, &Case::Frame { grid, calls });
    }
}

/// The original is tight.
fn edge_rules() {
    let full = |picture, nbpp| Grid { edges: Edges::Full, ..Grid::new(picture, 1, nbpp, Mode::B, [2, 2]) };
    read("a read at NBPP 1 of 2 x 1 in a block of 2 x 2, full, image a0", full([2, 1], 1), &[0xa0], (0, 0), None);
    let grid = full([2, 3], 4);
    let (row, column, shape, data) = (0, 1, [1, 2, 1], vec![5, 9]);
    let original = original::Encoder::new(&grid).and_then(|mut encoder| {
        encoder.skip_block(0, 0)?;
        encoder.encode_block(row, column, &data, shape)?;
        encoder.finalize()
    });
    let calls = vec![Call::Write { row, column, shape, data }];
    show("figure m's write, full", original, &Case::Frame { grid, calls });
}

fn tables_read() {
    let grid = plain();
    for (length, after) in [(1, 0), (1, 3), (3, 0), (5, 0)] {
        let mut table = vec![0, 0, 0, 0, 0, length, 0, 0, 0, 0];
        table.extend(vec![9; usize::from(length) + after]);
        let what = format!("a table with a block record of {length} bytes, {after} bytes after it");
        show(&what, original::mask_parse(&grid, &table), &Case::Parse { grid, table: table.clone() });
        let again = original::mask_parse(&grid, &table).and_then(|(m, _)| original::mask_to_bytes(&m));
        show("  and written again", again, &Case::Rewrite { grid, table });
    }
    let table = vec![0, 0, 0, 0, 0, 0, 0, 0, 0, 33, 1, 2, 3, 4, 5];
    let what = "a table with a code of 33 bits";
    show(what, original::mask_parse(&grid, &table), &Case::Parse { grid, table });
    let many = Grid::new([256, 256], 65_536, 8, Mode::S, [1, 1]);
    let table = vec![0, 0, 0, 0, 0, 4, 0, 0, 0, 0];
    let what = "a table of 10 bytes for 65,536 blocks and bands in S";
    show(what, original::mask_parse(&many, &table), &Case::Parse { grid: many, table });
}

fn mask(header: Header, code: Option<u32>, blocks: &[u32]) -> ImageDataMask {
    ImageDataMask {
        image_data_offset: 0,
        block_mask_record_length: header.block_length,
        pad_pixel_mask_record_length: header.pad_length,
        pad_pixel_code_length: header.code_bits,
        pad_pixel_code: code,
        block_offsets: blocks.to_vec(),
        pad_pixel_offsets: vec![],
    }
}

fn write(what: &str, header: Header, code: Option<u32>, blocks: &[u32]) {
    let original = original::mask_to_bytes(&mask(header, code, blocks));
    let (grid, header) = (plain(), Header { code: code.unwrap_or(0), ..header });
    show(what, original, &Case::MaskWrite { grid, header, blocks: blocks.to_vec(), pads: vec![] });
}

fn tables_written() {
    let code = |code_bits| Header { code_bits, ..Header::default() };
    write("code 0 written in 33 bits", code(33), Some(0), &[]);
    write("code 256 written in 8 bits", code(8), Some(256), &[]);
    write("code 1 written with length 0", code(0), Some(1), &[]);
    write("no code written with 8 bits", code(8), None, &[]);
}

fn offset_lists() {
    let records = |block_length| Header { block_length, ..Header::default() };
    write("no offset for one block", records(4), None, &[]);
    write("two offsets for one block", records(4), None, &[0, 1]);
    write("an offset with record length 0", records(0), None, &[1]);
    write("an offset with record length 5", records(5), None, &[1]);
}

fn lookup(what: &str, grid: Grid, table: &[u8], [row, column, band]: [u32; 3]) {
    let original = original::mask_parse(&grid, table).and_then(|(mask, _)| {
        let present = original::mask_has_block(&mask, &grid, row, column, band)?;
        Ok((present, original::mask_get_block_offset(&mask, &grid, row, column, band)?))
    });
    show(what, original, &Case::Lookup { grid, table: table.to_vec(), row, column, band });
}

fn lookups() {
    let table = [0, 0, 0, 14, 0, 4, 0, 0, 0, 0, 0, 0, 0, 5];
    lookup("a lookup of block (1, 0) of one", plain(), &table, [1, 0, 0]);
    lookup("a lookup of block (2^32 - 1, 1) of one", plain(), &table, [u32::MAX, 1, 0]);
    lookup("a lookup of band 1 of one", plain(), &table, [0, 0, 1]);
    lookup("a lookup of band 1 of one in S", Grid { mode: Mode::S, ..plain() }, &table, [0, 0, 1]);
    let tall = Grid::new([2, 1], 1, 8, Mode::B, [1, 1]);
    let two = [0, 0, 0, 18, 0, 4, 0, 0, 0, 0, 0, 0, 0, 5, 0, 0, 0, 6];
    lookup("a lookup of block (0, 1) of 2 x 1 with offsets 5, 6", tall, &two, [0, 1, 0]);
    lookup("a lookup of block (1, 0) of one, without records", plain(), &[0; 10], [1, 0, 0]);
}

fn reorderings() {
    let pack = Pack { mode: Mode::P, rows: 1, columns: 1, bands: 1, size: 1 };
    let reorder = |what, pack: Pack, data: Vec<u8>| {
        let original = original::to_band_sequential(&pack, &data);
        show(what, original, &Case::ToSequential { pack, data });
    };
    reorder("a reordering of a sample of no bytes", Pack { size: 0, ..pack }, vec![]);
    reorder("a reordering of a sample of 9 bytes", Pack { size: 9, ..pack }, vec![7; 9]);
    let long = Pack { columns: u32::MAX, ..pack };
    reorder("no data for 1 x (2^32 - 1) samples", long, vec![]);
    let large = Pack { rows: 1 << 31, columns: 1 << 31, bands: 4, ..pack };
    reorder("no data for 2^31 x 2^31 x 4 samples", large, vec![]);
}
