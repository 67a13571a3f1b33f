//! Every call on arguments of any kind, tables of widths too: none panics, and a refused one leaves every lent byte as
//! it was. Whole blocks, writes, progress, finish, parse, lookup and the reader of a subheader answer as expected.

mod common;

use common::{exact, expected, subheader};
use gezdunar::{
    decode_block, decode_block_vec, encode_block, finalize, from_band_sequential, from_band_sequential_vec,
    fused_bip_to_bsq, fused_bip_to_bsq_vec, get_block_offset, has_block, mask_from_marks, mask_from_marks_vec,
    mask_parse, mask_write, mask_write_vec, progress, read_window, read_window_vec, relay, skip_block, start,
    to_band_sequential, to_band_sequential_vec, whole_block, Bands, EdgeRule, Frame, Grid, ImageDataMask,
    ImageSubheader, InterleaveMode, Refusal, Shape, Widths, Window,
};

const NUMBERS: [u32; 14] = [0, 1, 2, 3, 4, 7, 8, 33, 64, 8_193, 99_999, 100_000_000, 0x8000_0000, u32::MAX];

/// Numbers that look random and are the same in every run.
struct Random(u64);

impl Random {
    fn below(&mut self, limit: usize) -> usize {
        self.0 = self.0.wrapping_mul(6_364_136_223_846_793_005).wrapping_add(1_442_695_040_888_963_407);
        (self.0 >> 33) as usize % limit
    }

    /// Small seven times of eight, else any of the list.
    fn number(&mut self) -> u32 {
        match self.below(8) {
            0 => NUMBERS[self.below(NUMBERS.len())],
            _ => self.below(3) as u32,
        }
    }

    fn size(&mut self) -> usize {
        match self.below(8) {
            0 => usize::MAX >> self.below(64),
            _ => self.below(4),
        }
    }

    fn mode(&mut self) -> InterleaveMode {
        InterleaveMode::ALL[self.below(4)]
    }

    fn rule(&mut self) -> EdgeRule {
        EdgeRule::ALL[self.below(2)]
    }

    /// A small grid, once in three times with one field changed to any number.
    fn grid(&mut self) -> Grid {
        let nbpp = [1, 4, 8, 12, 16, 24][self.below(6)];
        let (nrows, ncols) = (3 + self.below(3) as u32, 3 + self.below(3) as u32);
        let (nppbh, nppbv) = (1 + self.below(4) as u32, 1 + self.below(4) as u32);
        let (bands, imode, edges) = (1 + self.below(3) as u32, self.mode(), self.rule());
        let mut grid = Grid::new(nrows, ncols, bands, nbpp, imode, edges, nppbh, nppbv);
        let number = NUMBERS[self.below(NUMBERS.len())];
        match self.below(24) {
            0 => grid.nrows = number,
            1 => grid.ncols = number,
            2 => grid.bands = number,
            3 => grid.nbpp = number,
            4 => grid.nppbh = number,
            5 => grid.nppbv = number,
            6 => grid.nbpr = number,
            7 => grid.nbpc = number,
            _ => {}
        }
        grid
    }

    /// The constant table, or once in eight times one with an entry changed, that of the grid or another.
    fn widths(&mut self, grid: &Grid) -> Widths {
        let mut entries = *Widths::STANDARD.entries();
        if self.below(8) == 0 {
            let nbpp = [grid.nbpp as usize, self.below(65)][self.below(2)];
            if let Some(entry) = entries.get_mut(nbpp) {
                *entry = self.below(9) as u8;
            }
        }
        Widths::new(entries)
    }

    fn bytes(&mut self) -> Box<[u8]> {
        let length = [0, 3, 10, 18, 60, 200, 600][self.below(7)];
        (0..length).map(|_| [0, 0, 0, 4, 255][self.below(5)]).collect()
    }

    /// Bytes that begin with the lengths of a mask table; in some every record says that its block is empty.
    fn table(&mut self) -> Box<[u8]> {
        let mut table = self.bytes();
        if self.below(4) == 0 {
            table.fill(255);
        }
        if let Some(header) = table.get_mut(..10) {
            let (block, pad, bits) = ([0, 4][self.below(2)], [0, 4, 5][self.below(3)], [0, 8, 32, 33][self.below(4)]);
            header.copy_from_slice(&[0, 0, 0, 9, 0, block, 0, pad, 0, bits]);
        }
        table
    }

    /// A part of a subheader: once in eight times with a byte changed, once in thirty with another length.
    fn part(&mut self, bytes: &[u8]) -> Box<[u8]> {
        let mut part = bytes.to_vec();
        if self.below(8) == 0 {
            let other = [b' ', b'0', b'0', b'1', b'2', b'9', b'B', b'R', 0, 255][self.below(10)];
            part[self.below(bytes.len())] = other;
        }
        if self.below(30) == 0 {
            part.resize(self.below(45), b'0');
        }
        part.into_boxed_slice()
    }

    /// A grid in which a block may be as wide or as high as the picture, at any size.
    fn grid_of_any_size(&mut self) -> Grid {
        let sides = [1, 5, 8_192, 8_193, 9_000, 65_536, 99_999_999];
        let [nrows, ncols] = [0; 2].map(|_| sides[self.below(sides.len())]);
        let [nppbh, nppbv] = [ncols, nrows].map(|side| [side, side, side / 2, 3][self.below(4)]);
        let (bands, nbpp) = (1 + self.below(3) as u32, [1, 8, 12, 64][self.below(4)]);
        Grid::new(nrows, ncols, bands, nbpp, self.mode(), self.rule(), nppbh, nppbv)
    }

    /// Samples of this many bytes in all, all bytes 1; every second time with one byte changed to any.
    fn samples(&mut self, bytes: usize) -> Box<[u8]> {
        let mut data = vec![1; bytes];
        if bytes > 0 && self.below(2) == 0 {
            data[self.below(bytes)] = self.below(256) as u8;
        }
        data.into_boxed_slice()
    }

    fn list(&mut self) -> Box<[u32]> {
        (0..self.below(4)).map(|_| self.number()).collect()
    }

    /// One offset for each record, or none for another length than 4; once in four times any count.
    fn offsets(&mut self, length: u16, records: usize) -> Box<[u32]> {
        let count = match (self.below(4), length) {
            (0, _) => self.below(9),
            (_, 4) => records,
            _ => 0,
        };
        (0..count).map(|_| self.number()).collect()
    }

    fn marks(&mut self) -> Box<[u64]> {
        (0..self.below(3)).map(|_| self.word()).collect()
    }

    /// All ones, the lowest ones, all ones but one of the lowest 16, or any word.
    fn word(&mut self) -> u64 {
        match self.below(4) {
            0 => u64::MAX,
            1 => u64::MAX >> self.below(64),
            2 => !(1 << self.below(16)),
            _ => (self.below(1 << 31) as u64) << 33 | self.below(1 << 31) as u64,
        }
    }
}

/// Some bands.
fn bands<'a>(random: &mut Random, list: &'a [u32]) -> Bands<'a> {
    match random.below(2) {
        0 => Bands::All,
        _ => Bands::Listed(list),
    }
}

/// Calls with a copy of the output; where it is refused the copy must be as before. Answers the number.
fn kept<T, A>(before: &[T], call: impl FnOnce(&mut [T]) -> Result<A, Refusal>) -> u32
where
    T: Clone + PartialEq,
{
    let mut out = exact(before);
    match call(&mut out) {
        Ok(_) => 0,
        Err(refusal) => {
            assert!(*out == *before, "{refusal}, but something was written");
            refusal.number()
        }
    }
}

/// A vector form is refused as the call with a lent output is, but for question 9.
fn alike<A>(number: u32, vector: Result<A, Refusal>) {
    match vector {
        Ok(_) => assert!(number == 0 || number == 9),
        Err(refusal) => assert_eq!(refusal.number(), number),
    }
}

/// Compares a whole block with what is expected, its place too. Has it bytes?
fn whole_block_holds(image: &[u8], grid: &Grid, widths: &Widths, row: u32, column: u32) -> bool {
    let (part, expected) =
        (whole_block(image, grid, widths, row, column), expected::whole_block(image, grid, widths, row, column));
    assert_eq!(part, expected, "{grid:?}");
    let bytes = part.unwrap_or_default();
    assert!(bytes.is_empty() || expected.is_ok_and(|expected| expected.as_ptr() == bytes.as_ptr()), "{grid:?}");
    !bytes.is_empty()
}

#[test]
fn reads() {
    let mut random = Random(1);
    let (mut accepted, mut whole) = (0, 0);
    for _ in 0..3_000 {
        let (grid, image, out, list) = (random.grid(), random.bytes(), random.bytes(), random.list());
        let widths = &random.widths(&grid);
        let (row, column, level) = (random.number(), random.number(), random.number() / 4);
        let bands = bands(&mut random, &list);
        let window = Window { row, column, rows: random.number(), columns: random.number() };
        let number = kept(&out, |out| decode_block(&image, &grid, widths, row, column, level, bands, out));
        alike(number, decode_block_vec(&image, &grid, widths, row, column, level, bands));
        accepted += u32::from(number == 0);
        let number = kept(&out, |out| read_window(&image, &grid, widths, window, bands, out));
        alike(number, read_window_vec(&image, &grid, widths, window, bands));
        accepted += u32::from(number == 0);
        whole += u32::from(whole_block_holds(&image, &grid, widths, row, column));
    }
    assert!(accepted > 200 && whole > 200, "{accepted} accepted, {whole} whole blocks");
}

/// Compares progress and finalize with what is expected. Are some blocks marked, and are all?
fn marks_hold(image: &[u8], marks: &[u64], grid: &Grid, widths: &Widths) -> [bool; 2] {
    let (count, finish) = (progress(marks, grid, widths), finalize(image, marks, grid, widths));
    assert_eq!(count, expected::progress(marks, grid, widths), "{marks:x?}, {grid:?}");
    assert_eq!(finish, expected::finalize(image, marks, grid, widths), "{marks:x?}, {grid:?}");
    [count.is_ok_and(|count| count > 0), finish.is_ok()]
}

/// Writes into copies of image and marks, which must be as before where it is refused, and compares with what is
/// expected. Answers the number.
fn write_holds(
    lent: (&[u8], &[u64]),
    grid: &Grid,
    widths: &Widths,
    block: (u32, u32),
    shape: Shape,
    data: &[u8],
) -> u32 {
    let write =
        |image: &mut [u8], marks: &mut [u64]| encode_block(image, marks, grid, widths, block.0, block.1, shape, data);
    let number = kept(lent.0, |image| kept_marks(lent.1, |marks| write(image, marks)));
    let expected = expected::encode_block(lent, grid, widths, block, shape, data);
    assert_eq!(number, expected.map_or_else(Refusal::number, |()| 0), "{data:x?}, {grid:?}");
    number
}

#[test]
fn writes() {
    let mut random = Random(2);
    let (mut accepted, mut too_large, mut counted, mut finished, mut laid) = (0, 0, 0, 0, 0);
    for _ in 0..3_000 {
        let (grid, image, marks) = (random.grid(), random.bytes(), random.marks());
        let widths = &random.widths(&grid);
        let (row, column) = (random.number(), random.number());
        let other = Shape { bands: random.size(), rows: random.size(), columns: random.size() };
        let shape = [grid.block_shape(row, column), other][random.below(2)];
        let data = random.samples(shape.bytes(grid.nbpp.div_ceil(8) as usize).min(100));
        accepted +=
            u32::from(kept(&image, |image| kept_marks(&marks, |marks| start(image, marks, &grid, widths))) == 0);
        let number = write_holds((&image, &marks), &grid, widths, (row, column), shape, &data);
        (accepted, too_large) = (accepted + u32::from(number == 0), too_large + u32::from(number == 26));
        accepted += u32::from(kept(&marks, |marks| skip_block(&image, marks, &grid, widths, row, column)) == 0);
        laid += u32::from(relay_holds(&image, &marks, &grid, widths, [0, 20, 600][random.below(3)]));
        let [some, all] = marks_hold(&image, &marks, &grid, widths);
        (counted, finished) = (counted + u32::from(some), finished + u32::from(all));
        if grid.sizes(widths).is_ok_and(|sizes| sizes.image_bytes < 1 << 20) {
            assert!(Frame::new(grid, *widths).is_ok());
        }
    }
    let enough = accepted > 500 && too_large > 20 && counted > 500 && finished > 100 && laid > 100;
    assert!(enough, "{accepted} accepted, {too_large} too large, {counted} counted, {finished} finished, {laid} laid");
}

/// Lays a copy of the image anew, with a scratch of so many bytes; both must be as before where it is refused. Compares
/// with what is expected. Is it accepted?
fn relay_holds(image: &[u8], marks: &[u64], grid: &Grid, widths: &Widths, scratch: usize) -> bool {
    let (mut laid, mut scratch) = (exact(image), exact(&vec![0xAA; scratch]));
    let answer = relay(&mut laid, marks, grid, widths, &mut scratch);
    let expected = match expected::finalize(image, marks, grid, widths) {
        Ok(()) | Err(Refusal::UnmarkedBlock { .. }) if grid.edges == EdgeRule::Full => Err(Refusal::AlreadyFull),
        Ok(()) | Err(Refusal::UnmarkedBlock { .. })
            if scratch.len() < grid.sizes(widths).map_or(0, |s| s.block_bytes) =>
        {
            Err(Refusal::OutputTooShort)
        }
        Ok(()) | Err(Refusal::UnmarkedBlock { .. }) => Ok(Grid { edges: EdgeRule::Full, ..*grid }),
        Err(refusal) => Err(refusal),
    };
    assert_eq!(answer, expected, "{grid:?}");
    assert!(answer.is_ok() || (*laid == *image && scratch.iter().all(|&byte| byte == 0xAA)), "{grid:?}");
    answer.is_ok()
}

/// Calls with a copy of the marks, which must be as before where it is refused.
fn kept_marks(before: &[u64], call: impl FnOnce(&mut [u64]) -> Result<(), Refusal>) -> Result<(), Refusal> {
    let mut marks = exact(before);
    let answer = call(&mut marks);
    assert!(answer.is_ok() || *marks == *before);
    answer
}

/// Compares parse and lookup with what is expected. Are they accepted?
fn table_holds(table: &[u8], grid: &Grid, widths: &Widths, [row, column, band]: [u32; 3]) -> [bool; 2] {
    let parsed = mask_parse(table, grid, widths);
    assert_eq!(parsed, expected::mask_parse(table, grid, widths), "{grid:?}");
    let lookup = expected::lookup(table, grid, widths, row, column, band);
    assert_eq!(has_block(table, grid, widths, row, column, band), lookup.map(|(present, _)| present), "{grid:?}");
    assert_eq!(get_block_offset(table, grid, widths, row, column, band), lookup.map(|(_, offset)| offset), "{grid:?}");
    [parsed.is_ok(), lookup.is_ok()]
}

#[test]
fn tables() {
    let mut random = Random(5);
    let (mut accepted, mut looked_up) = (0, 0);
    for _ in 0..6_000 {
        let (grid, table) = (random.grid(), random.table());
        let widths = &random.widths(&grid);
        let [parsed, lookup] = table_holds(&table, &grid, widths, [0; 3].map(|_| random.number()));
        (accepted, looked_up) = (accepted + u32::from(parsed), looked_up + u32::from(lookup));
    }
    assert!(accepted > 500 && looked_up > 100, "{accepted} parsed, {looked_up} looked up");
}

/// Writes into outputs of some lengths and compares with what is expected: the answer, and whether they are kept. Are
/// they written?
fn written(random: &mut Random, fields: &ImageSubheader, widths: &Widths) -> bool {
    let [mut first, mut second, mut third] = [38, 2, 19].map(|n| exact(&vec![7; n - 1 + random.below(12)]));
    let before = [first.clone(), second.clone(), third.clone()];
    let expected = match fields.grid.check(widths) {
        _ if fields.abpp > 99 => Err(Refusal::NamedValue),
        Ok(()) if first.len() < 38 || second.len() < 2 || third.len() < 19 => Err(Refusal::OutputTooShort),
        answer => answer,
    };
    assert_eq!(fields.write(widths, &mut first, &mut second, &mut third), expected, "{fields:?}");
    assert_eq!([first, second, third] == before, expected.is_err(), "{fields:?}");
    expected.is_ok()
}

#[test]
fn subheaders() {
    let mut random = Random(6);
    let (mut accepted, mut read) = (0, 0);
    for _ in 0..6_000 {
        let grid = [random.grid(), random.grid_of_any_size()][random.below(2)];
        let widths = &random.widths(&grid);
        let fields = ImageSubheader { abpp: [0, 9, 99, 99, 100][random.below(5)], ..subheader(grid) };
        accepted += u32::from(written(&mut random, &fields, widths));
        let Ok((first, second, third)) = fields.to_parts(widths) else { continue };
        let [first, second, third] = [random.part(&first), random.part(&second), random.part(&third)];
        let bands = [grid.bands, grid.bands, random.number()][random.below(3)];
        let edges = random.rule();
        let answer = ImageSubheader::read(&first, &second, &third, bands, edges, widths);
        let expected = expected::subheader_read(&first, &second, &third, bands, edges, widths);
        assert_eq!(answer, expected, "{first:?}{second:?}{third:?}");
        read += u32::from(answer.is_ok());
    }
    assert!(accepted > 500 && read > 500, "{accepted} written, {read} read");
}

#[test]
fn masks() {
    let mut random = Random(3);
    let mut accepted = 0;
    for _ in 0..3_000 {
        let (grid, out, marks) = (random.grid(), random.bytes(), random.marks());
        let widths = &random.widths(&grid);
        let count = grid.sizes(widths).map_or(0, |sizes| sizes.blocks.min(50));
        let [block, pad] = [[0, 4, 4, 5], [0, 0, 4, 65_535]].map(|lengths: [u16; 4]| lengths[random.below(4)]);
        let ([blocks, pads], words) = ([block, pad].map(|n| random.offsets(n, count)), exact(&vec![7; count]));
        let mask = ImageDataMask {
            image_data_offset: random.number(),
            block_mask_record_length: block,
            pad_pixel_mask_record_length: pad,
            pad_pixel_code_length: [0, 8, 32, 65_535][random.below(4)],
            pad_pixel_code: random.number(),
        };
        let number = kept(&out, |out| mask_write(&grid, widths, &mask, &blocks, &pads, out));
        alike(number, mask_write_vec(&grid, widths, &mask, &blocks, &pads));
        accepted += u32::from(number == 0);
        let number = kept(&words, |words| mask_from_marks(&marks, &grid, widths, words));
        if grid.bands < 1_000 {
            alike(number, mask_from_marks_vec(&marks, &grid, widths));
        }
    }
    assert!(accepted > 100, "{accepted} written");
}

#[test]
fn reorderings() {
    let mut random = Random(4);
    let mut accepted = 0;
    for _ in 0..3_000 {
        let (out, list, imode) = (random.bytes(), random.list(), random.mode());
        let (rows, columns, count, bytes) = (random.number(), random.number(), random.number(), random.size());
        let size = Shape { bands: count as usize, rows: rows as usize, columns: columns as usize }.bytes(bytes);
        let data = exact(&vec![3; size.min(100)]);
        let bands = bands(&mut random, &list);
        let number = kept(&out, |out| to_band_sequential(&data, imode, rows, columns, count, bytes, out));
        alike(number, to_band_sequential_vec(&data, imode, rows, columns, count, bytes));
        let number = kept(&out, |out| from_band_sequential(&data, imode, rows, columns, count, bytes, out));
        alike(number, from_band_sequential_vec(&data, imode, rows, columns, count, bytes));
        let number = kept(&out, |out| fused_bip_to_bsq(&data, rows, columns, count, bytes, bands, out));
        alike(number, fused_bip_to_bsq_vec(&data, rows, columns, count, bytes, bands));
        accepted += u32::from(number == 0);
    }
    assert!(accepted > 500, "{accepted} accepted");
}
