//! Inputs outside the compared domain, enumerated: the numbers of the questions that the original does
//! not ask.

mod sides;
mod subheaders;
mod widths;

use crate::{Area, Call, Case, Edges, Grid, Header, Lent, Mode, Pack, WIDTHS};

type Cases = Box<dyn Iterator<Item = Case>>;

/// Lists of cases, each with its name, tight.
pub fn outside() -> Vec<(&'static str, Cases)> {
    vec![
        ("every width to 300", Box::new(all_widths())),
        ("every width with every entry of a table", Box::new(widths::entries())),
        ("every call with its width barred, and with the others", Box::new(widths::calls())),
        ("every list of calls with a table of its own", Box::new(widths::frames())),
        ("every byte of a width table by every other", Box::new(widths::bytes())),
        ("every length of a width table", Box::new(widths::lengths())),
        ("every grid with its fields at the limits", Box::new(grids())),
        ("every call with block sides about 8,192", Box::new(sides::calls())),
        ("every window at the ends of long sides", Box::new(sides::windows())),
        ("every call at the limits of an image and a table", Box::new(sizes())),
        ("every window, also outside the picture", Box::new(windows())),
        ("every length of a frame's buffers", Box::new(frames())),
        ("every byte written at up to 8 bits", Box::new(bytes_written())),
        ("every bit above NBPP of every sample of a block", Box::new(higher_bits())),
        ("every block written over other bytes", Box::new(over_other_bytes())),
        ("every image laid anew", Box::new(relays())),
        ("every header of a table of one block", Box::new(tables())),
        ("every table of one block written", Box::new(written())),
        ("every block and band looked up", Box::new(lookups())),
        ("every mask from marks by the lengths of its buffers", Box::new(from_marks())),
        ("every reordering by its counts", Box::new(reorderings())),
        ("every byte of a subheader by every other", Box::new(subheaders::bytes())),
        ("every PVTYPE of some letters, and every IC", Box::new(subheaders::named())),
        ("every length of a subheader's parts", Box::new(subheaders::lengths())),
        ("every subheader with three faults", Box::new(subheaders::faults())),
        ("every subheader with its blocks at the limits", Box::new(subheaders::blocks())),
        ("every subheader written", Box::new(subheaders::written())),
        ("every length of the outputs for a subheader", Box::new(subheaders::outputs())),
    ]
}

/// Every pair of two lists.
fn pairs<A: Copy, B: Copy>(
    first: impl Iterator<Item = A>,
    second: impl Iterator<Item = B> + Clone,
) -> impl Iterator<Item = (A, B)> {
    first.flat_map(move |a| second.clone().map(move |b| (a, b)))
}

/// A case with an output of this length.
fn with_output(case: Case, output: u64) -> Case {
    Case::Lent { case: Box::new(case), lent: Lent { output, ..Lent::default() } }
}

/// The whole length, and the lengths beside it.
fn beside(case: Case) -> impl Iterator<Item = Case> {
    let exact = Lent::of(&case).output;
    (exact.saturating_sub(1)..=exact + 1).map(move |output| with_output(case.clone(), output))
}

fn all_widths() -> impl Iterator<Item = Case> {
    pairs(0..=300, Mode::ALL.into_iter()).flat_map(|(nbpp, mode)| {
        let grid = Grid::new([1, 1], 1, nbpp, mode, [1, 1]);
        let image = vec![0x81; 40];
        beside(Case::Read { grid, image, row: 0, column: 0, level: 0, bands: None })
    })
}

/// With an empty table, so that an accepted grid gives 16.
fn grids() -> impl Iterator<Item = Case> {
    let sides = [1, 2, 0, 8_193, 99_999_999, 100_000_000, u32::MAX];
    let blocks = [1, 8_192, 0, 8_193, 99_999_999, u32::MAX];
    let bands = [1, 99_999, 0, 100_000, u32::MAX];
    let pictures = pairs(sides.into_iter(), sides.into_iter());
    let nominal = pairs(blocks.into_iter(), blocks.into_iter());
    let kinds = pairs(bands.into_iter(), [8, 1, 64, 17, 0].into_iter());
    let all: Vec<_> = pairs(nominal, kinds.collect::<Vec<_>>().into_iter()).collect();
    pairs(pictures, all.into_iter()).flat_map(|((nrows, ncols), ((nppbv, nppbh), (bands, nbpp)))| {
        let count = |side: u32, block: u32| side.checked_div(block).map_or(0, |_| side.div_ceil(block));
        let (down, across) = (count(nrows, nppbv), count(ncols, nppbh));
        let near = |n: u32| [n, n.wrapping_add(1), n.wrapping_sub(1), 9_999, 10_000];
        pairs(near(across).into_iter(), near(down).into_iter()).map(move |(nbpr, nbpc)| {
            let (mode, edges) = (Mode::B, Edges::Tight);
            let grid = Grid { nrows, ncols, bands, nbpp, mode, edges, nppbh, nppbv, nbpr, nbpc };
            Case::Parse { grid, table: Vec::new() }
        })
    })
}

/// Every call, with next to nothing lent, on grids whose image or table is just inside or just past its
/// limit.
fn sizes() -> impl Iterator<Item = Case> {
    let grids = [
        // Images of 4,294,967,293, 4,294,967,294 and 4,294,967,295 bytes.
        Grid::new([10_562_463, 3_253], 1, 1, Mode::B, [1_143, 3_253]),
        Grid::new([131_075, 262_138], 1, 1, Mode::B, [131_075, 262_138]),
        Grid::new([4_369, 15], 65_537, 8, Mode::B, [1, 1]),
        // 2^32 bits, which are not too many; 2^32 bytes; 2^64 bytes in one block and in 64.
        Grid::new([65_536; 2], 1, 1, Mode::B, [65_536; 2]),
        Grid::new([65_536; 2], 1, 8, Mode::B, [65_536; 2]),
        Grid::new([67_108_864; 2], 512, 64, Mode::B, [67_108_864; 2]),
        Grid::new([67_108_864, 524_288], 1 << 16, 64, Mode::P, [67_108_864, 8_192]),
        // The most that a block and an image can be.
        Grid::new([99_999_999; 2], 1, 64, Mode::R, [99_999_999; 2]),
        Grid::new([99_999_999; 2], 99_999, 64, Mode::S, [99_999_999; 2]),
        // 1,073,741,820 and 1,073,741,822 records; none has the number between.
        Grid::new([5_461, 3_277], 60, 8, Mode::S, [1, 1]),
        Grid::new([4_178, 1_103], 233, 8, Mode::S, [1, 1]),
        // Half of that.
        Grid::new([5_461, 3_277], 30, 8, Mode::S, [1, 1]),
        Grid::new([2_089, 1_103], 233, 8, Mode::S, [1, 1]),
    ];
    grids.into_iter().flat_map(|grid| {
        let mut cases = short_calls(grid);
        for (block_length, pad_length) in [(0, 0), (4, 0), (0, 4), (4, 4)] {
            for code_bits in [0, 8, 16, 24, 32] {
                let header = Header { block_length, pad_length, code_bits, ..Header::default() };
                cases.push(Case::MaskWrite { grid, header, blocks: vec![], pads: vec![] });
            }
        }
        cases
    })
}

/// Every call but a mask write.
fn short_calls(grid: Grid) -> Vec<Case> {
    let (row, column, image, bands) = (0, 0, vec![7], None);
    let area = Area { top: 0, left: 0, rows: 1, columns: 1 };
    let table = vec![0, 0, 0, 0, 0, 4, 0, 0, 0, 0, 9];
    let write = Call::Write { row, column, shape: [1, 1, 1], data: vec![7] };
    let relay = Call::Relay { scratch: 1 };
    let calls = vec![write, Call::Skip { row, column }, Call::Progress, Call::Finish, relay];
    let marks = vec![0; grid.blocks().div_ceil(64) as usize];
    let frame = Box::new(Case::Frame { grid, calls });
    vec![
        Case::Read { grid, image: image.clone(), row, column, level: 0, bands: bands.clone() },
        Case::Whole { grid, image: image.clone(), row, column },
        Case::Window { grid, image, area, bands },
        Case::Lent { case: frame, lent: Lent { image: 1, marks: 1, ..Lent::default() } },
        Case::Parse { grid, table: table.clone() },
        Case::Rewrite { grid, table: table.clone() },
        Case::Lookup { grid, table, row, column, band: 0 },
        with_output(Case::FromMarks { grid, marks: vec![] }, 1),
        with_output(Case::FromMarks { grid, marks }, 1),
    ]
}

fn windows() -> impl Iterator<Item = Case> {
    let ends = [0, 1, 2, 3, u32::MAX];
    let corners = pairs(ends.into_iter(), ends.into_iter());
    let sizes: Vec<_> = pairs(ends.into_iter(), ends.into_iter()).collect();
    pairs(corners, sizes.into_iter()).flat_map(|((top, left), (rows, columns))| {
        let area = Area { top, left, rows, columns };
        let lists = [None, Some(vec![]), Some(vec![0]), Some(vec![1])];
        lists.into_iter().flat_map(move |bands| {
            pairs(Mode::ALL.into_iter(), 0..=5).flat_map(move |(mode, length)| {
                let grid = Grid::new([2, 2], 1, 8, mode, [1, 2]);
                beside(Case::Window { grid, image: vec![7; length], area, bands: bands.clone() })
            })
        })
    })
}

fn frames() -> impl Iterator<Item = Case> {
    pairs(0..=5, 0..=2).flat_map(|(image, marks)| {
        Mode::ALL.into_iter().flat_map(move |mode| {
            [[2, 2], [2, 0], [0, 2], [3, 2]].into_iter().map(move |[nrows, ncols]| {
                let grid = Grid::new([nrows, ncols], 1, 8, mode, [1, 1]);
                let write = Call::Write { row: 1, column: 0, shape: [1, 1, 1], data: vec![9] };
                let skip = Call::Skip { row: 0, column: 0 };
                let calls = vec![write, Call::Progress, skip, Call::Progress, Call::Finish];
                let lent = Lent { image, marks, ..Lent::default() };
                Case::Lent { case: Box::new(Case::Frame { grid, calls }), lent }
            })
        })
    })
}

/// A frame of which block (1, 1) is written once with data that fits and then with other data.
fn written_again(grid: Grid, fits: Vec<u8>, data: Vec<u8>) -> Case {
    let shape = [grid.bands, grid.nrows - grid.nppbv, grid.ncols - grid.nppbh];
    let write = |data| Call::Write { row: 1, column: 1, shape, data };
    Case::Frame { grid, calls: vec![write(fits), write(data), Call::Progress, Call::Finish] }
}

fn bytes_written() -> impl Iterator<Item = Case> {
    pairs(pairs(1..=8, Mode::ALL.into_iter()), 0..=255).map(|((nbpp, mode), byte)| {
        let grid = Grid::new([2, 2], 1, nbpp, mode, [1, 1]);
        written_again(grid, vec![1], vec![byte])
    })
}

/// Each bit above NBPP alone, in each sample of an edge block; at a byte multiple the highest bit.
fn higher_bits() -> impl Iterator<Item = Case> {
    pairs(WIDTHS.into_iter(), Mode::ALL.into_iter()).flat_map(|(nbpp, mode)| {
        let grid = Grid::new([4, 5], 2, nbpp, mode, [3, 3]);
        let size = nbpp.div_ceil(8) as usize;
        let bits = nbpp.min(8 * size as u32 - 1)..8 * size as u32;
        pairs(0..4, bits).map(move |(sample, bit)| {
            let fits: Vec<u8> = (0..4 * size).map(|i| u8::from(i % size == size - 1)).collect();
            let mut data = fits.clone();
            data[sample * size] |= 1 << (bit % 8);
            written_again(grid, fits, data)
        })
    })
}

/// Each block of a frame that has no start, with the highest samples, with zeros and again.
fn over_other_bytes() -> impl Iterator<Item = Case> {
    pairs(WIDTHS.into_iter(), Mode::ALL.into_iter()).flat_map(|(nbpp, mode)| {
        let grid = Grid::new([4, 5], 2, nbpp, mode, [3, 3]);
        grid.every_block().map(move |(row, column)| {
            let [rows, columns] = [[3, 1][row as usize], [3, 2][column as usize]];
            let mut high = vec![0xff; (2 * rows * columns * nbpp.div_ceil(8)) as usize];
            grid.clear_higher_bits(&mut high);
            let write = |data| Call::Write { row, column, shape: [2, rows, columns], data };
            let calls = vec![write(high.clone()), Call::Progress, write(vec![0; high.len()]), write(high)];
            let case = Case::Frame { grid, calls };
            Case::Lent { lent: Lent { no_start: true, ..Lent::of(&case) }, case: Box::new(case) }
        })
    })
}

/// Other bytes laid anew, by the length of the scratch, between writes of two blocks.
fn relays() -> impl Iterator<Item = Case> {
    pairs(WIDTHS.into_iter(), Mode::ALL.into_iter()).flat_map(|(nbpp, mode)| {
        pairs([1, 2, 5].into_iter(), [[4, 5], [3, 7], [6, 3]].into_iter()).flat_map(move |(bands, picture)| {
            let grid = Grid::new(picture, bands, nbpp, mode, [3, 3]);
            let exact = u64::from(bands) * u64::from(9 * nbpp).div_ceil(8);
            let write = move |(row, column): (u32, u32)| {
                let [rows, columns] = [(picture[0] - 3 * row).min(3), (picture[1] - 3 * column).min(3)];
                let mut data = vec![0x96; (bands * rows * columns * nbpp.div_ceil(8)) as usize];
                grid.clear_higher_bits(&mut data);
                Call::Write { row, column, shape: [bands, rows, columns], data }
            };
            let last = (grid.nbpc - 1, grid.nbpr - 1);
            [0, exact - 1, exact, exact + 1].into_iter().flat_map(move |scratch| {
                [false, true].into_iter().map(move |no_start| {
                    let (relay, short) = (Call::Relay { scratch }, Call::Relay { scratch: 0 });
                    let calls = vec![
                        write(last),
                        Call::Skip { row: 0, column: 0 },
                        relay,
                        write((0, 0)),
                        short,
                        Call::Progress,
                    ];
                    let case = Case::Frame { grid, calls };
                    Case::Lent { lent: Lent { no_start, ..Lent::of(&case) }, case: Box::new(case) }
                })
            })
        })
    })
}

fn one_block() -> Grid {
    Grid::new([1, 1], 1, 8, Mode::B, [1, 1])
}

/// Tables of every length to 24 bytes.
fn tables() -> impl Iterator<Item = Case> {
    let lengths = [0, 1, 2, 3, 4, 5, 8, 0x0400, 0xffff];
    let records = pairs(lengths.into_iter(), lengths.into_iter());
    pairs(records, (0..=42).chain([0x2000, 0xffff])).flat_map(|((block, pad), code)| {
        (0..=24).map(move |length| {
            let mut table = vec![1, 2, 3, 4];
            table.extend([block, pad, code].into_iter().flat_map(u16::to_be_bytes));
            table.extend(5..30);
            table.truncate(length);
            Case::Parse { grid: one_block(), table }
        })
    })
}

fn written() -> impl Iterator<Item = Case> {
    let records = pairs(0..=5, 0..=5);
    let codes = [0, 1, 255, 256, 65_535, 65_536, 0xff_ffff, 0x100_0000, u32::MAX];
    let code = pairs(codes.into_iter(), (0..=34).chain([0xffff]));
    let all: Vec<_> = pairs(code, pairs(0..=2, 0..=2).collect::<Vec<_>>().into_iter()).collect();
    pairs(records, all.into_iter()).flat_map(|((block_length, pad_length), ((code, code_bits), (blocks, pads)))| {
        let header = Header { imdatoff: 0, block_length, pad_length, code_bits, code };
        let (blocks, pads) = (vec![7; blocks], vec![8; pads]);
        beside(Case::MaskWrite { grid: one_block(), header, blocks, pads })
    })
}

/// Two by two blocks, each with an offset of its own.
fn lookups() -> impl Iterator<Item = Case> {
    let places = [0, 1, 2, 3, 4, u32::MAX];
    let blocks = pairs(places.into_iter(), places.into_iter());
    pairs(blocks, places.into_iter()).flat_map(|((row, column), band)| {
        pairs(Mode::ALL.into_iter(), [0, 4].into_iter()).map(move |(mode, length)| {
            let grid = Grid::new([2, 2], 3, 8, mode, [1, 1]);
            let mut table = vec![0, 0, 0, 0, 0, length, 0, 0, 0, 0];
            table.extend((0..12u32).flat_map(u32::to_be_bytes));
            Case::Lookup { grid, table, row, column, band }
        })
    })
}

fn from_marks() -> impl Iterator<Item = Case> {
    pairs(Mode::ALL.into_iter(), 0..=3).flat_map(|(mode, words)| {
        let grid = Grid::new([65, 1], 2, 1, mode, [1, 1]);
        (0..=131).map(move |output| {
            let marks = vec![0x5555_5555_5555_5555; words];
            with_output(Case::FromMarks { grid, marks }, output)
        })
    })
}

fn reorderings() -> impl Iterator<Item = Case> {
    let counts = [1, 2, 0, 1 << 16, 1 << 31, u32::MAX];
    let sides = pairs(counts.into_iter(), counts.into_iter());
    let kinds = pairs(counts.into_iter(), (0..=9).chain([u32::MAX]));
    let kinds: Vec<_> = pairs(kinds, Mode::ALL.into_iter()).collect();
    pairs(sides, kinds.into_iter()).flat_map(|((rows, columns), ((bands, size), mode))| {
        let pack = Pack { mode, rows, columns, bands, size };
        let fields = [rows, columns, bands, size].map(u64::from);
        let product = fields.into_iter().fold(1, u64::saturating_mul).min(64);
        (product.saturating_sub(1)..=product + 1).flat_map(move |length| {
            let data: Vec<u8> = (0..length).map(|i| i as u8).collect();
            reorderings_of(pack, data).into_iter().flat_map(beside)
        })
    })
}

/// The reorderings that a mode has, and lists of bands in P.
fn reorderings_of(pack: Pack, data: Vec<u8>) -> Vec<Case> {
    let mut cases =
        vec![Case::ToSequential { pack, data: data.clone() }, Case::FromSequential { pack, data: data.clone() }];
    if pack.mode == Mode::P {
        for bands in [None, Some(vec![]), Some(vec![1, 0]), Some(vec![u32::MAX])] {
            cases.push(Case::Select { pack, data: data.clone(), bands, tile: 1, parallel: false });
        }
    }
    cases
}
