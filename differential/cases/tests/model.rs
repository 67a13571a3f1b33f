//! The model against document 01's figures, and at the limits that the figures leave out.

use cases::model::{answer, frame, layout, mask, questions, read, reorder};
use cases::{
    figures, generate, outside, random_size, Area, Case, Edges, Grid, Header, Kind, Lent, Mode, Pack, Size, Source,
    Widths, WIDTHS,
};

#[test]
fn figures_hold() {
    for figure in figures() {
        assert_eq!(answer(&figure.case), figure.answer, "figure {}", figure.letter);
    }
}

#[test]
fn widths() {
    for nbpp in 0..300 {
        let grid = Grid::new([1, 1], 1, nbpp, Mode::B, [1, 1]);
        let expected = if WIDTHS.contains(&nbpp) { 0 } else { 2 };
        assert_eq!(questions::grid(&grid, &Widths::STANDARD), expected, "NBPP {nbpp}");
    }
}

#[test]
fn grid_limits() {
    let number = |picture, bands, nbpp, block| {
        questions::grid(&Grid::new(picture, bands, nbpp, Mode::S, block), &Widths::STANDARD)
    };
    assert_eq!(number([0, 1], 1, 8, [1, 1]), 1);
    assert_eq!(number([1, 100_000_000], 1, 8, [1, 8192]), 1);
    assert_eq!(number([1, 1], 1, 8, [1, 8193]), 1);
    assert_eq!(number([1, 1], 0, 8, [1, 1]), 1);
    assert_eq!(number([1, 1], 100_000, 8, [1, 1]), 1);
    assert_eq!(number([9_999, 1], 1, 8, [1, 1]), 0);
    assert_eq!(number([10_000, 1], 1, 8, [1, 1]), 3);
    let grid = Grid { nbpr: 2, ..Grid::new([1, 1], 1, 8, Mode::B, [1, 1]) };
    assert_eq!(questions::grid(&grid, &Widths::STANDARD), 3);
}

/// A block's side above 8,192 is the picture's own, and not the picture's other side.
#[test]
fn long_sides() {
    let number = |picture, block| questions::grid(&Grid::new(picture, 1, 1, Mode::S, block), &Widths::STANDARD);
    for side in [8_193, 9_000, 99_999_999] {
        assert_eq!(number([1, side], [1, side]), 0);
        assert_eq!(number([side, 1], [side, 1]), 0);
        assert_eq!(number([side, 1], [1, side]), 1);
        assert_eq!(number([1, side], [side, 1]), 1);
        assert_eq!(number([1, side - 1], [1, side]), 1);
        assert_eq!(number([side, 1], [side + 1, 1]), 1);
        let grid = Grid::new([1, side], 1, 1, Mode::B, [1, side]);
        assert_eq!(questions::grid(&Grid { nbpr: 2, ..grid }, &Widths::STANDARD), 3);
    }
    assert_eq!(number([1, 8_194], [1, 8_193]), 1);
    assert_eq!(number([100_000_000, 1], [100_000_000, 1]), 1);
    assert_eq!(number([8_193, 8_193], [8_193, 8_193]), 0);
    let none = Grid { nrows: 0, nppbv: 0, ..Grid::new([1, 1], 1, 8, Mode::B, [1, 1]) };
    assert_eq!(questions::grid(&none, &Widths::STANDARD), 1);
}

#[test]
fn image_limit() {
    let held = |grid: Grid| (layout::image_bytes(&grid), questions::grid(&grid, &Widths::STANDARD));
    for mode in Mode::ALL {
        // 9,241 bands, or blocks, of 464,773 bytes.
        let largest = Grid::new([1_143, 3_253], 9_241, 1, mode, [1_143, 3_253]);
        assert_eq!(held(largest), (4_294_967_293, 0));
        let blocks = Grid { bands: 1, nrows: 9_241 * 1_143, nbpc: 9_241, ..largest };
        assert_eq!(held(blocks), (4_294_967_293, 0));
        // 15 x 4,369 blocks of 65,537 bands of one byte, and 65,535 bands of 65,537 bytes.
        let smallest = Grid::new([15, 4_369], 65_537, 8, mode, [1, 1]);
        assert_eq!(held(smallest), (4_294_967_295, 4));
        let bands = Grid::new([191, 2_745], 65_535, 1, mode, [191, 2_745]);
        assert_eq!(held(bands), (4_294_967_295, 4));
        let large = Grid::new([8_192, 8_192], 63, 8, mode, [8_192, 8_192]);
        assert_eq!(held(large), (4_227_858_432, 0));
        assert_eq!(held(Grid { bands: 64, ..large }), (4_294_967_296, 4));
        let long = Grid::new([131_075, 262_138], 1, 1, mode, [131_075, 262_138]);
        assert_eq!(held(long), (4_294_967_294, 0));
        assert_eq!(held(Grid { ncols: 262_139, nppbh: 262_139, ..long }), (4_294_983_679, 4));
        let bits = Grid::new([65_536; 2], 1, 1, mode, [65_536; 2]);
        assert_eq!(held(bits), (1 << 29, 0));
        let wrapped = Grid::new([67_108_864; 2], 512, 64, mode, [67_108_864; 2]);
        assert_eq!(held(wrapped), (1 << 64, 4));
    }
}

#[test]
fn lent_buffers() {
    let grid = Grid::new([2, 2], 1, 8, Mode::B, [1, 1]);
    let image = [1, 2, 3, 4];
    assert_eq!(read::block(&grid, &Widths::STANDARD, &image, (0, 0), 0, None, &mut []).0, 9);
    let area = Area { top: 1, left: 1, rows: 1, columns: 2 };
    assert_eq!(read::window(&grid, &Widths::STANDARD, &image, area, None, &mut [0; 4]), 10);
    let area = Area { columns: 0, ..area };
    assert_eq!(read::window(&grid, &Widths::STANDARD, &image, area, None, &mut [0; 4]), 10);
    let area = Area { top: 0, left: 0, rows: 2, columns: 2 };
    assert_eq!(read::window(&grid, &Widths::STANDARD, &image, area, None, &mut [0; 3]), 9);
    assert_eq!(frame::start(&grid, &Widths::STANDARD, &mut [0; 3], &mut []), 11);
    assert_eq!(frame::start(&grid, &Widths::STANDARD, &mut [0; 4], &mut []), 12);
    assert_eq!(frame::progress(&grid, &Widths::STANDARD, &[]), (12, 0));
    // Bits above the grid's marks count for nothing.
    assert_eq!(frame::progress(&grid, &Widths::STANDARD, &[0xf5]), (0, 2));
    assert_eq!(frame::finish(&grid, &Widths::STANDARD, &image, &[0xf5]), (15, 0, 1));
    let sequential = Grid { mode: Mode::S, ..grid };
    assert_eq!(read::whole(&sequential, &Widths::STANDARD, &[], (1, 1)), (0, &[][..]));
    assert_eq!(read::whole(&sequential, &Widths::STANDARD, &[], (2, 1)), (6, &[][..]));
}

/// The samples (band, row, column) of so many rows and columns, one after the other in the order of the mode.
fn line(mode: Mode, bands: u64, rows: u64, columns: u64) -> Vec<(u64, u64, u64)> {
    let mut line = Vec::new();
    let (first, second, third) = match mode {
        Mode::B | Mode::S => (bands, rows, columns),
        Mode::P => (rows, columns, bands),
        Mode::R => (rows, bands, columns),
    };
    for i in 0..first {
        for j in 0..second {
            for k in 0..third {
                line.push(match mode {
                    Mode::B | Mode::S => (i, j, k),
                    Mode::P => (k, i, j),
                    Mode::R => (j, i, k),
                });
            }
        }
    }
    line
}

/// Tight: a block's actual samples stand in the order of the mode. Full: the nominal block does. Both are cut into as
/// many runs as bands. Byte multiples lie the same.
#[test]
fn edge_rules() {
    for (nbpp, mode) in WIDTHS.into_iter().flat_map(|nbpp| Mode::ALL.map(|mode| (nbpp, mode))) {
        let tight = Grid::new([4, 5], 3, nbpp, mode, [3, 3]);
        let full = Grid { edges: Edges::Full, ..tight };
        assert_eq!(
            (questions::grid(&full, &Widths::STANDARD), layout::image_bytes(&full)),
            (0, layout::image_bytes(&tight))
        );
        for (row, column) in tight.every_block() {
            assert_eq!(layout::block_end(&full, row, column), layout::block_end(&tight, row, column));
            let (rows, columns) = (layout::actual_rows(&tight, row), layout::actual_columns(&tight, column));
            let place = |grid: &Grid, (b, r, c)| layout::sample_bit(grid, (row, column), b, r, c);
            for (grid, [held_rows, held_columns]) in [(&tight, [rows, columns]), (&full, [3, 3])] {
                let line = line(mode, 3, held_rows, held_columns);
                for (i, run) in line.chunks(line.len() / 3).enumerate() {
                    let start = layout::run_start(grid, row, column, i as u64) * 8;
                    let inside = run.iter().enumerate().filter(|(_, (_, r, c))| *r < rows && *c < columns);
                    for (k, &sample) in inside {
                        if layout::byte_multiple(grid) {
                            assert_eq!(place(&full, sample), place(&tight, sample));
                        } else {
                            assert_eq!(place(grid, sample), start + k as u64 * u64::from(nbpp), "{grid:?} {sample:?}");
                        }
                    }
                }
            }
        }
    }
}

/// At widths that are no byte multiple a write sets all bytes of its block, whatever they were; else its samples'.
#[test]
fn written_over_other_bytes() {
    for (nbpp, edges) in WIDTHS.into_iter().flat_map(|nbpp| Edges::ALL.map(|edges| (nbpp, edges))) {
        let grid = Grid { edges, ..Grid::new([4, 5], 1, nbpp, Mode::B, [3, 3]) };
        let t = layout::band_bytes(&grid) as usize;
        let (mut image, mut marks) = (vec![0xff; 4 * t], [0]);
        let zeros = vec![0; 2 * layout::sample_bytes(&grid) as usize];
        assert_eq!(frame::write(&grid, &Widths::STANDARD, &mut image, &mut marks, (1, 1), [1, 1, 2], &zeros), 0);
        assert!(image[..3 * t].iter().all(|&byte| byte == 0xff));
        let cleared = if layout::byte_multiple(&grid) { zeros.len() } else { t };
        assert_eq!(image[3 * t..], [vec![0; cleared], vec![0xff; t - cleared]].concat(), "NBPP {nbpp} {edges:?}");
    }
}

/// Question 26 is the last, is asked of every bit from NBPP on, and a write that it refuses changes nothing.
#[test]
fn samples_that_do_not_fit() {
    for nbpp in WIDTHS {
        let grid = Grid::new([1, 2], 1, nbpp, Mode::B, [1, 2]);
        let size = layout::sample_bytes(&grid) as usize;
        for bit in 0..16 * size {
            let (mut image, mut marks) = (vec![0xa5; layout::image_bytes(&grid) as usize], [0xa4]);
            let before = (image.clone(), marks);
            let mut data = vec![0; 2 * size];
            data[bit / 8] = 0x80 >> (bit % 8);
            let mut write = |shape, data: &[u8]| {
                frame::write(&grid, &Widths::STANDARD, &mut image, &mut marks, (0, 0), shape, data)
            };
            assert_eq!(write([1, 1, 1], &data), 13);
            assert_eq!(write([1, 1, 2], &data[1..]), 14);
            let fits = 8 * size - 1 - bit % (8 * size) < nbpp as usize;
            assert_eq!(write([1, 1, 2], &data), if fits { 0 } else { 26 }, "NBPP {nbpp}, bit {bit}");
            assert_eq!((image, marks) == before, !fits);
        }
    }
}

/// Drawn frames on the compared domain have no sample that does not fit; those outside it have some.
#[test]
fn drawn_samples() {
    let refused = |size: Size| {
        let mut from = Source::random(1);
        let mut count = 0;
        for _ in 0..2_000 {
            let case = generate(Kind::Frame, &mut from, &size).expect("a case");
            count += answer(&case).values.chunks(3).filter(|call| call[0] == 26).count();
            from.advance();
        }
        count
    };
    assert_eq!(refused(random_size()), 0);
    assert!(refused(Size { outside: true, ..random_size() }) > 100);
}

#[test]
fn mask_questions() {
    let grid = Grid::new([1, 1], 1, 8, Mode::B, [1, 1]);
    let write = |header: Header, blocks: &[u32], room: usize| {
        mask::write(&grid, &Widths::STANDARD, &header, blocks, &[], &mut vec![0; room])
    };
    let header = Header { block_length: 4, ..Header::default() };
    assert_eq!(write(header, &[7], 14), (0, 14));
    assert_eq!(write(header, &[7], 13), (9, 0));
    assert_eq!(write(header, &[], 14), (22, 0));
    assert_eq!(write(header, &[7, 7], 18), (22, 0));
    assert_eq!(write(Header { block_length: 3, ..header }, &[7], 14), (17, 0));
    assert_eq!(write(Header { code_bits: 33, ..header }, &[7], 20), (18, 0));
    assert_eq!(write(Header { code: 1, ..header }, &[7], 20), (20, 0));
    assert_eq!(write(Header { code_bits: 1, code: 256, ..header }, &[7], 20), (20, 0));
    assert_eq!(write(Header { code_bits: 1, code: 255, ..header }, &[7], 20), (0, 15));
    let many = Grid::new([9_999, 9_999], 21, 1, Mode::S, [1, 1]);
    assert_eq!(mask::write(&many, &Widths::STANDARD, &header, &[], &[], &mut []), (21, 0));
    let table = [0, 0, 0, 14, 0, 4, 0, 0, 0, 0, 0, 0, 0, 9];
    assert_eq!(mask::lookup(&grid, &Widths::STANDARD, &table, (0, 0), 0), (0, true, Some(9)));
    assert_eq!(mask::lookup(&grid, &Widths::STANDARD, &table, (0, 1), 0), (6, false, None));
    assert_eq!(mask::lookup(&grid, &Widths::STANDARD, &table, (0, 0), 1), (8, false, None));
}

#[test]
fn reordering_questions() {
    let pack = Pack { mode: Mode::P, rows: 1, columns: 1, bands: 1, size: 1 };
    assert_eq!(reorder::to_sequential(&Pack { size: 0, ..pack }, &[], &mut []), 2);
    assert_eq!(reorder::to_sequential(&Pack { size: 9, ..pack }, &[0; 9], &mut [0; 9]), 2);
    let large = Pack { rows: 1 << 31, columns: 1 << 31, bands: 4, ..pack };
    assert_eq!(reorder::to_sequential(&large, &[], &mut []), 4);
    // Products of 4,294,967,294 and 4,294,967,295.
    let (last, first) = ([2_147_483_647, 2], [65_537, 65_535]);
    for ([rows, columns], number) in [(last, 14), (first, 4)] {
        let limit = Pack { rows, columns, ..pack };
        assert_eq!(reorder::to_sequential(&limit, &[], &mut []), number);
        assert_eq!(reorder::from_sequential(&limit, &[], &mut []), number);
        assert_eq!(reorder::select(&limit, &[], None, &mut []), number);
    }
    assert_eq!(reorder::to_sequential(&pack, &[], &mut []), 14);
    assert_eq!(reorder::from_sequential(&pack, &[1], &mut []), 9);
    let none = Pack { rows: u32::MAX, columns: u32::MAX, bands: 0, ..pack };
    assert_eq!(reorder::from_sequential(&none, &[], &mut []), 0);
    assert_eq!(reorder::select(&pack, &[1], Some(&[1]), &mut []), 8);
}

#[test]
fn lent_lengths() {
    let grid = Grid::new([1, 2], 1, 16, Mode::B, [1, 2]);
    let image = vec![1, 2, 3, 4];
    let case = Case::Read { grid, image, row: 0, column: 0, level: 0, bands: None };
    let of = |output| {
        let lent = Lent { output, ..Lent::default() };
        answer(&Case::Lent { case: Box::new(case.clone()), lent })
    };
    assert_eq!(Lent::of(&case).output, 4);
    assert_eq!((of(4).number, of(4).bytes), (0, vec![1, 2, 3, 4]));
    // A longer output keeps its surplus, a shorter one all that it held.
    assert_eq!((of(5).number, of(5).bytes), (0, vec![1, 2, 3, 4, 0xa5]));
    assert_eq!((of(3).number, of(3).bytes), (9, vec![0xa5; 3]));
    let refused = Case::Read { grid, image: vec![], row: 0, column: 0, level: 0, bands: None };
    assert_eq!(Lent::of(&refused).output, 0);
}

/// Every number is reached, but for 5 and 13, which the original gives too, and 25 and 28 to 32, which no call gives.
#[test]
fn outside_reaches() {
    let mut numbers = [false; 256];
    for (_, cases) in outside() {
        for case in cases {
            let answer = answer(&case);
            numbers[usize::from(answer.number)] = true;
            if let Case::Frame { .. } = case.call() {
                answer.values.chunks(3).for_each(|call| numbers[call[0] as usize] = true);
            }
        }
    }
    let missing: Vec<usize> = (0..=33).filter(|&number| !numbers[number]).collect();
    assert_eq!(missing, [5, 13, 25, 28, 29, 30, 31, 32]);
    assert!(numbers[34..].iter().all(|&reached| !reached));
}

/// An answer to questions 1 to 4 that is wrong on some grids.
type Wrong = fn(&Grid) -> u8;

#[test]
fn wrong_limits_are_found() {
    let wrong: [(&str, Wrong); 4] = [
        ("a limit of 8,192", |g| if g.nppbh.max(g.nppbv) > 8_192 { 1 } else { questions::grid(g, &Widths::STANDARD) }),
        ("the picture's other side", |g| {
            let own = if g.nppbh == g.nrows { Grid { nppbh: g.ncols, nbpr: 1, ..*g } } else { *g };
            questions::grid(&own, &Widths::STANDARD)
        }),
        ("bytes in 64 bits", |g| {
            let t = (u64::from(g.nppbh) * u64::from(g.nppbv)).wrapping_mul(u64::from(g.nbpp)).div_ceil(8);
            let bytes = g.blocks().wrapping_mul(u64::from(g.bands)).wrapping_mul(t);
            let number = questions::grid(g, &Widths::STANDARD);
            if number == 4 && bytes <= 4_294_967_294 {
                0
            } else {
                number
            }
        }),
        ("a byte less", |g| {
            if layout::image_bytes(g) == 4_294_967_294 {
                4
            } else {
                questions::grid(g, &Widths::STANDARD)
            }
        }),
    ];
    for (name, wrong) in wrong {
        let right = |grid| questions::grid(grid, &Widths::STANDARD);
        let differs = |case| matches!(case, Case::Parse { grid, .. } if wrong(&grid) != right(&grid));
        assert!(outside().into_iter().flat_map(|(_, cases)| cases).any(differs), "{name}");
    }
}
