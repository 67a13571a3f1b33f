//! A site's own widths: loading, and question 2 with the table that a call is handed.

mod common;

use common::{counting, exact, modes_and_rules, shape, small, subheader, WIDTHS};
use gezdunar::{
    decode_block, encode_block, finalize, get_block_offset, has_block, mask_from_marks, mask_parse, mask_write,
    progress, read_window, relay, skip_block, start, whole_block, Bands, EdgeRule, Frame, Grid, ImageDataMask,
    ImageSubheader, InterleaveMode, Refusal, Widths, Window,
};

/// The constant's entry for NBPP.
fn constant(nbpp: u32) -> u8 {
    if WIDTHS.contains(&nbpp) {
        nbpp.div_ceil(8) as u8
    } else {
        0
    }
}

/// The constant table with another entry.
fn with_entry(nbpp: u32, entry: u8) -> Widths {
    let mut entries = *Widths::STANDARD.entries();
    entries[nbpp as usize] = entry;
    Widths::new(entries)
}

fn number(nbpp: u32, widths: &Widths) -> u32 {
    let grid = Grid { nbpp, ..small(InterleaveMode::B) };
    grid.check(widths).map_or_else(Refusal::number, |()| 0)
}

fn loaded(bytes: &[u8]) -> u32 {
    Widths::load(&exact(bytes)).map_or_else(Refusal::number, |_| 0)
}

#[test]
fn the_constant_table() {
    for nbpp in 0..=64 {
        assert_eq!(Widths::STANDARD.entries()[nbpp as usize], constant(nbpp), "NBPP {nbpp}");
    }
    assert_eq!(Widths::load(&Widths::STANDARD.to_bytes()), Ok(Widths::STANDARD));
}

#[test]
fn loading_takes_the_constant_or_zero_for_each_entry_and_nothing_else() {
    let stored = Widths::STANDARD.to_bytes();
    for place in 0..stored.len() {
        for byte in 0..=255 {
            let mut bytes = stored;
            bytes[place] = byte;
            let is_right = byte == stored[place] || (place >= 3 && byte == 0);
            assert_eq!(loaded(&bytes), if is_right { 0 } else { 33 }, "{byte} at {place}");
        }
    }
}

#[test]
fn loading_takes_68_bytes() {
    let mut bytes = Widths::STANDARD.to_bytes().to_vec();
    bytes.resize(200, 0);
    for length in 0..=bytes.len() {
        assert_eq!(loaded(&bytes[..length]), if length == 68 { 0 } else { 33 }, "{length}");
    }
}

#[test]
fn a_table_of_zeros_is_loaded_and_bars_all() {
    let mut stored = Widths::STANDARD.to_bytes();
    stored[3..].fill(0);
    let zeros = Widths::load(&stored).expect("a table");
    assert_eq!(zeros, Widths::new([0; Widths::ENTRIES]));
    for nbpp in 0..=66 {
        assert_eq!(number(nbpp, &zeros), 2, "NBPP {nbpp}");
    }
}

#[test]
fn an_entry_bars_its_own_width_and_no_other() {
    for changed in 0..=64 {
        for entry in (0..=9).chain([255]) {
            let widths = with_entry(changed, entry);
            for nbpp in 0..=66 {
                let taken = constant(nbpp.min(65)) != 0 && (nbpp != changed || entry == constant(nbpp));
                assert_eq!(number(nbpp, &widths), if taken { 0 } else { 2 }, "NBPP {nbpp}, {entry} for {changed}");
            }
        }
    }
}

#[test]
fn question_2_comes_after_1_and_before_3() {
    let grid = Grid { nbpp: 12, ..small(InterleaveMode::B) };
    let barred = with_entry(12, 0);
    assert_eq!(Grid { bands: 0, ..grid }.check(&barred), Err(Refusal::Limits));
    assert_eq!(Grid { nbpr: 1, ..grid }.check(&barred), Err(Refusal::Width));
}

/// The numbers of every call on a grid, with a table, on lent buffers that would do: all zeros are accepted. Where they
/// are refused, no buffer has changed.
fn numbers(grid: &Grid, widths: &Widths) -> Vec<u32> {
    let sizes = grid.sizes(&Widths::STANDARD).expect("a grid");
    let (image, marks) = (counting(sizes.image_bytes), exact(&vec![u64::MAX; sizes.mark_words]));
    let table = exact(&[0, 0, 0, 10, 0, 0, 0, 0, 0, 0]);
    let data = exact(&vec![0; grid.block_shape(0, 0).bytes(sizes.sample_bytes)]);
    let window = Window { row: 0, column: 0, rows: 1, columns: 1 };
    let (mut im, mut ms) = (image.clone(), marks.clone());
    let (mut out, mut words) = (exact(&[9; 400]), exact(&[9; 100]));
    let mask = ImageDataMask::default();
    let mut parts = [exact(&[9; 38]), exact(&[9; 2]), exact(&[9; 19])];
    let fields = subheader(*grid);
    let (first, second, third) = fields.to_parts(&Widths::STANDARD).expect("parts");
    let [a, b, c] = &mut parts;
    let answers = vec![
        grid.check(widths),
        grid.sizes(widths).map(drop),
        decode_block(&image, grid, widths, 0, 0, 0, Bands::All, &mut out).map(drop),
        whole_block(&image, grid, widths, 0, 0).map(drop),
        read_window(&image, grid, widths, window, Bands::All, &mut out).map(drop),
        mask_parse(&table, grid, widths).map(drop),
        mask_write(grid, widths, &mask, &[], &[], &mut out).map(drop),
        has_block(&table, grid, widths, 0, 0, 0).map(drop),
        get_block_offset(&table, grid, widths, 0, 0, 0).map(drop),
        mask_from_marks(&marks, grid, widths, &mut words).map(drop),
        fields.write(widths, a, b, c),
        ImageSubheader::read(&first, &second, &third, grid.bands, grid.edges, widths).map(drop),
        finalize(&im, &ms, grid, widths),
        progress(&ms, grid, widths).map(drop),
        relay(&mut im, &ms, &Grid { edges: EdgeRule::Tight, ..*grid }, widths, &mut out).map(drop),
        skip_block(&im, &mut ms, grid, widths, 0, 0),
        encode_block(&mut im, &mut ms, grid, widths, 0, 0, grid.block_shape(0, 0), &data),
        start(&mut im, &mut ms, grid, widths),
        Frame::new(*grid, *widths).map(drop),
    ];
    let numbers: Vec<u32> = answers.into_iter().map(|answer| answer.map_or_else(Refusal::number, |()| 0)).collect();
    if numbers.iter().all(|&number| number != 0) {
        assert_eq!((im, ms), (image, marks));
        assert!(out.iter().all(|&byte| byte == 9) && words.iter().all(|&word| word == 9));
        assert!(parts.iter().all(|part| part.iter().all(|&byte| byte == 9)));
    }
    numbers
}

#[test]
fn every_call_asks_the_table_that_it_is_handed() {
    for (imode, edges) in modes_and_rules() {
        for nbpp in WIDTHS {
            let grid = Grid { nbpp, edges, ..small(imode) };
            let alone = Widths::new(std::array::from_fn(|n| if n as u32 == nbpp { constant(nbpp) } else { 0 }));
            let standard = numbers(&grid, &Widths::STANDARD);
            assert!(standard.iter().all(|&number| number == 0), "{grid:?}: {standard:?}");
            assert_eq!(numbers(&grid, &alone), standard, "{grid:?}");
            for entry in [0, constant(nbpp) + 1, 255] {
                let barred = numbers(&grid, &with_entry(nbpp, entry));
                assert!(barred.iter().all(|&number| number == 2), "{grid:?}, {entry}: {barred:?}");
            }
        }
    }
}

#[test]
fn a_frame_goes_on_with_another_table() {
    let grid = Grid { nbpp: 12, ..small(InterleaveMode::P) };
    let (standard, barred) = (Widths::STANDARD, with_entry(12, 0));
    let sizes = grid.sizes(&standard).expect("a grid");
    let (mut image, mut marks) = (exact(&vec![7; sizes.image_bytes]), exact(&vec![7; sizes.mark_words]));
    assert_eq!(start(&mut image, &mut marks, &grid, &standard), Ok(()));
    let data = exact(&[0x0A, 0xBC, 0x01, 0x23]);
    let corner = shape(2, 1, 1);
    assert_eq!(encode_block(&mut image, &mut marks, &grid, &standard, 1, 1, corner, &data), Ok(()));
    let before = (image.clone(), marks.clone());
    assert_eq!(skip_block(&image, &mut marks, &grid, &barred, 0, 0), Err(Refusal::Width));
    assert_eq!((&image, &marks), (&before.0, &before.1));
    let window = Window { row: 2, column: 4, rows: 1, columns: 1 };
    let mut out = exact(&[0; 4]);
    assert_eq!(read_window(&image, &grid, &barred, window, Bands::All, &mut out), Err(Refusal::Width));
    assert_eq!(*out, [0; 4]);
    // The writer's table reads what was written.
    assert_eq!(read_window(&image, &grid, &standard, window, Bands::All, &mut out), Ok(corner));
    assert_eq!(out, data);
}
