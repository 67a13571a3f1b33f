//! Reorderings.

mod common;

use common::exact;
use gezdunar::{
    from_band_sequential, from_band_sequential_vec, fused_bip_to_bsq, fused_bip_to_bsq_vec, to_band_sequential,
    to_band_sequential_vec, Bands, InterleaveMode, Refusal, Reordered,
};

/// The place of a sample in the order of a mode, of `bands` bands of `rows` rows of `columns` columns.
fn place(imode: InterleaveMode, sides: [usize; 3], band: usize, row: usize, column: usize) -> usize {
    let [bands, rows, columns] = sides;
    match imode {
        InterleaveMode::B | InterleaveMode::S => (band * rows + row) * columns + column,
        InterleaveMode::P => (row * columns + column) * bands + band,
        InterleaveMode::R => (row * bands + band) * columns + column,
    }
}

/// Samples in the order of a mode, each in `bytes` bytes, numbered by their places in band order.
fn data(imode: InterleaveMode, sides: [usize; 3], bytes: usize) -> Box<[u8]> {
    let [bands, rows, columns] = sides;
    let mut out = exact(&vec![0; bands * rows * columns * bytes]);
    for number in 0..bands * rows * columns {
        let (band, row, column) = (number / columns / rows, number / columns % rows, number % columns);
        let at = place(imode, sides, band, row, column) * bytes;
        for (k, byte) in out[at..at + bytes].iter_mut().enumerate() {
            *byte = (number * 8 + k) as u8;
        }
    }
    out
}

#[test]
fn to_and_from_band_order_in_every_mode() {
    for imode in InterleaveMode::ALL {
        for bytes in 1..=8 {
            for sides in [[3, 2, 4], [1, 2, 4], [2, 1, 1], [3, 0, 4], [0, 2, 4]] {
                there_and_back(imode, sides, bytes);
            }
        }
    }
}

fn there_and_back(imode: InterleaveMode, sides: [usize; 3], bytes: usize) {
    let (mixed, ordered) = (data(imode, sides, bytes), data(InterleaveMode::S, sides, bytes));
    let [bands, rows, columns] = sides.map(|side| side as u32);
    let whole = Reordered { bands: sides[0], bytes: mixed.len() };
    let mut out = exact(&vec![0xAA; mixed.len()]);
    assert_eq!(to_band_sequential(&mixed, imode, rows, columns, bands, bytes, &mut out), Ok(whole));
    assert_eq!(out, ordered);
    assert_eq!(from_band_sequential(&ordered, imode, rows, columns, bands, bytes, &mut out), Ok(whole));
    assert_eq!(out, mixed);
    let there = to_band_sequential_vec(&mixed, imode, rows, columns, bands, bytes);
    assert_eq!(there, Ok((whole, ordered.to_vec())));
    let back = from_band_sequential_vec(&ordered, imode, rows, columns, bands, bytes);
    assert_eq!(back, Ok((whole, mixed.to_vec())));
}

#[test]
fn listed_bands_of_pixels() {
    for bytes in 1..=8 {
        let sides = [3, 2, 4];
        let (pixels, ordered) = (data(InterleaveMode::P, sides, bytes), data(InterleaveMode::B, sides, bytes));
        let band = 8 * bytes;
        for list in [&[2, 0, 2, 2][..], &[1], &[], &[0, 1, 2]] {
            let expected: Vec<u8> = list.iter().flat_map(|&b| ordered[b as usize * band..][..band].to_vec()).collect();
            let (lent, reordered) = (exact(list), Reordered { bands: list.len(), bytes: expected.len() });
            let mut out = exact(&vec![0xAA; expected.len()]);
            assert_eq!(fused_bip_to_bsq(&pixels, 2, 4, 3, bytes, Bands::Listed(&lent), &mut out), Ok(reordered));
            assert_eq!(*out, expected);
            let vector = fused_bip_to_bsq_vec(&pixels, 2, 4, 3, bytes, Bands::Listed(&lent));
            assert_eq!(vector, Ok((reordered, expected)));
        }
        let all = fused_bip_to_bsq_vec(&pixels, 2, 4, 3, bytes, Bands::All);
        assert_eq!(all, Ok((Reordered { bands: 3, bytes: 24 * bytes }, ordered.to_vec())));
    }
}

#[test]
fn a_longer_output_keeps_its_rest() {
    let data = exact(&[1, 2, 3, 4]);
    let mut out = exact(&[0xAA; 6]);
    assert!(to_band_sequential(&data, InterleaveMode::P, 1, 2, 2, 1, &mut out).is_ok());
    assert_eq!(*out, [1, 3, 2, 4, 0xAA, 0xAA]);
    assert!(fused_bip_to_bsq(&data, 1, 2, 2, 1, Bands::Listed(&exact(&[1])), &mut out).is_ok());
    assert_eq!(*out, [2, 4, 2, 4, 0xAA, 0xAA]);
    let mut out = exact(&[0xAA; 5]);
    assert!(from_band_sequential(&data, InterleaveMode::R, 1, 2, 2, 1, &mut out).is_ok());
    assert_eq!(*out, [1, 2, 3, 4, 0xAA]);
}

/// The number of all three reorderings of this much data, with an output that must be kept.
fn refused(length: usize, counts: [u32; 3], bytes: usize, bands: Bands, room: usize) -> [u32; 3] {
    let data = exact(&vec![1; length]);
    let mut out = exact(&vec![0xAA; room]);
    let [rows, columns, count] = counts;
    let answers = [
        to_band_sequential(&data, InterleaveMode::P, rows, columns, count, bytes, &mut out),
        from_band_sequential(&data, InterleaveMode::R, rows, columns, count, bytes, &mut out),
        fused_bip_to_bsq(&data, rows, columns, count, bytes, bands, &mut out),
    ];
    assert!(out.iter().all(|&byte| byte == 0xAA));
    answers.map(|answer| answer.map_or_else(Refusal::number, |_| 0))
}

#[test]
fn reorderings_refuse() {
    for bytes in [0, 9, usize::MAX] {
        assert_eq!(refused(4, [u32::MAX; 3], bytes, Bands::Listed(&exact(&[9])), 0), [2; 3]);
    }
    assert_eq!(refused(4, [u32::MAX; 3], 8, Bands::Listed(&exact(&[9])), 0), [4; 3]);
    assert_eq!(refused(4, [65_537, 65_535, 1], 1, Bands::Listed(&exact(&[9])), 0), [4; 3]);
    assert_eq!(refused(4, [2_147_483_647, 2, 1], 1, Bands::Listed(&exact(&[9])), 0), [14; 3]);
    for length in [0, 3, 5] {
        assert_eq!(refused(length, [1, 2, 2], 1, Bands::Listed(&exact(&[9])), 0), [14; 3]);
    }
    assert_eq!(refused(4, [1, 2, 2], 1, Bands::Listed(&exact(&[2])), 0), [9, 9, 8]);
    assert_eq!(refused(4, [1, 2, 2], 1, Bands::All, 3), [9; 3]);
}

#[test]
fn vector_forms_refuse_alike() {
    let data = exact(&[1; 4]);
    for (rows, bytes, number) in [(1, 9, 2), (u32::MAX, 8, 4), (2, 1, 14)] {
        let to = to_band_sequential_vec(&data, InterleaveMode::P, rows, 2, 2, bytes);
        assert_eq!(to.map_err(Refusal::number), Err(number));
        let from = from_band_sequential_vec(&data, InterleaveMode::P, rows, 2, 2, bytes);
        assert_eq!(from.map_err(Refusal::number), Err(number));
        let fused = fused_bip_to_bsq_vec(&data, rows, 2, 2, bytes, Bands::Listed(&exact(&[2])));
        assert_eq!(fused.map_err(Refusal::number), Err(number));
    }
    let fused = fused_bip_to_bsq_vec(&data, 1, 2, 2, 1, Bands::Listed(&exact(&[1, 2])));
    assert_eq!(fused, Err(Refusal::NoSuchBand));
}
