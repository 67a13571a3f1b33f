//! Previews.

use crate::common::{counting, small};
use crate::place::{options, Place};
use gezdunar::{EdgeRule, Grid, InterleaveMode};

/// A window on the whole of document 01's picture.
fn whole(imode: InterleaveMode) -> String {
    let grid = options(&small(imode));
    format!("window --image image --row 0 --column 0 --window-rows 3 --window-columns 5 {grid}")
}

#[test]
fn one_band_is_pgm() {
    let place = Place::with("image", &counting(64));
    let text = place.run(&format!("{} --list 1 --preview p.pgm", whole(InterleaveMode::B))).done();
    assert_eq!(text, "wrote p.pgm: PGM of 1 band, 3 rows, 5 columns\n");
    let pixels = [8, 9, 10, 11, 24, 12, 13, 14, 15, 28, 40, 41, 42, 43, 56];
    assert_eq!(place.get("p.pgm"), [&b"P5\n5 3\n255\n"[..], &pixels].concat());
}

#[test]
fn three_bands_are_ppm() {
    let place = Place::with("image", &counting(64));
    let text = place.run(&format!("{} --list 1,0,1 --preview p.ppm", whole(InterleaveMode::B))).done();
    assert_eq!(text, "wrote p.ppm: PPM of 3 bands, 3 rows, 5 columns\n");
    let pixels = [8, 9, 10, 11, 24, 12, 13, 14, 15, 28, 40, 41, 42, 43, 56].map(|n| [n, n - 8, n]);
    assert_eq!(place.get("p.ppm"), [&b"P6\n5 3\n255\n"[..], &pixels.concat()].concat());
}

#[test]
fn samples_are_scaled_by_their_width() {
    // 12 bits: 0, 4095, 2048, 9; 1 bit: 1011; 16 bits: 65535 and 256.
    let cases: [(u32, &[u8], &[u8]); 3] = [
        (12, &[0x00, 0x0F, 0xFF, 0x80, 0x00, 0x09], &[0, 255, 128, 1]),
        (1, &[0xB0], &[255, 0, 255, 255]),
        (16, &[0xFF, 0xFF, 0x01, 0x00, 0x00, 0x00, 0x00, 0xFF], &[255, 1, 0, 1]),
    ];
    for (nbpp, image, pixels) in cases {
        let grid = Grid::new(1, 4, 1, nbpp, InterleaveMode::B, EdgeRule::Full, 4, 1);
        let place = Place::with("image", image);
        place.run(&format!("block --image image --row 0 --column 0 {} --preview p", options(&grid))).done();
        assert_eq!(place.get("p"), [&b"P5\n4 1\n255\n"[..], pixels].concat(), "{nbpp}");
    }
}

#[test]
fn a_stretch_reaches_from_0_to_255_in_each_band() {
    let grid = Grid::new(1, 3, 3, 8, InterleaveMode::B, EdgeRule::Full, 3, 1);
    let place = Place::with("image", &[10, 20, 30, 5, 5, 5, 0, 255, 51]);
    let block = format!("block --image image --row 0 --column 0 {} --preview p", options(&grid));
    place.run(&format!("{block} --stretch")).done();
    assert_eq!(place.get("p"), [&b"P6\n3 1\n255\n"[..], &[0, 0, 0, 128, 0, 255, 255, 0, 51]].concat());
    place.run(&block).done();
    assert_eq!(place.get("p"), [&b"P6\n3 1\n255\n"[..], &[10, 5, 0, 20, 5, 255, 30, 5, 51]].concat());
}

#[test]
fn other_counts_of_bands_are_refused() {
    let place = Place::with("image", &counting(64));
    let read = whole(InterleaveMode::P);
    for (list, count) in [("", 2), ("--list \"\"", 0), ("--list 0,1", 2), ("--list 0,1,0,1", 4)] {
        let told = format!("--preview shows one band or three, not {count}; choose with --list");
        place.run(&format!("{read} {list} --preview p.ppm")).failed(2, &[&told]);
    }
    place.run(&format!("{read} --list 0 --preview p.ppm")).failed(2, &["PPM holds three bands"]);
    place.run(&format!("{read} --list 0,1,0 --preview p.pgm")).failed(2, &["PGM holds one band"]);
    assert_eq!(place.names(), ["image"]);
}

#[test]
fn a_preview_on_standard_output() {
    let place = Place::with("image", &counting(64));
    let ran = place.run(&format!("{} --list 0 --preview -", whole(InterleaveMode::B)));
    assert_eq!((ran.code, &ran.bytes[..11]), (Some(0), &b"P5\n5 3\n255\n"[..]));
    assert_eq!((ran.bytes.len(), place.names()), (26, vec!["image".to_owned()]));
}
