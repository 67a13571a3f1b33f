//! `relay`.

use crate::common::{block_samples, blocks, modes_and_rules, samples, WIDTHS};
use crate::place::{options, Place};
use gezdunar::{EdgeRule, Frame, Grid, InterleaveMode, Widths};

/// 7 rows by 11 columns, 3 bands of 12 bits, in blocks of 3 rows by 4 columns.
fn odd(imode: InterleaveMode, edges: EdgeRule) -> Grid {
    Grid::new(7, 11, 3, 12, imode, edges, 4, 3)
}

/// The image of the plain picture.
fn image(grid: &Grid) -> Vec<u8> {
    let bands: Vec<u32> = (0..grid.bands).collect();
    let mut frame = Frame::new(*grid, Widths::STANDARD).expect("the grid is accepted");
    for (row, column) in blocks(grid) {
        let data = block_samples(grid, &bands, row, column);
        frame.encode_block(row, column, grid.block_shape(row, column), &data).expect("the block is accepted");
    }
    frame.into_image()
}

fn tight_and_full(imode: InterleaveMode, nbpp: u32) -> [Grid; 2] {
    [EdgeRule::Tight, EdgeRule::Full].map(|edges| Grid { nbpp, ..odd(imode, edges) })
}

#[test]
fn the_image_is_as_with_full_from_the_start() {
    for imode in InterleaveMode::ALL {
        for nbpp in WIDTHS.into_iter().filter(|nbpp| nbpp % 8 != 0) {
            let [tight, full] = tight_and_full(imode, nbpp);
            let place = Place::with("image", &image(&tight));
            let text = place.run(&format!("relay --image image {}", options(&tight))).done();
            let bits = if nbpp == 1 { "1 bit".to_owned() } else { format!("{nbpp} bits") };
            let words = format!("3 bands, 7 rows, 11 columns, {bits}, mode {imode}, edges full");
            assert_eq!(text, format!("wrote image: {words}: 9 blocks laid anew\n"));
            assert_eq!(place.get("image"), image(&full), "{imode} {nbpp}");
            assert_eq!(place.names(), ["image"]);
        }
    }
}

#[test]
fn another_output_and_the_bytes_around_the_image() {
    let [tight, full] = tight_and_full(InterleaveMode::R, 12);
    let laid = image(&full);
    let file = [b"before".as_slice(), &image(&tight), b"after"].concat();
    let place = Place::with("file", &file);
    let length = laid.len();
    let words = format!("relay --image file --output new --offset 6 --length {length} {}", options(&tight));
    place.run(&words).done();
    assert_eq!(place.get("file"), file);
    assert_eq!(place.get("new"), [b"before".as_slice(), &laid, b"after"].concat());
    let ran = place.run(&words.replace("--output new", "--output -"));
    assert_eq!((ran.code, ran.bytes), (Some(0), place.get("new")));
    let window = "window --image new --offset 6 --output back --row 0 --column 0 --window-rows 7 --window-columns 11";
    place.run(&format!("{window} {}", options(&full))).done();
    assert_eq!(place.get("back"), *samples(&full, &[0, 1, 2], 0, 0, 7, 11));
}

#[test]
fn at_byte_multiples_no_byte_changes() {
    for (imode, _) in modes_and_rules() {
        let [tight, full] = tight_and_full(imode, 16);
        let place = Place::with("image", &image(&tight));
        place.run(&format!("relay --image image {} --edges tight", options(&tight))).done();
        assert_eq!(place.get("image"), image(&full));
    }
}

#[test]
fn refusals_leave_the_file_as_it_was() {
    let [tight, full] = tight_and_full(InterleaveMode::P, 12);
    let bytes = image(&tight);
    let place = Place::with("image", &bytes);
    let already =
        "refused with 27: the edge rule is full already\nquestion 27: Is the edge rule still tight?\n--edges full";
    place.run(&format!("relay --image image {}", options(&full))).failed(1, &[already]);
    let words = options(&tight).replace("--edges tight", "");
    place.run(&format!("relay --image image {words}")).failed(2, &["--edges is missing"]);
    let short = format!("relay --image image --length {} {}", bytes.len() - 1, options(&tight));
    let held = format!("image holds {} bytes of the image from byte 0 on, of {} in all", bytes.len() - 1, bytes.len());
    place.run(&short).failed(1, &["refused with 11: ", &held]);
    place.run(&format!("relay --image image --offset 9999 {}", options(&tight))).failed(1, &["refused with 11: "]);
    place.run(&format!("relay --image none {}", options(&tight))).failed(3, &["none"]);
    assert_eq!(place.get("image"), bytes);
    assert_eq!(place.names(), ["image"]);
}
