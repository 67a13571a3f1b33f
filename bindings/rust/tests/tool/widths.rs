//! `--widths`.

use crate::common::{small, subheader};
use crate::place::{options, Place};
use gezdunar::{Grid, InterleaveMode, Widths};

/// A stored table with another byte.
fn stored(place: usize, byte: u8) -> [u8; 68] {
    let mut bytes = Widths::STANDARD.to_bytes();
    bytes[place] = byte;
    bytes
}

/// Document 01's picture at 12 bits.
fn twelve() -> Grid {
    Grid { nbpp: 12, ..small(InterleaveMode::P) }
}

/// A place with the constant table and with one that bars 12.
fn place() -> Place {
    let place = Place::with("standard", &Widths::STANDARD.to_bytes());
    place.put("site", &stored(3 + 12, 0));
    place
}

const TWO: &str = "2: the width or sample size is not one that is taken";

#[test]
fn a_barred_width_is_refused_with_2_and_others_are_not() {
    let place = place();
    for imode in InterleaveMode::ALL {
        for nbpp in [1, 8, 11, 12, 13, 16, 64] {
            let grid = Grid { nbpp, ..small(imode) };
            let info = format!("info {}", options(&grid));
            let text = place.run(&info).done();
            assert_eq!(place.run(&format!("{info} --widths standard")).done(), text);
            let ran = place.run(&format!("{info} --widths site"));
            if nbpp == 12 {
                ran.failed(1, &[TWO, "site has 0 for 12 bits"]);
            } else {
                assert_eq!(ran.done(), text);
            }
        }
    }
}

#[test]
fn every_command_asks_the_table() {
    let (place, grid) = (place(), twelve());
    place.put("samples", &[0; 60]);
    place.put("image", &[0; 96]);
    place.put("table", &[0, 0, 0, 10, 0, 0, 0, 0, 0, 0]);
    let (first, second, third) = subheader(grid).to_parts(&Widths::STANDARD).expect("parts");
    place.put("parts", &[&first[..], &second, &third].concat());
    let grid = options(&grid);
    for command in [
        format!("info {grid}"),
        format!("pack --input samples --output packed {grid}"),
        format!("block --image image --row 0 --column 0 {grid}"),
        format!("window --image image --row 0 --column 0 --window-rows 1 --window-columns 1 {grid}"),
        format!("relay --image image --output laid {}", grid.replace("full", "tight")),
        format!("mask --table table {grid}"),
        "subheader --bands 2 --edges full --part-offsets 0,38,40 --parts-file parts".to_owned(),
        "info --bands 2 --edges full --part-offsets 0,38,40 --parts-file parts".to_owned(),
    ] {
        let files = place.names();
        place.run(&format!("{command} --widths site")).failed(1, &[TWO, "site has 0 for 12 bits"]);
        assert_eq!(place.names(), files, "{command}");
        place.run(&format!("{command} --widths standard")).done();
    }
}

#[test]
fn a_file_that_is_no_table_is_refused_with_33() {
    let standard = Widths::STANDARD.to_bytes();
    let info = format!("info {} --widths site", options(&twelve()));
    for (bytes, what) in [
        (standard[..67].to_vec(), "site has 67 bytes; a table has 68"),
        ([&standard[..], &[0]].concat(), "site has more than 68 bytes; a table has 68"),
        (vec![], "site has 0 bytes; a table has 68"),
        (stored(0, 1).to_vec(), "site: the length has 1 in byte 0; it is 0, 66"),
        (stored(1, 68).to_vec(), "site: the length has 68 in byte 1; it is 0, 66"),
        (stored(2, 2).to_vec(), "site: the version is 2; it is 1"),
        (stored(3 + 17, 3).to_vec(), "site: the entry for 17 bits is 3; it is 0"),
        (stored(3 + 12, 3).to_vec(), "site: the entry for 12 bits is 3; it is 2 or 0"),
    ] {
        Place::with("site", &bytes).run(&info).failed(1, &["33: ", what]);
    }
}

#[test]
fn a_table_that_is_not_there() {
    Place::new().run(&format!("info {} --widths none", options(&twelve()))).failed(3, &["none"]);
}
