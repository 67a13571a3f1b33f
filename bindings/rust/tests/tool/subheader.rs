//! `subheader`, and each command with the grid from the parts of a subheader.

use crate::common::{counting, small, subheader};
use crate::place::{hex, options, parts, Place};
use gezdunar::{
    mask_write_vec, EdgeRule, Grid, ImageCompression, ImageDataMask, ImageSubheader, InterleaveMode, Widths,
};

const FIRST: &str = "0000020300000317INTMULTI   MS      12R";
const THIRD: &str = "P000700040048006412";

/// The options of these parts, in hexadecimal.
fn written(first: &str, second: &str, third: &str) -> String {
    let parts = [first, second, third].map(|part| hex(part.as_bytes())).join(",");
    format!(" --bands 5 --edges full --parts {parts} ")
}

/// A file with the parts of a subheader at bytes 7, 50 and 60.
fn file(subheader: &ImageSubheader) -> Vec<u8> {
    let (first, second, third) = subheader.to_parts(&Widths::STANDARD).expect("the subheader is accepted");
    [&[9; 7][..], &first, &[9; 5], &second, &[9; 8], &third, &[9; 3]].concat()
}

#[test]
fn the_fields_of_the_parts() {
    let expected = "\
rows (NROWS)                        203
columns (NCOLS)                     317
kind of the samples (PVTYPE)        INT, unsigned integers
representation (IREP)               'MULTI   '
category (ICAT)                     'MS      '
used bits of a sample (ABPP)        12
place of the used bits (PJUST)      R, at the right: the low bits
compression (IC)                    NC, not compressed and not masked
bands, as given                     5
mode (IMODE)                        P, pixel after pixel
blocks across (NBPR)                7
blocks down (NBPC)                  4
columns of a block (NPPBH)          48
rows of a block (NPPBV)             64
bits of a sample (NBPP)             12
edge rule, as given                 full, whole blocks with zeros outside the picture
";
    let place = Place::with("parts", format!("{FIRST}NC{THIRD}").as_bytes());
    let hexadecimal = written(FIRST, "NC", THIRD);
    assert_eq!(place.run(&format!("subheader {hexadecimal}")).done(), expected);
    assert_eq!(place.run(&format!("subheader {}", hexadecimal.to_lowercase())).done(), expected);
    let offsets = "subheader --bands 5 --edges full --part-offsets 0,38,40 --parts-file parts";
    assert_eq!(place.run(offsets).done(), expected);
}

#[test]
fn named_values_in_words() {
    let place = Place::new();
    let told = |first: &str, second: &str, third: &str, words: &str| {
        let text = place.run(&format!("subheader {}", written(first, second, third))).done();
        assert!(text.contains(words), "'{words}' is not in: {text}");
    };
    for (pvtype, words) in [
        ("INT", ")        INT, unsigned integers\n"),
        ("SI ", ")        SI, signed integers\n"),
        ("R  ", ")        R, real numbers\n"),
        ("C  ", ")        C, complex numbers\n"),
        ("B  ", ")        B, two levels\n"),
    ] {
        told(&FIRST.replace("INT", pvtype), "NC", THIRD, words);
    }
    told(&FIRST.replace("12R", "00L"), "NC", THIRD, "(ABPP)        0\n");
    told(&FIRST.replace("12R", "99L"), "NC", THIRD, "(PJUST)      L, at the left: the high bits\n");
    told(FIRST, "NM", THIRD, "(IC)                    NM, not compressed, masked: a mask table tells which blocks are");
    for (mode, words) in [("B", "B, band after band in each block"), ("R", "R, row after row"), ("S", "S, band after")]
    {
        told(FIRST, "NC", &THIRD.replace('P', mode), words);
    }
    told(&FIRST.replace("MULTI   ", "M'\\\0\n\u{7f}  "), "NC", THIRD, "'M\\'\\\\\\x00\\n\\x7f  '\n");
}

#[test]
fn sides_that_stand_as_zero() {
    let place = Place::new();
    let first = "0000000200009000INTMONO    VIS     08R";
    let told = |third: &str, lines: &str| {
        let text = place.run(&format!("subheader {}", written(first, "NC", third))).done();
        assert!(text.contains(lines), "'{lines}' is not in: {text}");
    };
    let (columns, rows) = ("columns of a block (NPPBH)          ", "rows of a block (NPPBV)             ");
    told("B000100010000000208", &format!("{columns}9000, which stands as 0000\n{rows}2\n"));
    told("B000100019000000008", &format!("{columns}9000\n{rows}2, which stands as 0000\n"));
    told("B000200018192819208", &format!("{columns}8192\n{rows}8192\n"));
}

#[test]
fn parts_that_are_refused() {
    let place = Place::new();
    let refused = |first: &str, second: &str, third: &str, number: u32, facts: &str| {
        let told = format!("gezdunar subheader: refused with {number}: ");
        let question = format!("\nquestion {number}: ");
        let ran = place.run(&format!("subheader {}", written(first, second, third)));
        ran.failed(1, &[&told, &question, &format!("\nthe parts{facts}\n")]);
    };
    refused(&FIRST[1..], "NC", THIRD, 23, " have 37, 2 and 19 bytes; they take 38, 2 and 19");
    refused(FIRST, "NC ", THIRD, 23, " have 38, 3 and 19 bytes; they take 38, 2 and 19");
    refused("", "", "", 23, " have 0, 0 and 0 bytes; they take 38, 2 and 19");
    let spaces = FIRST.replace("00000203", "     203").replace("12R", "1\u{0}R");
    refused(&spaces, "XX", THIRD, 23, ": NROWS holds '     203', ABPP holds '1\\x00'");
    refused(FIRST, "NC", "P0007000400480064+8", 23, ": NBPP holds '+8'");
    refused(&FIRST.replace("INT", " SI"), "NC", THIRD, 24, ": PVTYPE holds ' SI'");
    refused(&FIRST.replace("12R", "12r"), "C8", THIRD, 24, ": PJUST holds 'r', IC holds 'C8'");
    refused(FIRST, "nc", &THIRD.replace('P', "p"), 24, ": IC holds 'nc', IMODE holds 'p'");
    let fields = "NPPBH 0000, NPPBV 0064, NBPR 0007, NBPC 0004, bands 5";
    let facts = format!(": NROWS 00000203, NCOLS 00000317, NBPP 12, IMODE P, {fields}");
    refused(FIRST, "NC", &THIRD.replace("0048", "0000"), 1, &facts);
    refused(FIRST, "NC", &THIRD.replace("6412", "6417"), 2, &facts.replace("0000,", "0048,").replace("12,", "17,"));
    refused(FIRST, "NC", &THIRD.replace('7', "6"), 3, &facts.replace("0000,", "0048,").replace("0007", "0006"));
}

#[test]
fn the_questions_of_parts_in_words() {
    let place = Place::new();
    let lengths = "question 23: Have the parts 38, 2 and 19 bytes, and are NROWS, NCOLS, ABPP, NBPR, NBPC, NPPBH, ";
    place.run("subheader --bands 5 --parts ,,").failed(1, &[lengths, "NPPBV and NBPP all digits?\n"]);
    let named =
        "question 24: Is PVTYPE INT, or SI, R, C or B padded with spaces, PJUST R or L, IC NC or NM, IMODE B, P, R ";
    let ran = place.run(&format!("subheader {}", written(FIRST, "XX", THIRD)));
    ran.failed(1, &[named, "or S, and ABPP at most 99?\n"]);
}

#[test]
fn parts_in_a_file_that_are_refused() {
    let place = Place::with("parts", format!("{FIRST}NC{THIRD}").as_bytes());
    let from = |offsets: &str| format!("subheader --bands 5 --parts-file parts --part-offsets {offsets}");
    let told = "the parts of parts at bytes 0, 38 and 41 have 38, 2 and 18 bytes; they take 38, 2 and 19";
    place.run(&from("0,38,41")).failed(1, &["refused with 23: ", told]);
    let told = "the parts of parts at bytes 0, 1000 and 40 have 38, 0 and 19 bytes";
    place.run(&from("0,1000,40")).failed(1, &["refused with 23: ", told]);
    let told = "the parts of parts at bytes 0, 36 and 40: IC holds '2R'";
    place.run(&from("0,36,40")).failed(1, &["refused with 24: ", told]);
    place.run(&from("0,38,40").replace("file parts", "file none")).failed(3, &["cannot read none: No such file"]);
}

/// The complaint about the arguments of a command.
fn wrong(command: &str, words: &str) -> String {
    let ran = Place::new().run(&format!("{command} {words}"));
    ran.failed(2, &[&format!("\ntry: gezdunar {command} --help\n")]);
    let line = ran.err.lines().next().unwrap_or_default();
    line.strip_prefix(&format!("gezdunar {command}: ")).unwrap_or_default().to_owned()
}

#[test]
fn parts_that_are_no_hexadecimal() {
    let of = |parts: &str| wrong("subheader", &format!("--bands 5 --parts {parts}"));
    assert_eq!(of("30,4E43,4g"), "--parts: the third part has 'g', which is no hexadecimal digit");
    assert_eq!(of("0x30,4E43,42"), "--parts: the first part has 'x', which is no hexadecimal digit");
    assert_eq!(of("30,\u{e9},42"), "--parts: the second part has '\u{e9}', which is no hexadecimal digit");
    assert_eq!(of("30,4E4,42"), "--parts: the second part has 3 hexadecimal digits; a byte has two");
    assert_eq!(of("\"\""), "--parts takes three parts with commas between, not 1");
    assert_eq!(of("30,4E43"), "--parts takes three parts with commas between, not 2");
    assert_eq!(of("30,4E43,42,"), "--parts takes three parts with commas between, not 4");
}

#[test]
fn offsets_that_are_wrong() {
    let of = |offsets: &str| wrong("subheader", &format!("--bands 5 --parts-file f --part-offsets {offsets}"));
    assert_eq!(of("1,2"), "--part-offsets: '1,2' is not three offsets A,B,C");
    assert_eq!(of("1,2,3,4"), "--part-offsets: '1,2,3,4' is not three offsets A,B,C");
    assert_eq!(of("1,x,3"), "--part-offsets: 'x' is not a whole number in digits, 0 to 9223372036854775807");
    assert_eq!(of("1,,3"), "--part-offsets: '' is not a whole number in digits, 0 to 9223372036854775807");
    let large = "--part-offsets: 9223372036854775808 is too large; it takes at most 9223372036854775807";
    assert_eq!(of("1,2,9223372036854775808"), large);
}

#[test]
fn options_that_are_missing() {
    let neither = "--parts or --part-offsets is missing";
    assert_eq!(wrong("subheader", "--bands 5"), neither);
    assert_eq!(wrong("subheader", "--parts ,,"), "--bands is missing");
    assert_eq!(wrong("subheader", ""), "--bands is missing");
    for command in ["subheader", "info", "pack --input raw --output image"] {
        let of = |words: &str| {
            let ran = Place::new().run(&format!("{command} {words}"));
            ran.failed(2, &[]);
            ran.err
        };
        assert!(of("--bands 5 --part-offsets 1,2,3").contains(": --parts-file is missing\n"), "{command}");
        assert!(of("--bands 5 --parts-file f").contains(": --part-offsets is missing\n"), "{command}");
        assert!(of("--part-offsets 1,2,3 --parts-file f").contains(": --bands is missing\n"), "{command}");
    }
    assert_eq!(wrong("info", "--parts ,,"), "--bands is missing");
    let six = "--rows, --columns, --bits, --mode, --block-rows and --block-columns are missing";
    assert_eq!(wrong("info", "--bands 5"), six);
}

#[test]
fn a_grid_in_two_ways() {
    let why = "cannot stand together: one is given in the place of the other";
    let seven = options(&small(InterleaveMode::P));
    assert_eq!(wrong("info", &format!("{seven} --parts ,,")), format!("--rows and --parts {why}"));
    assert_eq!(wrong("info", &format!("{seven} --part-offsets 1,2,3")), format!("--rows and --part-offsets {why}"));
    assert_eq!(wrong("info", &format!("{seven} --parts-file f")), format!("--rows and --parts-file {why}"));
    for option in ["--rows", "--columns", "--bits", "--mode", "--block-rows", "--block-columns"] {
        let words = format!("{} {option} 3", written(FIRST, "NC", THIRD));
        assert_eq!(wrong("info", &words), format!("{option} and --parts {why}"));
    }
    for other in ["--part-offsets 1,2,3", "--parts-file f"] {
        let name = other.split(' ').next().unwrap_or_default();
        for command in ["subheader", "info"] {
            let words = format!("{} {other}", written(FIRST, "NC", THIRD));
            assert_eq!(wrong(command, &words), format!("--parts and {name} {why}"));
        }
    }
    assert_eq!(wrong("subheader", "--bands 5 --rows 3"), "there is no option --rows");
}

#[test]
fn each_command_takes_the_grid_from_the_parts() {
    for imode in InterleaveMode::ALL {
        let grid = small(imode);
        let fields = subheader(grid);
        let table = mask_write_vec(&grid, &Widths::STANDARD, &ImageDataMask::default(), &[], &[])
            .expect("the table is accepted");
        let place = Place::with("image", &counting(64));
        place.put("parts", &file(&fields));
        place.put("table", &table);
        place.put("raw", &counting(30));
        let (seven, hexadecimal) = (options(&grid), parts(&fields));
        let offsets = " --bands 2 --part-offsets 7,50,60 --parts-file parts ";
        let commands = [
            "info",
            "block --image image --row 1 --column 1",
            "window --image image --row 0 --column 0 --window-rows 3 --window-columns 5",
            "mask --table table --records",
            "pack --input raw --output packed",
        ];
        for command in commands {
            let expected = place.run(&format!("{command} {seven}")).done();
            let packed = place.names().contains(&"packed".to_owned()).then(|| place.get("packed"));
            for words in [&hexadecimal, offsets] {
                assert_eq!(place.run(&format!("{command} {words}")).done(), expected, "{command}");
                assert_eq!(packed, packed.as_ref().map(|_| place.get("packed")));
            }
        }
    }
}

#[test]
fn the_parts_may_stand_in_the_commands_own_file() {
    let grid = small(InterleaveMode::P);
    let (fields, image) = (file(&subheader(grid)), counting(64));
    let place = Place::with("file", &[&fields, &image[..]].concat());
    let place_of_image = format!("--image file --offset {}", fields.len());
    for command in ["block --row 1 --column 1", "window --row 2 --column 4 --window-rows 1 --window-columns 1"] {
        let text = place.run(&format!("{command} {place_of_image} --bands 2 --part-offsets 7,50,60")).done();
        assert_eq!(text, place.run(&format!("{command} {place_of_image} {}", options(&grid))).done());
        assert!(text.contains("band 1:\n 49\n"), "{text}");
    }
    let table =
        mask_write_vec(&grid, &Widths::STANDARD, &ImageDataMask::default(), &[], &[]).expect("the table is accepted");
    place.put("masked", &[&fields, &table[..]].concat());
    let mask = format!("mask --table masked --offset {}", fields.len());
    let text = place.run(&format!("{mask} --bands 2 --part-offsets 7,50,60")).done();
    assert_eq!(text, place.run(&format!("{mask} {}", options(&grid))).done());
    // Another file goes before the command's own.
    place.put("other", &file(&subheader(Grid { nbpp: 16, ..grid })));
    let other =
        format!("block --row 0 --column 0 {place_of_image} --bands 2 --part-offsets 7,50,60 --parts-file other");
    assert!(place.run(&other).done().contains("2 bytes a sample"));
}

#[test]
fn a_block_side_above_8_192_from_the_parts() {
    let grid = Grid::new(2, 9_000, 1, 8, InterleaveMode::B, EdgeRule::Full, 9_000, 2);
    let place = Place::with("raw", &counting(18_000));
    for words in [parts(&subheader(grid)), options(&grid)] {
        let text = place.run(&format!("pack --input raw --output image {words}")).done();
        assert!(text.ends_with("9000 columns, 8 bits, mode B: 1 block, 0 skipped, 18000 bytes\n"), "{text}");
        assert_eq!(place.get("image"), *counting(18_000));
        let window = "window --image image --row 1 --column 8998 --window-rows 1 --window-columns 2";
        let text = place.run(&format!("{window} {words}")).done();
        assert!(text.ends_with("band 0:\n 78 79\n"), "{text}");
    }
}

#[test]
fn a_file_that_gdal_wrote() {
    let place = Place::with("16.ntf", include_bytes!("../../../../crates/gdal_images/data/16.ntf"));
    let offsets = "--bands 2 --part-offsets 737,777,807";
    let text = place.run(&format!("subheader {offsets} --parts-file 16.ntf")).done();
    assert!(
        text.starts_with("rows (NROWS)                        13\ncolumns (NCOLS)                     19\n"),
        "{text}"
    );
    assert!(text.contains("'MONO    '\n") && text.contains("'VIS     '\n"), "{text}");
    let window = "window --image 16.ntf --offset 856 --row 0 --column 0 --window-rows 13 --window-columns 19";
    let grid = options(&Grid::new(13, 19, 2, 16, InterleaveMode::B, EdgeRule::Full, 8, 4));
    assert_eq!(place.run(&format!("{window} {offsets}")).done(), place.run(&format!("{window} {grid}")).done());
}

/// Two rows of a block of which three columns are in the picture, as GDAL reads them; under tight they are others.
#[test]
fn packed_edge_blocks_as_gdal_reads_them() {
    let place = Place::with("12.ntf", include_bytes!("../../../../crates/gdal_images/data/12.ntf"));
    let window = "window --image 12.ntf --offset 856 --row 5 --column 16 --window-rows 2 --window-columns 3 \
                  --bands 2 --part-offsets 737,777,807";
    let text = place.run(&format!("{window} --edges full")).done();
    let read = "band 0:\n  763 2350 2070\n 3169  336 1916\nband 1:\n  740 2048 2707\n 1164 3645 1924\n";
    assert!(text.ends_with(read), "{text}");
    assert_ne!(place.run(&format!("{window} --edges tight")).done(), text);
    place.run(window).failed(2, &["--edges is missing: at 12 bits"]);
}

#[test]
fn refused_parts_are_told_by_each_command() {
    let place = Place::with("image", &counting(64));
    let commands = [
        "info",
        "block --image image --row 1 --column 1 --output out",
        "window --image image --row 0 --column 0 --window-rows 3 --window-columns 5 --output out",
        "mask --table image",
        "pack --input image --output out",
    ];
    for command in commands {
        let short = place.run(&format!("{command} {}", written(&FIRST[1..], "NC", THIRD)));
        short.failed(1, &["refused with 23: ", "the parts have 37, 2 and 19 bytes"]);
        let named = place.run(&format!("{command} {}", written(FIRST, "C8", THIRD)));
        named.failed(1, &["refused with 24: ", "the parts: IC holds 'C8'"]);
        let limits = place.run(&format!("{command} {}", written(FIRST, "NC", &THIRD.replace("0048", "9999"))));
        limits.failed(1, &["refused with 1: ", "NPPBH 9999, NPPBV 0064"]);
        let file = place.run(&format!("{command} --bands 5 --part-offsets 0,1,2 --parts-file none"));
        file.failed(3, &["cannot read none: No such file"]);
        let odd = place.run(&format!("{command} --bands 5 --parts 1,2,3"));
        odd.failed(2, &["--parts: the first part has 1 hexadecimal digits; a byte has two"]);
    }
    assert_eq!(place.names(), ["image"]);
}

#[test]
fn masked_pictures_are_not_read_without_a_word() {
    let grid = small(InterleaveMode::P);
    let masked = parts(&ImageSubheader { ic: ImageCompression::NM, ..subheader(grid) });
    let table =
        mask_write_vec(&grid, &Widths::STANDARD, &ImageDataMask::default(), &[], &[]).expect("the table is accepted");
    let place = Place::with("image", &counting(64));
    place.put("table", &table);
    let told = "IC of the parts is NM: masked pictures are neither read nor written by this command yet; info, mask";
    for command in [
        "block --image image --row 1 --column 1",
        "window --image image --row 0 --column 0 --window-rows 3 --window-columns 5",
        "pack --input image --output out",
    ] {
        place.run(&format!("{command} {masked}")).failed(2, &[told]);
    }
    assert_eq!(place.names(), ["image", "table"]);
    let mask = place.run(&format!("mask --table table {masked}")).done();
    assert_eq!(mask, place.run(&format!("mask --table table {}", options(&grid))).done());
    let line = "mask (IC)                           NM, masked; the bytes are those of all blocks\n";
    let info = place.run(&format!("info {masked}")).done();
    assert_eq!(info, place.run(&format!("info {}", options(&grid))).done() + line);
    assert!(place.run(&format!("subheader {masked}")).done().contains("NM, not compressed, masked"));
}

#[test]
fn the_file_of_the_parts_is_no_output() {
    let fields = file(&subheader(small(InterleaveMode::P)));
    let place = Place::with("parts", &fields);
    place.put("image", &counting(64));
    let offsets = "--bands 2 --part-offsets 7,50,60 --parts-file parts";
    for command in [
        "block --image image --row 1 --column 1 --output parts",
        "block --image image --row 1 --column 1 --list 0 --preview parts",
        "pack --input image --output parts",
    ] {
        place.run(&format!("{command} {offsets}")).failed(2, &[": parts is a file that is read"]);
    }
    assert_eq!((place.get("parts"), place.names()), (fields, vec!["image".to_owned(), "parts".to_owned()]));
}

#[test]
fn the_parts_in_the_examples_are_accepted() {
    let place = Place::new();
    for (command, bands) in [("info", 5), ("block", 5), ("pack", 5), ("mask", 1), ("subheader", 5)] {
        let help = place.run(&format!("help {command}")).done();
        let (_, text) = help.rsplit_once("printf '").unwrap_or_else(|| panic!("no parts in: {help}"));
        let parts = text.split('\'').next().unwrap_or_default();
        assert_eq!(parts.len(), 59, "{command}");
        place.put("parts", parts.as_bytes());
        place.run(&format!("subheader --bands {bands} --edges full --part-offsets 0,38,40 --parts-file parts")).done();
    }
}
