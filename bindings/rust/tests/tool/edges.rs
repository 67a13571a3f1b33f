//! `--edges`.

use crate::common::{block_samples, blocks, samples, small, subheader, WIDTHS};
use crate::place::{options, parts, Place};
use gezdunar::{mask_write_vec, EdgeRule, Frame, Grid, ImageDataMask, InterleaveMode, Widths};

/// 7 rows by 11 columns, 3 bands of 12 bits, in blocks of 3 rows by 4 columns.
fn odd(edges: EdgeRule) -> Grid {
    Grid::new(7, 11, 3, 12, InterleaveMode::P, edges, 4, 3)
}

/// All samples of the plain picture.
fn raw(grid: &Grid) -> Vec<u8> {
    let bands: Vec<u32> = (0..grid.bands).collect();
    samples(grid, &bands, 0, 0, grid.nrows as usize, grid.ncols as usize).into_vec()
}

/// The image of the plain picture.
fn image(grid: &Grid) -> Vec<u8> {
    let bands: Vec<u32> = (0..grid.bands).collect();
    let mut frame = Frame::new(*grid, Widths::STANDARD).expect("the grid is accepted");
    for (row, column) in blocks(grid) {
        let data = block_samples(grid, &bands, row, column);
        frame.encode_block(row, column, grid.block_shape(row, column), &data).expect("the block is accepted");
    }
    frame.into_image()
}

/// The options of a grid, and its parts in hexadecimal, with this in the place of `--edges` and its value.
fn with(grid: &Grid, edges: &str) -> [String; 2] {
    [options(grid), parts(&subheader(*grid))]
        .map(|words| words.replace("--edges full", "").replace("--edges tight", "") + edges)
}

const COMMANDS: [&str; 6] = [
    "info",
    "subheader",
    "block --image image --row 1 --column 1 --output out",
    "window --image image --row 0 --column 0 --window-rows 3 --window-columns 5 --output out",
    "mask --table table",
    "pack --input raw --output out",
];

/// A place with an image, a table and samples for each command.
fn place(grid: &Grid) -> Place {
    let place = Place::with("image", &image(grid));
    place.put("raw", &raw(grid));
    place.put(
        "table",
        &mask_write_vec(grid, &Widths::STANDARD, &ImageDataMask::default(), &[], &[]).expect("an accepted table"),
    );
    place
}

/// Runs of each command with these words; `subheader` takes the parts alone.
fn runs(grid: &Grid, edges: &str) -> Vec<(&'static str, String)> {
    let [seven, parts] = with(grid, edges);
    let all = COMMANDS.into_iter().flat_map(|command| [(command, seven.clone()), (command, parts.clone())]);
    all.filter(|(command, words)| *command != "subheader" || words.contains("--parts")).collect()
}

#[test]
fn at_12_bits_the_rule_must_be_given() {
    let grid = odd(EdgeRule::Full);
    let place = place(&grid);
    let why = "--edges is missing: at 12 bits a block that is partly outside the picture lies otherwise under tight \
               than under full, and a wrong guess gives believable samples; ";
    let which = "--edges full is for files by the standard and of other writers, --edges tight for files of gezdunar \
                 0.4 and earlier\ntry: gezdunar ";
    for (command, words) in runs(&grid, "") {
        place.run(&format!("{command} {words}")).failed(2, &[&format!("{why}{which}")]);
    }
    assert_eq!(place.names(), ["image", "raw", "table"]);
    for edges in ["--edges full", "--edges tight", "--edges=full"] {
        for (command, words) in runs(&grid, edges) {
            place.run(&format!("{command} {words}")).done();
        }
    }
}

#[test]
fn at_which_bits_it_must_be_given() {
    let place = Place::new();
    for nbpp in WIDTHS {
        for words in with(&Grid { nbpp, ..odd(EdgeRule::Full) }, "") {
            let ran = place.run(&format!("info {words}"));
            match nbpp % 8 {
                0 => assert!(!ran.done().contains("edge rule")),
                _ => ran.failed(2, &[&format!("--edges is missing: at {nbpp} bit")]),
            }
        }
    }
}

#[test]
fn at_byte_multiples_it_may_be_left_out() {
    for nbpp in [8, 16, 24] {
        let grid = Grid { nbpp, ..odd(EdgeRule::Full) };
        let place = place(&grid);
        for (without, (full, tight)) in
            runs(&grid, "").into_iter().zip(runs(&grid, "--edges full").into_iter().zip(runs(&grid, "--edges tight")))
        {
            let told = [without, full, tight].map(|(command, words)| {
                let text = place.run(&format!("{command} {words}")).done();
                (text, place.names().contains(&"out".to_owned()).then(|| place.get("out")))
            });
            assert_eq!((&told[0], &told[0]), (&told[1], &told[2]));
        }
        assert_eq!(place.get("out"), image(&grid));
    }
}

#[test]
fn words_that_are_no_rule() {
    let place = place(&small(InterleaveMode::P));
    for word in ["T", "F", "Full", "TIGHT", "fulll", "0", "\"\""] {
        for grid in [small(InterleaveMode::P), odd(EdgeRule::Full)] {
            for (command, words) in runs(&grid, &format!("--edges {word}")) {
                let told = format!("--edges: '{}' is neither tight nor full\n", word.trim_matches('"'));
                place.run(&format!("{command} {words}")).failed(2, &[&told]);
            }
        }
    }
    for (command, words) in runs(&odd(EdgeRule::Full), "--edges full --edges tight") {
        place.run(&format!("{command} {words}")).failed(2, &["--edges is given twice"]);
    }
    for (command, words) in runs(&odd(EdgeRule::Full), "--edges") {
        place.run(&format!("{command} {words}")).failed(2, &["--edges has no value"]);
    }
    assert_eq!(place.names(), ["image", "raw", "table"]);
}

#[test]
fn a_refused_grid_is_told_before_the_rule_is_missed() {
    let place = Place::new();
    for (grid, number) in [(Grid { nbpp: 17, ..odd(EdgeRule::Full) }, 2), (Grid { nrows: 0, ..odd(EdgeRule::Full) }, 1)]
    {
        let words = options(&grid).replace("--edges full", "");
        place.run(&format!("info {words}")).failed(1, &[&format!("refused with {number}: ")]);
    }
    let short = parts(&subheader(odd(EdgeRule::Full))).replace("--edges full", "").replace("--parts 30", "--parts ");
    place.run(&format!("info {short}")).failed(1, &["refused with 23: "]);
}

#[test]
fn figure_m() {
    for (edges, bytes) in [(EdgeRule::Tight, [0x12, 0x34, 0x59, 0x00]), (EdgeRule::Full, [0x12, 0x34, 0x50, 0x90])] {
        let grid = options(&Grid::new(2, 3, 1, 4, InterleaveMode::B, edges, 2, 2));
        let place = Place::with("raw", &[1, 2, 5, 3, 4, 9]);
        let text = place.run(&format!("pack --input raw --output image {grid}")).done();
        let words = format!("1 band, 2 rows, 3 columns, 4 bits, mode B, edges {edges}: 2 blocks, 0 skipped, 4 bytes");
        assert_eq!(text, format!("wrote image: {words}\n"));
        assert_eq!(place.get("image"), bytes);
        let text = place.run(&format!("block --image image --row 0 --column 1 {grid}")).done();
        assert!(text.ends_with("band 0:\n 5\n 9\n"), "{text}");
        let window = "window --image image --row 0 --column 0 --window-rows 2 --window-columns 3";
        let text = place.run(&format!("{window} {grid}")).done();
        assert!(text.ends_with("band 0:\n 1 2 5\n 3 4 9\n"), "{text}");
    }
}

#[test]
fn a_picture_under_both_rules() {
    for imode in InterleaveMode::ALL {
        let grid = Grid { imode, ..odd(EdgeRule::Full) };
        let place = Place::with("raw", &raw(&grid));
        let window = "--row 0 --column 0 --window-rows 7 --window-columns 11";
        for words in with(&grid, "") {
            for rule in EdgeRule::ALL {
                place.run(&format!("pack --input raw --output {rule} {words} --edges {rule}")).done();
                assert_eq!(place.get(&rule.to_string()), image(&Grid { edges: rule, ..grid }));
            }
            assert_ne!(place.get("tight"), place.get("full"), "{imode}");
            for (rule, image) in EdgeRule::ALL.into_iter().flat_map(|rule| EdgeRule::ALL.map(|image| (rule, image))) {
                let read = format!("window --image {image} {window} {words} --edges {rule} --output back");
                place.run(&read).done();
                assert_eq!(place.get("back") == raw(&grid), rule == image, "{imode}: {image}, read as {rule}");
            }
        }
    }
}

#[test]
fn the_rule_is_shown_where_it_matters() {
    let place = Place::new();
    let rules = [
        (EdgeRule::Tight, "tight, only samples inside the picture, without gaps"),
        (EdgeRule::Full, "full, whole blocks with zeros outside the picture"),
    ];
    for (edges, words) in rules {
        let line = format!("edge rule, as given                 {words}\n");
        let grid = odd(edges);
        let info = place.run(&format!("info {}", options(&grid))).done();
        assert!(info.contains(&line), "{info}");
        assert_eq!(place.run(&format!("info {}", parts(&subheader(grid)))).done(), info);
        let fields = place.run(&format!("subheader {}", parts(&subheader(grid)))).done();
        assert!(fields.ends_with(&line), "{fields}");
        let [seven, parts] = with(&small(InterleaveMode::P), &format!("--edges {edges}"));
        for words in [format!("info {seven}"), format!("info {parts}"), format!("subheader {parts}")] {
            assert!(!place.run(&words).done().contains("edge rule"), "{words}");
        }
    }
}

#[test]
fn help_tells_how_to_choose() {
    let place = Place::new();
    for command in ["info", "block", "window", "pack", "mask", "subheader"] {
        let help = place.run(&format!("help {command}")).done();
        for text in
            ["--edges RULE", "by the standard and of other writers", "of gezdunar 0.4 and earlier", "believable"]
        {
            assert!(help.contains(text), "'{text}' is not in: {help}");
        }
    }
}
