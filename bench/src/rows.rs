//! The list of rows, with their targets.

use gezdunar::InterleaveMode as Mode;
use gezdunar::{EdgeRule, Grid, Window};

use crate::moves::Memcpy;
use crate::original::Block;
use crate::reorderings::{self, Pack};
use crate::report::{Target, Times};
use crate::{blocks, marks, masks, relays, windows};

pub struct Row {
    pub name: String,
    /// Bytes that a call puts out, or reads where it puts none out, and that memcpy copies.
    pub bytes: usize,
    pub target: Target,
    pub work: Box<dyn Fn() -> Times>,
}

const SIDE: u32 = 512;
/// Listed bands out of 4 and out of 100.
const LISTS: [(u32, [u32; 3]); 2] = [(4, [3, 0, 2]), (100, [70, 3, 41])];

/// Two blocks, side by side, so that S differs from B.
fn two_blocks(mode: Mode, nbpp: u32, bands: u32) -> Grid {
    Grid::new(SIDE, 2 * SIDE, bands, nbpp, mode, EdgeRule::Tight, SIDE, SIDE)
}

/// The second of two blocks.
const BLOCK: Block = (0, 1);

fn at_least(rust: f64) -> Target {
    Target { rust: Some(rust), memcpy: None }
}

/// The target of a row that takes all bands.
fn target(mode: Mode, nbpp: u32, bands: u32) -> Target {
    match nbpp {
        12 => at_least(2.0),
        8 if mode == Mode::B => Target { rust: None, memcpy: Some(0.7) },
        _ if mode != Mode::P => Target { rust: Some(1.0), memcpy: Some(0.7) },
        _ if bands > 1 => at_least(5.0),
        _ => at_least(1.0),
    }
}

fn plural(count: u32, thing: &str) -> String {
    format!("{count} {thing}{}", if count == 1 { "" } else { "s" })
}

fn decode(grid: Grid, block: Block, bands: Option<Vec<u32>>, what: &str, target: Target) -> Row {
    Row {
        name: format!("decode_block {}, {} bits, {what}", grid.imode, grid.nbpp),
        bytes: blocks::decoded_bytes(&grid, block, bands.as_deref()),
        target,
        work: Box::new(move || blocks::decode(&grid, block, bands.as_deref(), Memcpy::Runs)),
    }
}

fn encode(grid: Grid, block: Block, what: &str, target: Target) -> Row {
    Row {
        name: format!("encode_block {}, {} bits, {what}", grid.imode, grid.nbpp),
        bytes: blocks::encoded_bytes(&grid, block),
        target,
        work: Box::new(move || blocks::encode(&grid, block, Memcpy::Runs)),
    }
}

/// Every mode, width and number of bands.
fn whole_blocks(row: impl Fn(Grid, &str, Target) -> Row) -> Vec<Row> {
    let mut rows = Vec::new();
    for mode in Mode::ALL {
        for nbpp in [8, 12, 16, 32] {
            for bands in [1, 4, 100] {
                let grid = two_blocks(mode, nbpp, bands);
                rows.push(row(grid, &plural(bands, "band"), target(mode, nbpp, bands)));
            }
        }
    }
    rows
}

/// Three listed bands out of 100.
fn listed_bands() -> Vec<Row> {
    let mut rows = Vec::new();
    for mode in Mode::ALL {
        for nbpp in [8, 12, 16] {
            let (bands, list) = LISTS[1];
            let least = at_least(if nbpp == 12 { 2.0 } else { 1.0 });
            let grid = two_blocks(mode, nbpp, bands);
            rows.push(decode(grid, BLOCK, Some(list.to_vec()), "3 listed of 100 bands", least));
        }
    }
    rows
}

/// The last block of 1,000 rows and columns has 488 of each.
fn edge_grid(mode: Mode, nbpp: u32) -> Grid {
    Grid::new(1000, 1000, 4, nbpp, mode, EdgeRule::Tight, SIDE, SIDE)
}

const EDGE: Block = (1, 1);

fn edge_blocks() -> Vec<Row> {
    let mut rows = Vec::new();
    for mode in Mode::ALL {
        for nbpp in [8, 12, 16] {
            let (grid, what) = (edge_grid(mode, nbpp), "4 bands, edge block");
            rows.push(decode(grid, EDGE, None, what, target(mode, nbpp, 4)));
            rows.push(encode(grid, EDGE, what, target(mode, nbpp, 4)));
        }
    }
    rows
}

/// As many samples as a block has, of four blocks; at 12 bits the rows start inside a byte.
const WINDOW: Window = Window { row: 200, column: 301, rows: SIDE, columns: SIDE };

fn window_of(grid: Grid, what: &str, target: Target, memcpy: Memcpy) -> Row {
    Row {
        name: format!("read_window {}, {} bits, 4 bands, {what}", grid.imode, grid.nbpp),
        bytes: windows::window_bytes(&grid, &WINDOW),
        target,
        work: Box::new(move || windows::read(&grid, WINDOW, memcpy)),
    }
}

fn window(mode: Mode, nbpp: u32, target: Target, memcpy: Memcpy) -> Row {
    let grid = Grid::new(2 * SIDE, 2 * SIDE, 4, nbpp, mode, EdgeRule::Tight, SIDE, SIDE);
    window_of(grid, "across 4 blocks", target, memcpy)
}

fn windows_across() -> Vec<Row> {
    let mut rows = Vec::new();
    for mode in Mode::ALL {
        for nbpp in [8, 12, 16] {
            rows.push(window(mode, nbpp, target(mode, nbpp, 4), Memcpy::Runs));
        }
    }
    // Three of the four blocks are edge blocks.
    for mode in [Mode::B, Mode::P] {
        for edges in EdgeRule::ALL {
            let grid = Grid { edges, ..edge_grid(mode, 12) };
            rows.push(window_of(grid, &format!("{edges} edge blocks"), target(mode, 12, 4), Memcpy::Runs));
        }
    }
    rows
}

fn pack(mode: Mode, bands: u32, size: u32) -> Pack {
    Pack { mode, rows: SIDE, columns: SIDE, bands, size: size as usize }
}

/// A reordering of every band.
fn reordering(call: &str, pack: Pack, target: Target, memcpy: Memcpy, work: fn(&Pack, Memcpy) -> Times) -> Row {
    let size = plural(pack.size as u32, "byte");
    Row {
        name: format!("{call} {}, {size}, {} bands", pack.mode, pack.bands),
        bytes: pack.bytes(pack.bands as usize),
        target,
        work: Box::new(move || work(&pack, memcpy)),
    }
}

fn reordered(call: &str, work: fn(&Pack, Memcpy) -> Times) -> Vec<Row> {
    let mut rows = Vec::new();
    for mode in [Mode::P, Mode::R] {
        for size in [1, 2, 4] {
            for bands in [4, 100] {
                let target = target(mode, 8 * size, bands);
                rows.push(reordering(call, pack(mode, bands, size), target, Memcpy::Runs, work));
            }
        }
    }
    rows
}

/// The rows above whose samples lie in many runs, once more: beside one memcpy of as many bytes.
fn at_once() -> Vec<Row> {
    let (none, memcpy) = (|| Target::NONE, Memcpy::AtOnce);
    let mut rows = Vec::new();
    for nbpp in [8, 16, 32] {
        let grid = two_blocks(Mode::R, nbpp, 100);
        let work = Box::new(move || blocks::decode(&grid, BLOCK, None, memcpy));
        rows.push(Row { work, ..decode(grid, BLOCK, None, "100 bands", none()) });
        let work = Box::new(move || blocks::encode(&grid, BLOCK, memcpy));
        rows.push(Row { work, ..encode(grid, BLOCK, "100 bands", none()) });
    }
    for mode in [Mode::B, Mode::R, Mode::S] {
        for nbpp in [8, 16] {
            let (grid, what) = (edge_grid(mode, nbpp), "4 bands, edge block");
            let work = Box::new(move || blocks::decode(&grid, EDGE, None, memcpy));
            rows.push(Row { work, ..decode(grid, EDGE, None, what, none()) });
            let work = Box::new(move || blocks::encode(&grid, EDGE, memcpy));
            rows.push(Row { work, ..encode(grid, EDGE, what, none()) });
            rows.push(window(mode, nbpp, none(), memcpy));
        }
    }
    let [to, from] = ["to_band_sequential", "from_band_sequential"];
    for size in [1, 2, 4] {
        let pack = pack(Mode::R, 100, size);
        rows.push(reordering(to, pack, none(), memcpy, reorderings::to_band_sequential));
        rows.push(reordering(from, pack, none(), memcpy, reorderings::from_band_sequential));
    }
    rows
}

/// Three listed bands of data in the order of P.
fn selected() -> Vec<Row> {
    let mut rows = Vec::new();
    for size in [1, 2, 4] {
        for (bands, list) in LISTS {
            let pack = pack(Mode::P, bands, size);
            rows.push(Row {
                name: format!("fused_bip_to_bsq, {}, 3 listed of {bands} bands", plural(size, "byte")),
                bytes: pack.bytes(list.len()),
                target: at_least(1.0),
                work: Box::new(move || reorderings::fused_bip_to_bsq(&pack, &list)),
            });
        }
    }
    rows
}

/// Re-lays of four blocks, of which three are edge blocks.
fn relays() -> Vec<Row> {
    let mut rows = Vec::new();
    for mode in Mode::ALL {
        for nbpp in [4, 12] {
            let grid = edge_grid(mode, nbpp);
            rows.push(Row {
                name: format!("relay {mode}, {nbpp} bits, 4 bands, 4 blocks"),
                bytes: relays::image_bytes(&grid),
                target: at_least(0.5),
                work: Box::new(move || relays::relay_image(&grid)),
            });
        }
    }
    rows
}

fn plain(name: &str, bytes: usize, target: Target, work: fn() -> Times) -> Row {
    Row { name: name.into(), bytes, target, work: Box::new(work) }
}

fn mask_tables() -> Vec<Row> {
    let bytes = 10 + 4 * blocks::sizes(&masks::grid()).blocks;
    vec![
        plain("mask parse, 100,000 block records", bytes, at_least(1.0), masks::parse),
        plain("has_block of each of 100,000 blocks", bytes, Target::NONE, masks::has_block),
        plain("get_block_offset of each of 100,000 blocks", bytes, Target::NONE, masks::get_block_offset),
    ]
}

fn progress_and_finish() -> Vec<Row> {
    let bytes = 8 * blocks::sizes(&marks::grid()).mark_words;
    let one = "finalize, 99,980,001 blocks, one unmarked near the end";
    vec![
        plain("progress, 99,980,001 blocks", bytes, Target::NONE, marks::progress),
        plain("finalize, 99,980,001 blocks, all marked", bytes, at_least(1.0), marks::all_marked),
        plain(one, bytes, at_least(1.0), marks::one_unmarked),
    ]
}

/// The rows of each table.
pub fn sections() -> Vec<(&'static str, Vec<Row>)> {
    let decoded = |grid, what: &str, target| decode(grid, BLOCK, None, what, target);
    let encoded = |grid, what: &str, target| encode(grid, BLOCK, what, target);
    vec![
        ("Blocks read", whole_blocks(decoded)),
        ("Blocks written", whole_blocks(encoded)),
        ("Listed bands", listed_bands()),
        ("Edge blocks", edge_blocks()),
        ("Windows", windows_across()),
        ("Reorderings to band order", reordered("to_band_sequential", reorderings::to_band_sequential)),
        ("Reorderings from band order", reordered("from_band_sequential", reorderings::from_band_sequential)),
        ("Listed bands of pixels", selected()),
        ("Many runs beside one memcpy of as many bytes", at_once()),
        ("Re-lays", relays()),
        ("Mask tables", mask_tables()),
        ("Progress and finish", progress_and_finish()),
    ]
}
