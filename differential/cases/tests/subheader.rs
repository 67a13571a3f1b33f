//! The model's reader and writer of a subheader's parts, and wrong ones that the cases find.

use cases::model::subheader::{self, write};
use cases::{
    model, outside, Answer, Case, Compression, Edges, Grid, Justification, Lent, Mode, PixelValue, Subheader, Widths,
};

/// Picture 3 x 5 in blocks of 2 x 4, 2 bands of 8 bits.
const PARTS: [&[u8]; 3] = [b"0000000300000005SI MULTI   MS      07L", b"NM", b"R000200020004000208"];

fn fields() -> Subheader {
    Subheader {
        pvtype: PixelValue::Si,
        irep: *b"MULTI   ",
        icat: *b"MS      ",
        abpp: 7,
        pjust: Justification::L,
        ic: Compression::Nm,
        grid: Grid::new([3, 5], 2, 8, Mode::R, [2, 4]),
    }
}

/// The reader under the rule tight.
fn read(parts: [&[u8]; 3], bands: u32) -> Result<Subheader, u8> {
    subheader::read(parts, bands, Edges::Tight, &Widths::STANDARD)
}

/// A part with some bytes replaced.
fn changed(part: &[u8], at: usize, bytes: &[u8]) -> Vec<u8> {
    let mut part = part.to_vec();
    part[at..at + bytes.len()].copy_from_slice(bytes);
    part
}

#[test]
fn reads_the_fields() {
    assert_eq!(read(PARTS, 2), Ok(fields()));
    assert_eq!(read(PARTS, 0), Err(1));
    assert_eq!(read([&PARTS[0][1..], PARTS[1], PARTS[2]], 2), Err(23));
    assert_eq!(read([PARTS[0], b"NM ", PARTS[2]], 2), Err(23));
    assert_eq!(read([PARTS[0], b"nm", PARTS[2]], 2), Err(24));
    let first = |at, bytes: &[u8]| read([&changed(PARTS[0], at, bytes), PARTS[1], PARTS[2]], 2);
    assert_eq!(first(0, b" "), Err(23));
    assert_eq!(first(35, b"+7"), Err(23));
    assert_eq!(first(16, b" SI"), Err(24));
    assert_eq!(first(37, b"l"), Err(24));
    assert_eq!(first(0, b"00000000"), Err(1));
    assert_eq!(first(0, b"00000005"), Err(3));
    let third = |at, bytes: &[u8]| read([PARTS[0], PARTS[1], &changed(PARTS[2], at, bytes)], 2);
    assert_eq!(third(0, b"r"), Err(24));
    assert_eq!(third(17, b"17"), Err(2));
    // A fault in the last part comes before one in the first, if its number is lower in the order.
    assert_eq!(read([&changed(PARTS[0], 16, b"int"), PARTS[1], &PARTS[2][..18]], 2), Err(23));
    assert_eq!(read([&changed(PARTS[0], 0, b"00000000"), PARTS[1], &changed(PARTS[2], 0, b"r")], 2), Err(24));
}

/// The rule is given and stands in no part: it is what the grid then has, and is not written.
#[test]
fn edge_rule_is_given() {
    for edges in Edges::ALL {
        let held = Subheader { grid: Grid { edges, ..fields().grid }, ..fields() };
        assert_eq!(subheader::read(PARTS, 2, edges, &Widths::STANDARD), Ok(held));
        assert_eq!(written(&held, [38, 2, 19]), (0, PARTS.map(<[u8]>::to_vec)));
    }
}

#[test]
fn zero_stands_for_the_picture() {
    let sides = |nrows: u32, ncols: u32, third: &[u8]| {
        let first = format!("{nrows:08}{ncols:08}INTMONO    VIS     08R");
        read([first.as_bytes(), b"NC", third], 1).map(|s| (s.grid.nppbh, s.grid.nppbv))
    };
    assert_eq!(sides(7, 9_000, b"B000100010000000008"), Ok((9_000, 7)));
    assert_eq!(sides(7, 9_000, b"B000100019000000708"), Ok((9_000, 7)));
    assert_eq!(sides(7, 9_000, b"B000200019000000708"), Err(3));
    assert_eq!(sides(7, 9_000, b"B000200010000000708"), Err(1));
    assert_eq!(sides(7, 9_000, b"B000000010000000708"), Err(1));
    assert_eq!(sides(9_000, 7, b"B000100019000000008"), Err(1));
    assert_eq!(sides(8_193, 1, b"B000100020001000008"), Err(1));
}

/// The number, and what the outputs of these lengths then hold.
fn written(s: &Subheader, parts: [u64; 3]) -> (u8, [Vec<u8>; 3]) {
    let mut outputs = Lent { parts, ..Lent::default() }.parts();
    (write(s, &Widths::STANDARD, &mut outputs), outputs)
}

#[test]
fn writes_the_parts() {
    assert_eq!(written(&fields(), [38, 2, 19]), (0, PARTS.map(<[u8]>::to_vec)));
    let (number, longer) = written(&fields(), [39, 3, 20]);
    assert_eq!(number, 0);
    for (part, longer) in PARTS.iter().zip(&longer) {
        assert_eq!(*longer, [part, &[0xa5][..]].concat());
    }
    for shorter in [[37, 2, 19], [38, 1, 19], [38, 2, 18]] {
        assert_eq!(written(&fields(), shorter), (9, Lent { parts: shorter, ..Lent::default() }.parts()));
    }
    let side = |side| {
        let s = Subheader { grid: Grid::new([side, 1], 1, 8, Mode::B, [side, 1]), ..fields() };
        written(&s, [38, 2, 19]).1[2][13..17].to_vec()
    };
    assert_eq!([side(1), side(100), side(8_192)], [b"0001", b"0100", b"8192"]);
    assert_eq!([side(8_193), side(9_000), side(99_999_999)], [b"0000"; 3]);
    let no_grid = Grid { nrows: 0, ..fields().grid };
    assert_eq!(written(&Subheader { abpp: 100, grid: no_grid, ..fields() }, [0; 3]).0, 24);
    assert_eq!(written(&Subheader { abpp: 99, grid: no_grid, ..fields() }, [0; 3]).0, 1);
}

/// The cases of the lists that are about subheaders.
fn cases() -> impl Iterator<Item = Case> {
    let lists = outside().into_iter().filter(|(name, _)| name.contains("subheader") || name.contains("PVTYPE"));
    lists.flat_map(|(_, cases)| cases)
}

#[test]
fn written_is_read_again() {
    let mut count = 0;
    for case in cases() {
        let Case::WriteSubheader { subheader } = case else { continue };
        if let (0, parts) = written(&subheader, [38, 2, 19]) {
            assert_eq!(read(parts.each_ref().map(Vec::as_slice), subheader.grid.bands), Ok(subheader));
            count += 1;
        }
    }
    assert!(count > 1000);
}

type Parts = [Vec<u8>; 3];

/// A reader that is wrong on some parts.
type Wrong = fn(Parts, u32) -> Result<Subheader, u8>;

fn plain(parts: &Parts, bands: u32) -> Result<Subheader, u8> {
    read(parts.each_ref().map(Vec::as_slice), bands)
}

/// Reads after a change of the parts.
fn after(change: fn(&mut Parts), mut parts: Parts, bands: u32) -> Result<Subheader, u8> {
    change(&mut parts);
    plain(&parts, bands)
}

fn trim(parts: &mut Parts) {
    if parts[0].len() == 38 {
        let text = parts[0][16..19].trim_ascii().to_vec();
        parts[0][16..19].fill(b' ');
        parts[0][16..16 + text.len()].copy_from_slice(&text);
    }
}

fn blanks_are_zeros(parts: &mut Parts) {
    for (part, at) in [(0, 0), (0, 8), (0, 35), (2, 1), (2, 5), (2, 9), (2, 13), (2, 17)] {
        if parts[part].get(at) == Some(&b' ') {
            parts[part][at] = b'0';
        }
    }
}

fn any_count_of_blocks(parts: &mut Parts) {
    if parts[2].len() == 19 && parts[2][9..13] == *b"0000" && parts[0].len() == 38 {
        let columns = parts[0][12..16].to_vec();
        parts[2][9..13].copy_from_slice(&columns);
    }
}

#[test]
fn wrong_readers_are_found() {
    let wrong: [(&str, Wrong); 8] = [
        ("trims PVTYPE", |parts, bands| after(trim, parts, bands)),
        ("takes a longer part", |parts, bands| after(|parts| parts[0].truncate(38), parts, bands)),
        ("takes a longer IC", |parts, bands| after(|parts| parts[1].truncate(2), parts, bands)),
        ("takes blanks for zeros", |parts, bands| after(blanks_are_zeros, parts, bands)),
        ("takes small letters", |parts, bands| after(|parts| parts[2][..1].make_ascii_uppercase(), parts, bands)),
        ("replaces every zero", |parts, bands| after(any_count_of_blocks, parts, bands)),
        ("knows no mask", |parts, bands| {
            plain(&parts, bands).and_then(|s| (s.ic == Compression::Nc).then_some(s).ok_or(24))
        }),
        ("asks 1 before 24", |parts, bands| {
            if bands == 0 {
                plain(&parts, 0).map_err(|n| if n == 24 { 1 } else { n })
            } else {
                plain(&parts, bands)
            }
        }),
    ];
    for (name, wrong) in wrong {
        let differs = |case: Case| match case {
            Case::ReadSubheader { parts, bands, .. } if parts.iter().all(|part| !part.is_empty()) => {
                wrong(parts.clone(), bands) != plain(&parts, bands)
            }
            _ => false,
        };
        assert!(cases().any(differs), "a reader that {name}");
    }
}

/// A writer that is wrong on some subheaders.
type WrongWriter = fn(&Subheader, &mut Parts) -> u8;

#[test]
fn wrong_writers_are_found() {
    let wrong: [(&str, WrongWriter); 4] = [
        ("writes zero at 8,192", |s, outputs| {
            let number = write(s, &Widths::STANDARD, outputs);
            if number == 0 && s.grid.nppbv == 8_192 {
                outputs[2][13..17].fill(b'0');
            }
            number
        }),
        ("asks 1 before 24", |s, outputs| if s.grid.nrows == 0 { 1 } else { write(s, &Widths::STANDARD, outputs) }),
        ("asks 9 before 1", |s, outputs| {
            if s.abpp < 100 && outputs[0].is_empty() {
                9
            } else {
                write(s, &Widths::STANDARD, outputs)
            }
        }),
        ("writes before 9", |s, outputs| {
            let number = write(s, &Widths::STANDARD, outputs);
            if number == 9 && outputs[1].len() >= 2 {
                outputs[1][..2].copy_from_slice(&s.ic.text());
            }
            number
        }),
    ];
    for (name, wrong) in wrong {
        let differs = |case: Case| {
            let Case::WriteSubheader { subheader } = case.call() else { return false };
            let mut outputs = Lent::of(&case).parts();
            let number = wrong(subheader, &mut outputs);
            model::answer(&case) != Answer { number, values: vec![], bytes: outputs.concat() }
        };
        assert!(cases().any(differs), "a writer that {name}");
    }
}
