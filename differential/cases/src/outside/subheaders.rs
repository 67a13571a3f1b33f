//! Three parts of an image subheader, changed, cut and at the limits of their fields; subheaders to be written.

use super::pairs;
use crate::{Case, Compression, Edges, Grid, Justification, Lent, Mode, PixelValue, Subheader};

/// The three parts, and the count of bands.
type Parts = ([Vec<u8>; 3], u32);

fn read((parts, bands): Parts) -> Case {
    Case::ReadSubheader { parts, bands, edges: Edges::Tight }
}

fn parts(first: &[u8], second: &[u8], third: &[u8], bands: u32) -> Parts {
    ([first, second, third].map(<[u8]>::to_vec), bands)
}

/// One block of 8,192 x 8,192.
fn plain() -> Parts {
    parts(b"0000819200008192INTMONO    VIS     08R", b"NC", b"B000100018192819208", 1)
}

/// Parts that are accepted: each named value, zeros for a block's side, long sides, digits of every kind.
fn accepted() -> Vec<Parts> {
    vec![
        plain(),
        parts(b"0000000300000005INTMONO    VIS     08R", b"NC", b"B000200020004000208", 2),
        parts(b"0000000100009000B  NODISPLYMAP     01L", b"NM", b"P000100010000000101", 1),
        parts(b"0000900000000002SI MULTI   MS      11R", b"NC", b"R000100010002000012", 3),
        parts(b"0000000100008193R  \x00\xff\x00\xff\x00\xff\x00\xff RGB/LUT32L", b"NM", b"S000100018193000132", 1),
        parts(b"9999999900000001C                  00R", b"NC", b"B000100010000000001", 1),
        parts(b"0000000700000011INTMONO    VIS     99R", b"NC", b"S000100010000000064", 99_999),
        parts(b"8191180700000001INTMONO    VIS     08R", b"NC", b"P000199990001819208", 1),
    ]
}

/// Every byte of accepted parts replaced by every value.
pub fn bytes() -> impl Iterator<Item = Case> {
    accepted().into_iter().flat_map(|(parts, bands)| {
        let places = (0..3).flat_map(|part| (0..[38, 2, 19][part]).map(move |at| (part, at)));
        pairs(places, 0..=255).map(move |((part, at), byte)| {
            let mut parts = parts.clone();
            parts[part][at] = byte;
            read((parts, bands))
        })
    })
}

/// Three letters out of those of the five texts, small ones, spaces of several kinds and others.
pub fn named() -> impl Iterator<Item = Case> {
    let letters = *b"INTSRCBintsrcb \0\t\n\r0A\x85\xa0\xc2";
    let types = pairs(pairs(letters.into_iter(), letters.into_iter()), letters.into_iter());
    let types = types.map(|((a, b), c)| {
        let (mut parts, bands) = plain();
        parts[0][16..19].copy_from_slice(&[a, b, c]);
        read((parts, bands))
    });
    let compressions = pairs(0..=255, 0..=255).map(|(a, b)| {
        let (mut parts, bands) = plain();
        parts[1] = vec![a, b];
        read((parts, bands))
    });
    types.chain(compressions)
}

/// Parts of every length to 40, each with the others of four lengths; a longer part goes on with digits.
pub fn lengths() -> impl Iterator<Item = Case> {
    let few = [[0, 37, 38, 39], [0, 1, 2, 3], [0, 18, 19, 20]];
    (0..3).flat_map(move |long| {
        let list = move |part: usize| if part == long { (0..=40).collect() } else { few[part].to_vec() };
        let some: Vec<usize> = list(2);
        pairs(pairs(list(0).into_iter(), list(1).into_iter()), some.into_iter()).flat_map(|((a, b), c)| {
            accepted().into_iter().map(move |(mut parts, bands)| {
                for (part, length) in parts.iter_mut().zip([a, b, c]) {
                    part.resize(length, b'0');
                }
                read((parts, bands))
            })
        })
    })
}

/// What is wrong with a subheader: bytes of a part from a place on, a part's length, or the count of bands.
#[derive(Clone, Copy)]
enum Fault {
    Bytes(usize, usize, &'static [u8]),
    Length(usize, usize),
    Bands(u32),
}

impl Fault {
    /// Faults of each part and field, in the order of the numbers 23, 24, 1, 2, 3, 4. NPPBH 0 is one beside NBPR 2.
    const ALL: [Fault; 25] = [
        Fault::Length(0, 37),
        Fault::Length(0, 39),
        Fault::Length(1, 1),
        Fault::Length(1, 3),
        Fault::Length(2, 18),
        Fault::Length(2, 20),
        Fault::Bytes(0, 0, b" "),
        Fault::Bytes(0, 15, b" "),
        Fault::Bytes(0, 35, b"+"),
        Fault::Bytes(2, 4, b"/"),
        Fault::Bytes(2, 5, b":"),
        Fault::Bytes(2, 9, b"-"),
        Fault::Bytes(2, 16, b"A"),
        Fault::Bytes(2, 18, b"\0"),
        Fault::Bytes(0, 16, b" SI"),
        Fault::Bytes(0, 37, b"r"),
        Fault::Bytes(1, 0, b"C8"),
        Fault::Bytes(2, 0, b"b"),
        Fault::Bytes(0, 0, b"00000000"),
        Fault::Bytes(2, 9, b"0000"),
        Fault::Bytes(2, 13, b"8193"),
        Fault::Bands(0),
        Fault::Bytes(2, 17, b"17"),
        Fault::Bytes(2, 1, b"0002"),
        Fault::Bands(99_999),
    ];

    fn put(self, (parts, bands): &mut Parts) {
        match self {
            Fault::Bytes(part, at, bytes) => {
                let field = parts[part].iter_mut().skip(at);
                field.zip(bytes).for_each(|(to, from)| *to = *from);
            }
            Fault::Length(part, length) => parts[part].resize(length, b'0'),
            Fault::Bands(count) => *bands = count,
        }
    }
}

/// Up to three faults, so that every two numbers meet.
pub fn faults() -> impl Iterator<Item = Case> {
    let faults = Fault::ALL;
    pairs(pairs(faults.into_iter(), faults.into_iter()), faults.into_iter()).map(|((a, b), c)| {
        let mut parts = plain();
        [a, b, c].into_iter().for_each(|fault| fault.put(&mut parts));
        read(parts)
    })
}

/// A picture's side, a block's as its field has it, and the count of blocks, with the counts beside it.
fn sides() -> Vec<(u32, u32, u32)> {
    let pictures = [0_u32, 1, 2, 8_192, 8_193, 9_000, 99_999_999];
    let blocks = [0, 1, 2, 8_192, 8_193, 9_000, 9_999];
    pairs(pictures.into_iter(), blocks.into_iter())
        .flat_map(|(picture, block)| {
            let count = picture.checked_div(block).map_or(1, |_| picture.div_ceil(block));
            let mut counts = vec![0, 1, 2, 9_999, count.min(9_999)];
            counts.dedup();
            counts.into_iter().map(move |count| (picture, block, count))
        })
        .collect()
}

pub fn blocks() -> impl Iterator<Item = Case> {
    let kinds = [(1, "08"), (99_999, "01"), (100_000, "64"), (2, "17")];
    pairs(pairs(sides().into_iter(), sides().into_iter()), kinds.into_iter()).map(|((down, across), (bands, nbpp))| {
        let ((nrows, nppbv, nbpc), (ncols, nppbh, nbpr)) = (down, across);
        let first = format!("{nrows:08}{ncols:08}INTMONO    VIS     08R");
        let third = format!("R{nbpr:04}{nbpc:04}{nppbh:04}{nppbv:04}{nbpp}");
        read(parts(first.as_bytes(), b"NM", third.as_bytes(), bands))
    })
}

/// Grids that questions 1 to 4 accept, or refuse; the last of a picture that has no other fault than its size.
fn grids(mode: Mode) -> Vec<Grid> {
    let one = Grid::new([1, 1], 1, 8, mode, [1, 1]);
    let sides = [1, 2, 99, 100, 8_191, 8_192, 8_193, 9_000, 10_000, 99_999_999];
    let mut grids: Vec<Grid> = sides
        .into_iter()
        .flat_map(|side| [Grid::new([side, 1], 1, 1, mode, [side, 1]), Grid::new([1, side], 2, 12, mode, [1, side])])
        .collect();
    grids.extend([1, 2, 7, 8_192].map(|block| Grid::new([12_345, 6_789], 3, 8, mode, [block, block])));
    grids.extend([0, 1, 16, 17, 64, 65, 100, u32::MAX].map(|nbpp| Grid { nbpp, ..one }));
    grids.extend([0, 99_999, 100_000, u32::MAX].map(|bands| Grid { bands, ..one }));
    grids.extend([0, 2, 10_000, u32::MAX].map(|nbpr| Grid { nbpr, ..one }));
    grids.extend([0, 2, 8_193, u32::MAX].map(|nppbh| Grid { nppbh, ..one }));
    grids.extend([0, 2, 100_000_000, u32::MAX].map(|nrows| Grid { nrows, ..one }));
    grids.push(Grid::new([8_193, 1], 1, 8, mode, [1, 8_193]));
    grids.push(Grid::new([131_075, 262_138], 1, 1, mode, [131_075, 262_138]));
    grids.push(Grid::new([67_108_864; 2], 512, 64, mode, [67_108_864; 2]));
    grids
}

fn subheader(grid: Grid, abpp: u32) -> Subheader {
    let (pvtype, pjust, ic) = (PixelValue::Int, Justification::R, Compression::Nc);
    Subheader { pvtype, irep: *b"MONO    ", icat: *b"VIS     ", abpp, pjust, ic, grid }
}

/// Every named value, with ABPP about its limit, on every grid.
pub fn written() -> impl Iterator<Item = Case> {
    let named = pairs(pairs(PixelValue::ALL.into_iter(), Justification::ALL.into_iter()), Compression::ALL.into_iter());
    let abpps = [0, 1, 9, 10, 98, 99, 100, 101, 255, 256, u32::MAX];
    pairs(pairs(named, Mode::ALL.into_iter()), abpps.into_iter()).flat_map(|((((pvtype, pjust), ic), mode), abpp)| {
        grids(mode).into_iter().map(move |grid| {
            let subheader = Subheader { pvtype, pjust, ic, ..subheader(grid, abpp) };
            Case::WriteSubheader { subheader }
        })
    })
}

pub fn outputs() -> impl Iterator<Item = Case> {
    let lengths = pairs(pairs([0, 37, 38, 39].into_iter(), [0, 1, 2, 3].into_iter()), [0, 18, 19, 20].into_iter());
    let lengths: Vec<_> = lengths.collect();
    pairs(grids(Mode::P).into_iter(), [8, 100].into_iter()).flat_map(move |(grid, abpp)| {
        let case = Case::WriteSubheader { subheader: subheader(grid, abpp) };
        lengths.clone().into_iter().map(move |((first, second), third)| {
            let lent = Lent { parts: [first, second, third], ..Lent::default() };
            Case::Lent { case: Box::new(case.clone()), lent }
        })
    })
}
