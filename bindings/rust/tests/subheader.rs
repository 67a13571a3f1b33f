//! Three parts of an image subheader, read and written.

mod common;

use common::{exact, refused_grids, small, subheader, WIDTHS};
use gezdunar::{
    EdgeRule, Grid, ImageCompression, ImageSubheader, InterleaveMode, PixelJustification, PixelValueType, Refusal,
    Widths,
};
use std::str::FromStr;

const FIRST: &[u8] = b"0000020300000317SI MULTI   MS      11L";
const SECOND: &[u8] = b"NM";
const THIRD: &[u8] = b"P000700040048006412";

/// The fields of these parts.
fn fields() -> ImageSubheader {
    ImageSubheader {
        pvtype: PixelValueType::SignedInt,
        irep: *b"MULTI   ",
        icat: *b"MS      ",
        abpp: 11,
        pjust: PixelJustification::Left,
        ic: ImageCompression::NM,
        grid: Grid::new(203, 317, 5, 12, InterleaveMode::P, EdgeRule::Full, 48, 64),
    }
}

/// Reads parts in buffers of exact size. Under the other rule the answer is the same but for the rule.
fn read(first: &[u8], second: &[u8], third: &[u8], bands: u32) -> Result<ImageSubheader, u32> {
    let [first, second, third] = [first, second, third].map(exact);
    let under =
        |edges| ImageSubheader::read(&first, &second, &third, bands, edges, &Widths::STANDARD).map_err(Refusal::number);
    let full = under(EdgeRule::Full);
    assert_eq!(under(EdgeRule::Tight), full.map(|full| with_rule(&full, EdgeRule::Tight)));
    full
}

/// The fields under another rule.
fn with_rule(subheader: &ImageSubheader, edges: EdgeRule) -> ImageSubheader {
    ImageSubheader { grid: Grid { edges, ..subheader.grid }, ..*subheader }
}

/// A part with other bytes from a place on.
fn with(part: &[u8], at: usize, bytes: &[u8]) -> Vec<u8> {
    let mut part = part.to_vec();
    part[at..at + bytes.len()].copy_from_slice(bytes);
    part
}

/// Reads parts of a picture of these sides, in so many blocks of these sides, as the fields stand.
fn sides(nrows: u32, ncols: u32, nbpr: u32, nbpc: u32, nppbh: &str, nppbv: &str) -> Result<(u32, u32), u32> {
    let first = format!("{nrows:08}{ncols:08}INTMONO    VIS     01R");
    let third = format!("B{nbpr:04}{nbpc:04}{nppbh}{nppbv}01");
    read(first.as_bytes(), b"NC", third.as_bytes(), 1).map(|read| (read.grid.nppbh, read.grid.nppbv))
}

#[test]
fn the_rule_is_given_and_not_written() {
    for edges in EdgeRule::ALL {
        let subheader =
            ImageSubheader::read(FIRST, SECOND, THIRD, 5, edges, &Widths::STANDARD).expect("the parts are accepted");
        assert_eq!(subheader, with_rule(&fields(), edges));
        let (first, second, third) = subheader.to_parts(&Widths::STANDARD).expect("the fields are accepted");
        assert_eq!((&first[..], &second[..], &third[..]), (FIRST, SECOND, THIRD));
    }
}

/// The number of a write into outputs of these lengths, which must be kept where it is refused.
fn written(subheader: &ImageSubheader, lengths: [usize; 3]) -> u32 {
    let [mut first, mut second, mut third] = lengths.map(|length| exact(&vec![0xAA; length]));
    match subheader.write(&Widths::STANDARD, &mut first, &mut second, &mut third) {
        Ok(()) => 0,
        Err(refusal) => {
            assert!([first, second, third].iter().flatten().all(|&byte| byte == 0xAA), "{refusal}, but it wrote");
            refusal.number()
        }
    }
}

#[test]
fn the_fields_are_read() {
    assert_eq!(read(FIRST, SECOND, THIRD, 5), Ok(fields()));
    let one = read(b"0000000100000001B                  00R", b"NC", b"S000100010001000101", 99_999);
    let grid = Grid::new(1, 1, 99_999, 1, InterleaveMode::S, EdgeRule::Full, 1, 1);
    let pvtype = PixelValueType::BiLevel;
    assert_eq!(one, Ok(ImageSubheader { pvtype, irep: *b"        ", icat: *b"        ", abpp: 0, ..subheader(grid) }));
}

#[test]
fn the_fields_are_written() {
    let (first, second, third) = fields().to_parts(&Widths::STANDARD).expect("the fields are accepted");
    assert_eq!((&first[..], &second[..], &third[..]), (FIRST, SECOND, THIRD));
    let grid = Grid::new(1, 1, 99_999, 1, InterleaveMode::S, EdgeRule::Full, 1, 1);
    let (first, second, third) =
        ImageSubheader { abpp: 0, ..subheader(grid) }.to_parts(&Widths::STANDARD).expect("it is accepted");
    assert_eq!((&first, &second), (b"0000000100000001INTMULTI   MS      00R", b"NC"));
    assert_eq!(&third, b"S000100010001000101");
}

/// What is written is read again as the same fields.
fn comes_back(subheader: &ImageSubheader) {
    let (first, second, third) = subheader.to_parts(&Widths::STANDARD).expect("the fields are accepted");
    assert_eq!(read(&first, &second, &third, subheader.grid.bands), Ok(*subheader));
}

#[test]
fn what_is_written_is_read_again() {
    for pvtype in PixelValueType::ALL {
        for pjust in PixelJustification::ALL {
            for ic in ImageCompression::ALL {
                comes_back(&ImageSubheader { pvtype, pjust, ic, ..fields() });
            }
        }
    }
    for imode in InterleaveMode::ALL {
        comes_back(&subheader(small(imode)));
    }
    for nbpp in WIDTHS {
        comes_back(&subheader(Grid { nbpp, ..small(InterleaveMode::R) }));
    }
    for abpp in 0..=99 {
        comes_back(&ImageSubheader { abpp, ..fields() });
    }
    for side in [1, 9, 10, 99, 100, 8_191, 8_192, 8_193, 9_999, 10_000, 99_999_999] {
        comes_back(&subheader(Grid::new(1, side, 1, 1, InterleaveMode::B, EdgeRule::Full, side, 1)));
        comes_back(&subheader(Grid::new(side, 1, 1, 1, InterleaveMode::B, EdgeRule::Full, 1, side)));
    }
    comes_back(&subheader(Grid::new(9_999, 1, 1, 8, InterleaveMode::B, EdgeRule::Full, 8_192, 1)));
    comes_back(&subheader(Grid::new(1, 81_911_808, 1, 8, InterleaveMode::B, EdgeRule::Full, 8_192, 1)));
}

#[test]
fn irep_and_icat_are_carried_unread() {
    for first in (0..=u8::MAX).step_by(8) {
        let irep: [u8; 8] = std::array::from_fn(|i| first + i as u8);
        let icat = irep.map(|byte| !byte);
        comes_back(&ImageSubheader { irep, icat, ..fields() });
        let part = with(&with(FIRST, 19, &irep), 27, &icat);
        assert_eq!(read(&part, SECOND, THIRD, 5), Ok(ImageSubheader { irep, icat, ..fields() }));
    }
}

#[test]
fn a_part_of_another_length_is_23() {
    for (index, length) in [38, 2, 19].into_iter().enumerate() {
        for other in [0, 1, length - 1, length + 1, length + 40] {
            let mut parts = [FIRST, SECOND, THIRD].map(<[u8]>::to_vec);
            parts[index].resize(other, b'0');
            let [first, second, third] = parts;
            assert_eq!(read(&first, &second, &third, 5), Err(23), "part {index} of {other} bytes");
        }
    }
}

#[test]
fn a_number_that_is_not_all_digits_is_23() {
    for other in [b' ', b'+', b'-', b'/', b':', b'A', 0, 0x80 | b'0', 255] {
        for at in (0..16).chain(35..37) {
            assert_eq!(read(&with(FIRST, at, &[other]), SECOND, THIRD, 5), Err(23), "byte {at} is {other}");
        }
        for at in 1..19 {
            assert_eq!(read(FIRST, SECOND, &with(THIRD, at, &[other]), 5), Err(23), "byte {at} is {other}");
        }
    }
}

#[test]
fn any_other_named_value_is_24() {
    for text in [" SI", "si ", "Si ", "SI\0", "SI_", "int", "INt", " R ", "  R", "RR ", "I  ", "   ", "\0\0\0", "B B"] {
        assert_eq!(read(&with(FIRST, 16, text.as_bytes()), SECOND, THIRD, 5), Err(24), "{text:?}");
    }
    for text in ["nc", "Nc", "N ", "CN", "C8", "M8", "  ", "\0\0", "NN", "IC"] {
        assert_eq!(read(FIRST, text.as_bytes(), THIRD, 5), Err(24), "{text:?}");
    }
    for byte in 0..=u8::MAX {
        let pjust = if b"RL".contains(&byte) { Ok(()) } else { Err(24) };
        assert_eq!(read(&with(FIRST, 37, &[byte]), SECOND, THIRD, 5).map(drop), pjust, "PJUST {byte}");
        let imode = if b"BPRS".contains(&byte) { Ok(()) } else { Err(24) };
        assert_eq!(read(FIRST, SECOND, &with(THIRD, 0, &[byte]), 5).map(drop), imode, "IMODE {byte}");
    }
}

#[test]
fn the_grid_of_the_parts_is_asked_1_to_4() {
    assert_eq!(read(&with(FIRST, 0, b"00000000"), SECOND, THIRD, 5), Err(1));
    assert_eq!(read(&with(FIRST, 8, b"00000000"), SECOND, THIRD, 5), Err(1));
    assert_eq!((read(FIRST, SECOND, THIRD, 0), read(FIRST, SECOND, THIRD, 100_000)), (Err(1), Err(1)));
    assert_eq!(read(FIRST, SECOND, THIRD, u32::MAX), Err(1));
    for bits in ["00", "17", "23", "33", "65", "99"] {
        assert_eq!(read(FIRST, SECOND, &with(THIRD, 17, bits.as_bytes()), 5), Err(2), "{bits}");
    }
    for (at, counts) in [(1, ["0000", "0006", "0008", "9999"]), (5, ["0000", "0003", "0005", "9999"])] {
        for count in counts {
            assert_eq!(read(FIRST, SECOND, &with(THIRD, at, count.as_bytes()), 5), Err(3), "{count}");
        }
    }
    assert_eq!(read(FIRST, SECOND, THIRD, 99_999).map(|read| read.grid.bands), Err(4));
    assert_eq!(sides(99_999_999, 99_999_999, 1, 1, "0000", "0000"), Err(4));
}

#[test]
fn the_reader_asks_in_order() {
    let (digit, named, limits) = (with(FIRST, 35, b" 8"), with(FIRST, 16, b"XXX"), with(FIRST, 0, b"00000000"));
    // 23 of any part comes before 24 of any other, and 24 before 1.
    assert_eq!(read(&named, SECOND, &THIRD[1..], 0), Err(23));
    assert_eq!(read(&named, b"N", THIRD, 5), Err(23));
    assert_eq!(read(&named, SECOND, &with(THIRD, 18, b"x"), 5), Err(23));
    assert_eq!(read(&digit, b"XX", &with(THIRD, 0, b"X"), 0), Err(23));
    assert_eq!(read(&limits, SECOND, &with(THIRD, 0, b"X"), 5), Err(24));
    assert_eq!(read(&limits, b"XX", THIRD, 0), Err(24));
    assert_eq!(read(&with(FIRST, 37, b"X"), SECOND, &with(THIRD, 17, b"17"), 0), Err(24));
    // Then 1, 2, 3, 4.
    let third = with(&with(THIRD, 17, b"17"), 1, b"0001");
    assert_eq!(read(FIRST, SECOND, &third, 100_000), Err(1));
    assert_eq!(read(FIRST, SECOND, &third, 99_999), Err(2));
    assert_eq!(read(FIRST, SECOND, &with(&third, 17, b"64"), 99_999), Err(3));
    assert_eq!(read(FIRST, SECOND, &with(THIRD, 17, b"64"), 99_999), Err(4));
}

#[test]
fn a_zero_side_is_the_pictures_where_there_is_one_block() {
    assert_eq!(sides(2, 9_000, 1, 1, "0000", "0002"), Ok((9_000, 2)));
    assert_eq!(sides(9_000, 2, 1, 1, "0002", "0000"), Ok((2, 9_000)));
    assert_eq!(sides(8_193, 9_001, 1, 1, "0000", "0000"), Ok((9_001, 8_193)));
    // At any size of the picture.
    assert_eq!(sides(7, 5, 1, 1, "0000", "0000"), Ok((5, 7)));
    assert_eq!(sides(7, 8_192, 1, 1, "0000", "0004"), Err(3));
    assert_eq!(sides(7, 8_192, 1, 2, "0000", "0004"), Ok((8_192, 4)));
    // With another count of blocks the zero stays. The other count is not looked at.
    assert_eq!(sides(2, 9_000, 2, 1, "0000", "0002"), Err(1));
    assert_eq!(sides(2, 9_000, 0, 1, "0000", "0002"), Err(1));
    assert_eq!(sides(9_000, 2, 1, 2, "0002", "0000"), Err(1));
    assert_eq!(sides(9_000, 2, 1, 0, "0002", "0000"), Err(1));
}

#[test]
fn a_side_above_8_192_may_stand_as_it_is() {
    assert_eq!(sides(2, 9_000, 1, 1, "9000", "0002"), Ok((9_000, 2)));
    assert_eq!(sides(9_999, 2, 1, 1, "0002", "9999"), Ok((2, 9_999)));
    assert_eq!(sides(2, 9_000, 2, 1, "9000", "0002"), Err(3));
    assert_eq!(sides(2, 9_001, 1, 1, "9000", "0002"), Err(1));
    assert_eq!(sides(2, 8_999, 1, 1, "9000", "0002"), Err(1));
    // Never crosswise.
    assert_eq!(sides(9_000, 2, 1, 1, "9000", "0000"), Err(1));
    assert_eq!(sides(2, 9_000, 1, 1, "0000", "9000"), Err(1));
}

#[test]
fn a_side_above_8_192_is_written_as_zeros() {
    for (side, field) in [(100, "0100"), (8_191, "8191"), (8_192, "8192"), (8_193, "0000"), (9_000, "0000")] {
        let wide = Grid::new(2, side, 1, 8, InterleaveMode::B, EdgeRule::Full, side, 2);
        let (_, _, third) = subheader(wide).to_parts(&Widths::STANDARD).expect("the grid is accepted");
        assert_eq!(third, format!("B00010001{field}000208").as_bytes());
        let tall = Grid::new(side, 2, 1, 8, InterleaveMode::B, EdgeRule::Full, 2, side);
        let (_, _, third) = subheader(tall).to_parts(&Widths::STANDARD).expect("the grid is accepted");
        assert_eq!(third, format!("B000100010002{field}08").as_bytes());
    }
    // A block that is wider than the picture, and not above 8,192.
    let (first, _, third) = subheader(Grid::new(2, 3, 1, 8, InterleaveMode::B, EdgeRule::Full, 8_192, 8_192))
        .to_parts(&Widths::STANDARD)
        .expect("it is accepted");
    assert_eq!((&first[..16], &third), (&b"0000000200000003"[..], b"B000100018192819208"));
}

#[test]
fn what_stands_as_zeros_may_be_written_otherwise() {
    let first = b"0000000700000005INTMONO    VIS     08R";
    let subheader = read(first, b"NC", b"B000100010000000008", 1).expect("the parts are accepted");
    let (again, _, third) = subheader.to_parts(&Widths::STANDARD).expect("the fields are accepted");
    assert_eq!((&again, &third), (first, b"B000100010005000708"));
}

#[test]
fn the_writer_refuses() {
    let exactly = [38, 2, 19];
    for (grid, number) in refused_grids() {
        assert_eq!(written(&subheader(grid), exactly), number);
        assert_eq!(subheader(grid).to_parts(&Widths::STANDARD).map_err(Refusal::number), Err(number));
    }
    for abpp in [100, 255, 256, 1_000, u32::MAX] {
        assert_eq!(written(&ImageSubheader { abpp, ..fields() }, exactly), 24);
    }
    let crosswise = Grid { nppbh: 9_000, nrows: 9_000, ..small(InterleaveMode::B) };
    assert_eq!(written(&subheader(crosswise), exactly), 1);
    let lengths = [[37, 2, 19], [38, 1, 19], [38, 2, 18], [0, 2, 19], [38, 0, 19], [38, 2, 0], [0, 0, 0], [37, 40, 40]];
    for lengths in lengths {
        assert_eq!(written(&fields(), lengths), 9, "{lengths:?}");
    }
    assert_eq!(written(&fields(), exactly), 0);
}

#[test]
fn the_writer_asks_in_order() {
    for (grid, number) in refused_grids() {
        assert_eq!(written(&ImageSubheader { abpp: 100, ..subheader(grid) }, [0; 3]), 24);
        assert_eq!(written(&subheader(grid), [0; 3]), number);
    }
    assert_eq!(written(&ImageSubheader { abpp: 100, ..fields() }, [0; 3]), 24);
    assert_eq!(written(&fields(), [0; 3]), 9);
}

#[test]
fn longer_outputs_keep_their_rest() {
    let [mut first, mut second, mut third] = [40, 7, 20].map(|length| exact(&vec![0xAA; length]));
    assert_eq!(fields().write(&Widths::STANDARD, &mut first, &mut second, &mut third), Ok(()));
    assert_eq!(*first, [FIRST, &[0xAA; 2]].concat());
    assert_eq!(*second, [SECOND, &[0xAA; 5]].concat());
    assert_eq!(*third, [THIRD, &[0xAA; 1]].concat());
}

/// Each value's text is the field's, and no other text is a value's.
fn texts<T>(values: &[T], names: &[&str])
where
    T: FromStr<Err = Refusal> + ToString + PartialEq + std::fmt::Debug + Copy,
{
    assert_eq!(values.iter().map(T::to_string).collect::<Vec<_>>(), names);
    assert!(names.iter().zip(values).all(|(name, value)| name.parse() == Ok(*value)));
    for text in ["", " ", "int", "INT ", "SI", "R", "C", "RL", "B", "nc", "NC ", "é", "Right", "X"] {
        if !names.contains(&text) {
            assert_eq!(text.parse::<T>(), Err(Refusal::NamedValue), "{text:?}");
        }
    }
}

#[test]
fn named_values_and_their_texts() {
    texts(&PixelValueType::ALL, &["INT", "SI ", "R  ", "C  ", "B  "]);
    texts(&PixelJustification::ALL, &["R", "L"]);
    texts(&ImageCompression::ALL, &["NC", "NM"]);
    for pvtype in PixelValueType::ALL {
        assert_eq!(pvtype.to_bytes(), pvtype.to_string().as_bytes());
        assert_eq!(PixelValueType::from_bytes(&pvtype.to_bytes()), Ok(pvtype));
    }
    for pjust in PixelJustification::ALL {
        assert_eq!([pjust.letter()], pjust.to_string().as_bytes());
        assert_eq!(PixelJustification::from_letter(pjust.letter()), Ok(pjust));
    }
    for ic in ImageCompression::ALL {
        assert_eq!(ic.to_bytes(), ic.to_string().as_bytes());
        assert_eq!(ImageCompression::from_bytes(&ic.to_bytes()), Ok(ic));
    }
}
