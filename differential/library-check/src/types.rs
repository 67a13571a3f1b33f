//! PVTYPE, PJUST and IMODE: the subheader's reader and writer beside the original's `types.rs`.

use std::fmt::Debug;

use cases::{Compression, Edges, Grid, Justification, Mode, PixelValue, Subheader};
use gezdunar::Widths;
use original::Refusal;

use crate::subheader;

/// Both sides in words, where they differ otherwise than by a refusal with 24.
type Outcome = Result<(), String>;

/// How many values of a field both sides read, the original alone, or neither.
#[derive(Default)]
struct Taken {
    both: u32,
    original: u32,
    neither: u32,
}

impl Taken {
    /// One value of a field.
    fn add<T: Debug + PartialEq>(&mut self, field: &[u8], original: Option<T>, library: Result<T, u8>) -> Outcome {
        match (original, library) {
            (Some(original), Ok(library)) if original == library => self.both += 1,
            (Some(_), Err(24)) => self.original += 1,
            (None, Err(24)) => self.neither += 1,
            (original, library) => {
                return Err(format!("a difference: {field:?}\nthe original: {original:?}\nthe library: {library:?}"));
            }
        }
        Ok(())
    }

    fn print(&self, name: &str) {
        let Taken { both, original, neither } = self;
        println!("{name}: {both} read by both, {original} by the original alone, {neither} by neither");
    }
}

/// One sample of 8 bits.
fn plain() -> [Vec<u8>; 3] {
    [&b"0000000100000001INTMONO    VIS     08R"[..], b"NC", b"B000100010001000108"].map(<[u8]>::to_vec)
}

/// The field at a place in a part, read by the library with its value there.
fn read(parts: &mut [Vec<u8>; 3], part: usize, at: usize, field: &[u8]) -> Result<Subheader, u8> {
    parts[part][at..at + field.len()].copy_from_slice(field);
    subheader::read([&parts[0], &parts[1], &parts[2]], 1, Edges::Tight, &Widths::STANDARD)
}

/// Every three bytes. Those that are no UTF-8 cannot be handed to the original, so that it does not read them.
fn pvtypes() -> Outcome {
    let (mut taken, mut parts) = (Taken::default(), plain());
    for bits in 0..1_u32 << 24 {
        let field = &bits.to_be_bytes()[1..];
        let original = std::str::from_utf8(field).ok().and_then(|text| original::pixel_value(text).ok());
        let library = read(&mut parts, 0, 16, field).map(|subheader| subheader.pvtype);
        taken.add(field, original, library)?;
    }
    taken.print("PVTYPE of every three bytes");
    Ok(())
}

/// Every byte of a field of one letter.
fn letters<T: Debug + PartialEq>(
    name: &str,
    (part, at): (usize, usize),
    original: fn(char) -> Result<T, Refusal>,
    value: fn(Subheader) -> T,
) -> Outcome {
    let (mut taken, mut parts) = (Taken::default(), plain());
    for byte in 0..=255_u8 {
        let library = read(&mut parts, part, at, &[byte]).map(value);
        taken.add(&[byte], original(char::from(byte)).ok(), library)?;
    }
    taken.print(&format!("{name} of every byte"));
    Ok(())
}

/// Every value, written.
fn written() -> Outcome {
    let mut count = 0;
    for pvtype in PixelValue::ALL {
        for pjust in Justification::ALL {
            for mode in Mode::ALL {
                let grid = Grid::new([1, 1], 1, 8, mode, [1, 1]);
                let (irep, icat) = (*b"MONO    ", *b"VIS     ");
                let subheader = Subheader { pvtype, irep, icat, abpp: 8, pjust, ic: Compression::Nc, grid };
                let mut parts = plain();
                let number = subheader::write(&subheader, &Widths::STANDARD, &mut parts);
                let library = (&parts[0][16..19], parts[0][37], parts[2][0]);
                let letters = [original::justification_letter(pjust), original::mode_letter(mode)].map(|c| c as u8);
                let original = (original::pixel_value_text(pvtype).as_bytes(), letters[0], letters[1]);
                if number != 0 || library != original {
                    return Err(format!("a difference: {subheader:?}\nthe library: {number}, {parts:?}"));
                }
                count += 1;
            }
        }
    }
    println!("PVTYPE, PJUST and IMODE: {count} written as the original does");
    Ok(())
}

pub fn compare() -> Outcome {
    pvtypes()?;
    letters("PJUST", (0, 37), original::justification, |subheader| subheader.pjust)?;
    letters("IMODE", (2, 0), original::mode, |subheader| subheader.grid.mode)?;
    written()
}
