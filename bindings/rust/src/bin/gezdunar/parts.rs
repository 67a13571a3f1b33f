//! Three parts of an image subheader, from their options.

use crate::arguments::{missing_one, offsets, optional, Given, Known};
use crate::failure::Failure;
use crate::files;
use crate::widths::Table;
use gezdunar::{
    EdgeRule, ImageCompression, ImageSubheader, InterleaveMode, PixelJustification, PixelValueType, Refusal,
};
use std::ffi::OsStr;
use std::str::{self, FromStr};

/// The names of the options.
pub const NAMES: [&str; 3] = ["--parts", "--part-offsets", "--parts-file"];

/// The options of the parts.
pub const OPTIONS: [Known; 3] =
    [optional("--parts").or(&["--part-offsets", "--parts-file"]), optional("--part-offsets"), optional("--parts-file")];

/// What help says of the parts.
pub const HELP: &str = "\
parts of an image subheader:
  --parts A,B,C       the three parts in hexadecimal, with commas between:
                      A  NROWS to PJUST, 38 bytes
                      B  IC, 2 bytes
                      C  IMODE to NBPP, 19 bytes
  --part-offsets A,B,C
                      where the three parts begin in a file, in bytes from its
                      start; in a NITF 2.1 file the first begins 333 bytes after
                      the image subheader does
  --parts-file FILE   the file of these offsets; if not given, the file that
                      holds the image or the mask table; info, pack and
                      subheader read neither and need it
  The parts hold neither the count of bands nor the edge rule. An NPPBH of 0000
  with NBPR 1 stands for all columns, an NPPBV of 0000 with NBPC 1 for all rows.
  Parts that are not accepted are refused with 23 or 24, their grid with 1, 2, 3
  or 4. With IC NM the picture is masked: info, mask and subheader take such
  parts, and block, window and pack do not.
";

/// The lengths that the library takes.
const LENGTHS: [usize; 3] = [ImageSubheader::FIRST_BYTES, ImageSubheader::SECOND_BYTES, ImageSubheader::THIRD_BYTES];

/// A field of the parts.
#[derive(Debug)]
pub struct Field {
    name: &'static str,
    part: usize,
    start: usize,
    length: usize,
    /// Are these bytes what it may hold?
    may_hold: fn(&[u8]) -> bool,
}

const fn number(name: &'static str, part: usize, start: usize, length: usize) -> Field {
    Field { name, part, start, length, may_hold: |bytes| bytes.iter().all(u8::is_ascii_digit) }
}

const fn named<T: FromStr>(name: &'static str, part: usize, start: usize, length: usize) -> Field {
    let may_hold = |bytes: &[u8]| str::from_utf8(bytes).is_ok_and(|text| text.parse::<T>().is_ok());
    Field { name, part, start, length, may_hold }
}

/// NPPBH.
pub const NPPBH: Field = number("NPPBH", 2, 9, 4);
/// NPPBV.
pub const NPPBV: Field = number("NPPBV", 2, 13, 4);
const NROWS: Field = number("NROWS", 0, 0, 8);
const NCOLS: Field = number("NCOLS", 0, 8, 8);
const ABPP: Field = number("ABPP", 0, 35, 2);
const NBPR: Field = number("NBPR", 2, 1, 4);
const NBPC: Field = number("NBPC", 2, 5, 4);
const NBPP: Field = number("NBPP", 2, 17, 2);
const PVTYPE: Field = named::<PixelValueType>("PVTYPE", 0, 16, 3);
const PJUST: Field = named::<PixelJustification>("PJUST", 0, 37, 1);
const IC: Field = named::<ImageCompression>("IC", 1, 0, 2);
const IMODE: Field = named::<InterleaveMode>("IMODE", 2, 0, 1);

/// Three parts, and where they are from.
#[derive(Debug)]
pub struct Parts {
    source: String,
    bytes: [Vec<u8>; 3],
}

impl Parts {
    /// The parts that the options give.
    pub fn new(given: &Given) -> Result<Parts, Failure> {
        match given.value("--parts") {
            Some(text) => in_hexadecimal(text),
            None if given.has("--part-offsets") || given.has("--parts-file") => in_file(given),
            None => Err(Failure::Arguments("--parts or --part-offsets is missing".to_owned())),
        }
    }

    /// The fields, for a picture of so many bands under an edge rule, with a width table.
    pub fn subheader(&self, bands: u32, edges: EdgeRule, table: &Table) -> Result<ImageSubheader, Failure> {
        let [first, second, third] = &self.bytes;
        ImageSubheader::read(first, second, third, bands, edges, &table.widths).map_err(|refusal| {
            let nbpp = self.text(&NBPP).parse().unwrap_or(0);
            let facts = self.facts(refusal, bands) + &table.facts(refusal, nbpp);
            Failure::Refused(refusal, format!("{}{facts}", self.source))
        })
    }

    /// A block's side as it is meant, and that it stands as zero where it does.
    pub fn side(&self, field: &Field, side: u32) -> String {
        if self.held(field).iter().all(|byte| *byte == b'0') {
            format!("{side}, which stands as {}", self.text(field))
        } else {
            side.to_string()
        }
    }

    /// The facts that a refusal was decided on.
    fn facts(&self, refusal: Refusal, bands: u32) -> String {
        let [first, second, third] = self.bytes.each_ref().map(Vec::len);
        match refusal {
            Refusal::SubheaderPart if [first, second, third] != LENGTHS => {
                format!(" have {first}, {second} and {third} bytes; they take 38, 2 and 19")
            }
            Refusal::SubheaderPart => self.wrong(&[NROWS, NCOLS, ABPP, NBPR, NBPC, NPPBH, NPPBV, NBPP]),
            Refusal::NamedValue => self.wrong(&[PVTYPE, PJUST, IC, IMODE]),
            _ => {
                let fields = [NROWS, NCOLS, NBPP, IMODE, NPPBH, NPPBV, NBPR, NBPC];
                let fields = fields.map(|field| format!("{} {}", field.name, self.text(&field)));
                format!(": {}, bands {bands}", fields.join(", "))
            }
        }
    }

    /// The fields that hold what they may not, and what they hold.
    fn wrong(&self, fields: &[Field]) -> String {
        let wrong = fields.iter().filter(|field| !(field.may_hold)(self.held(field)));
        let told = wrong.map(|field| format!("{} holds '{}'", field.name, self.text(field)));
        format!(": {}", told.collect::<Vec<String>>().join(", "))
    }

    /// The bytes that stand in a field; none where its part is too short.
    fn held(&self, field: &Field) -> &[u8] {
        self.bytes[field.part].get(field.start..field.start + field.length).unwrap_or_default()
    }

    fn text(&self, field: &Field) -> String {
        self.held(field).escape_ascii().to_string()
    }
}

/// The parts that are written out.
fn in_hexadecimal(text: &OsStr) -> Result<Parts, Failure> {
    let text = text.to_string_lossy();
    let texts: Vec<&str> = text.split(',').collect();
    let [first, second, third] = texts[..] else {
        let what = format!("--parts takes three parts with commas between, not {}", texts.len());
        return Err(Failure::Arguments(what));
    };
    let bytes = [bytes_of("first", first)?, bytes_of("second", second)?, bytes_of("third", third)?];
    Ok(Parts { source: "the parts".to_owned(), bytes })
}

/// The bytes of a part that is written out.
fn bytes_of(part: &str, text: &str) -> Result<Vec<u8>, Failure> {
    let wrong = |what: String| Failure::Arguments(format!("--parts: the {part} part {what}"));
    if let Some(other) = text.chars().find(|letter| !letter.is_ascii_hexdigit()) {
        return Err(wrong(format!("has '{other}', which is no hexadecimal digit")));
    }
    if !text.len().is_multiple_of(2) {
        return Err(wrong(format!("has {} hexadecimal digits; a byte has two", text.len())));
    }
    let digit = |letter: &u8| char::from(*letter).to_digit(16).map_or(0, |digit| digit as u8);
    let byte = |pair: &[u8]| pair.iter().fold(0, |byte, letter| byte << 4 | digit(letter));
    Ok(text.as_bytes().chunks_exact(2).map(byte).collect())
}

/// The parts that stand in a file, each as far as the file goes.
fn in_file(given: &Given) -> Result<Parts, Failure> {
    let [first, second, third] = offsets("--part-offsets", given.needed("--part-offsets")?)?;
    let files = given.files(&["--parts-file", "--image", "--table"]);
    let path = files.first().ok_or_else(|| missing_one("--parts-file"))?;
    let read = |offset, part: usize| files::read(path, offset, LENGTHS[part] as u64);
    let bytes = [read(first, 0)?, read(second, 1)?, read(third, 2)?];
    Ok(Parts { source: format!("the parts of {} at bytes {first}, {second} and {third}", path.display()), bytes })
}
