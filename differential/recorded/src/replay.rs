//! Replays a file of records against the model: the program that FORMAT.md describes, without a heap.

use cases::model::{frame, layout, mask, questions, read, reorder};
use cases::{Area, Edges, Grid, Header, Mode, Pack, Widths};

use crate::record::{Ask, BYTES, HEADER, WORDS};

/// Most words of marks.
const MARKS: usize = 2;

/// A place in the file.
struct Reader<'a> {
    bytes: &'a [u8],
}

impl<'a> Reader<'a> {
    fn bytes(&mut self, count: usize) -> &'a [u8] {
        let (bytes, rest) = self.bytes.split_at(count);
        self.bytes = rest;
        bytes
    }

    fn word(&mut self) -> u32 {
        self.bytes(4).iter().fold(0, |word, &byte| word << 8 | u32::from(byte))
    }

    /// A length and as many bytes.
    fn string(&mut self) -> &'a [u8] {
        let length = self.word() as usize;
        self.bytes(length)
    }

    /// A count and as many words.
    fn words(&mut self) -> Words<'a> {
        let count = self.word() as usize;
        Words(self.bytes(4 * count))
    }
}

/// Words in the file.
#[derive(Clone, Copy)]
struct Words<'a>(&'a [u8]);

impl Words<'_> {
    fn len(&self) -> usize {
        self.0.len() / 4
    }

    fn at(&self, i: usize) -> u32 {
        Reader { bytes: &self.0[4 * i..] }.word()
    }

    /// Words from `first` on, in `room`.
    fn copied<'r>(&self, first: usize, count: usize, room: &'r mut [u32; WORDS]) -> &'r [u32] {
        for (i, word) in room[..count].iter_mut().enumerate() {
            *word = self.at(first + i);
        }
        &room[..count]
    }

    /// The bands asked for: a 0, or a 1 and the list.
    fn list<'r>(&self, first: usize, room: &'r mut [u32; WORDS]) -> Option<&'r [u32]> {
        let count = self.len() - first - 1;
        (self.at(first) == 1).then(|| self.copied(first + 1, count, room))
    }
}

/// The image and the marks that a start made and later calls change.
struct Frame {
    image: [u8; BYTES],
    marks: [u64; MARKS],
}

/// The answer of a call.
struct Given<'a> {
    number: u8,
    values: [u64; 6],
    count: usize,
    bytes: &'a [u8],
}

impl<'a> Given<'a> {
    /// Values and bytes go with an accepted call, and values with 15.
    fn new(number: u8, values: &[u64], bytes: &'a [u8]) -> Given<'a> {
        let mut given = Given { number, values: [0; 6], count: 0, bytes: &[] };
        if number == 0 || number == 15 {
            given.values[..values.len()].copy_from_slice(values);
            given.count = values.len();
            given.bytes = bytes;
        }
        given
    }
}

/// The original is tight.
fn grid(from: &mut Reader) -> Grid {
    let words: [u32; 9] = std::array::from_fn(|_| from.word());
    let [nrows, ncols, bands, nbpp, letter, nppbh, nppbv, nbpr, nbpc] = words;
    let mode = Mode::from_letter(letter as u8).expect("B, P, R or S");
    Grid { nrows, ncols, bands, nbpp, mode, edges: Edges::Tight, nppbh, nppbv, nbpr, nbpc }
}

/// Replays all records. Gives their counts by kind, or the first record that does not hold.
pub fn replay(file: &[u8]) -> Result<[u32; 17], u32> {
    let mut from = Reader { bytes: file };
    assert_eq!(from.bytes(4), HEADER, "a file of records");
    let count = from.word();
    let mut counts = [0; 17];
    let mut held = Frame { image: [0xa5; BYTES], marks: [u64::MAX; MARKS] };
    for i in 0..count {
        let mut record = Reader { bytes: from.string() };
        let kind = record.word();
        let ask = Ask::ALL.into_iter().find(|&ask| ask as u32 == kind).ok_or(i)?;
        let grid = grid(&mut record);
        let (arguments, input) = (record.words(), record.string());
        let (number, values, output) = (record.word(), record.words(), record.string());
        assert!(record.bytes.is_empty(), "the record ends with its output");
        let mut out = [0xa5; BYTES];
        let given = call(ask, &grid, arguments, input, &mut held, &mut out);
        let same_values =
            given.count == values.len() && (0..values.len()).all(|i| given.values[i] == u64::from(values.at(i)));
        if u32::from(given.number) != number || !same_values || given.bytes != output {
            return Err(i);
        }
        counts[kind as usize] += 1;
    }
    assert!(from.bytes.is_empty(), "the file ends with its last record");
    Ok(counts)
}

fn call<'a>(ask: Ask, g: &Grid, a: Words, input: &'a [u8], held: &mut Frame, out: &'a mut [u8; BYTES]) -> Given<'a> {
    let mut room = [0; WORDS];
    let mut more_room = [0; WORDS];
    let bands = |list: Option<&[u32]>, all: u32| list.map_or(all as usize, <[u32]>::len);
    let image_bytes = layout::image_bytes(g) as usize;
    match ask {
        Ask::Read => {
            let (block, list) = ((a.at(0), a.at(1)), a.list(3, &mut room));
            let (number, shape) = read::block(g, &Widths::STANDARD, input, block, a.at(2), list, out);
            let pixels = (shape[0] * shape[1] * shape[2]) as usize;
            Given::new(number, &shape, &out[..pixels * layout::sample_bytes(g) as usize])
        }
        Ask::Whole => {
            let (number, part) = read::whole(g, &Widths::STANDARD, input, (a.at(0), a.at(1)));
            Given::new(number, &[], part)
        }
        Ask::Window => {
            let area = Area { top: a.at(0), left: a.at(1), rows: a.at(2), columns: a.at(3) };
            let list = a.list(4, &mut room);
            let number = read::window(g, &Widths::STANDARD, input, area, list, out);
            let pixels = bands(list, g.bands) * (area.rows * area.columns) as usize;
            Given::new(number, &[], &out[..pixels * layout::sample_bytes(g) as usize])
        }
        Ask::Start => Given::new(frame::start(g, &Widths::STANDARD, &mut held.image, &mut held.marks), &[], &[]),
        Ask::Write => {
            let (block, shape) = ((a.at(0), a.at(1)), [a.at(2), a.at(3), a.at(4)]);
            let number = frame::write(g, &Widths::STANDARD, &mut held.image, &mut held.marks, block, shape, input);
            Given::new(number, &[], &[])
        }
        Ask::Skip => {
            let block = (a.at(0), a.at(1));
            Given::new(frame::skip(g, &Widths::STANDARD, &held.image, &mut held.marks, block), &[], &[])
        }
        Ask::Progress => {
            let (number, count) = frame::progress(g, &Widths::STANDARD, &held.marks);
            Given::new(number, &[count], &[])
        }
        Ask::Finish => {
            let (number, row, column) = frame::finish(g, &Widths::STANDARD, &held.image, &held.marks);
            Given::new(number, &[u64::from(row), u64::from(column)], &[])
        }
        Ask::Contents => {
            out[..image_bytes].copy_from_slice(&held.image[..image_bytes]);
            let words = questions::mark_words(g) as usize;
            for (i, word) in held.marks[..words].iter().enumerate() {
                let at = image_bytes + 8 * i;
                out[at..at + 8].copy_from_slice(&word.to_be_bytes());
            }
            Given::new(0, &[], &out[..image_bytes + 8 * words])
        }
        Ask::Parse => {
            let (number, h, used) = mask::parse(g, &Widths::STANDARD, input);
            let [block, pad, bits] = [h.block_length, h.pad_length, h.code_bits].map(u64::from);
            let (offset, code) = (u64::from(h.imdatoff), u64::from(h.code));
            Given::new(number, &[offset, block, pad, bits, code, used], &[])
        }
        Ask::MaskWrite => {
            let header = Header {
                imdatoff: 0,
                block_length: a.at(0) as u16,
                pad_length: a.at(1) as u16,
                code_bits: a.at(2) as u16,
                code: a.at(3),
            };
            let count = a.at(4) as usize;
            let blocks = a.copied(5, count, &mut room);
            let pads = a.copied(5 + count, a.len() - 5 - count, &mut more_room);
            let (number, size) = mask::write(g, &Widths::STANDARD, &header, blocks, pads, out);
            Given::new(number, &[], &out[..size as usize])
        }
        Ask::Lookup => {
            let (number, present, offset) = mask::lookup(g, &Widths::STANDARD, input, (a.at(0), a.at(1)), a.at(2));
            let known = u64::from(offset.is_some());
            let values = [u64::from(present), known, u64::from(offset.unwrap_or(0))];
            Given::new(number, &values, &[])
        }
        Ask::FromMarks => {
            let mut marks = [0; MARKS];
            for (word, bytes) in marks.iter_mut().zip(input.chunks_exact(8)) {
                *word = bytes.iter().fold(0, |word, &byte| word << 8 | u64::from(byte));
            }
            let (number, h) = mask::from_marks(g, &Widths::STANDARD, &marks, &mut room);
            let count = mask::records(g) as usize;
            for (bytes, word) in out.chunks_exact_mut(4).zip(&room[..count]) {
                bytes.copy_from_slice(&word.to_be_bytes());
            }
            let lengths = [h.block_length, h.pad_length, h.code_bits].map(u64::from);
            Given::new(number, &lengths, &out[..4 * count])
        }
        Ask::ToSequential | Ask::FromSequential | Ask::Select => {
            let pack = Pack { mode: g.mode, rows: a.at(0), columns: a.at(1), bands: a.at(2), size: a.at(3) };
            let list = if ask == Ask::Select { a.list(4, &mut room) } else { None };
            let pixels = bands(list, pack.bands) * (pack.rows * pack.columns) as usize;
            let number = match ask {
                Ask::ToSequential => reorder::to_sequential(&pack, input, out),
                Ask::FromSequential => reorder::from_sequential(&pack, input, out),
                _ => reorder::select(&pack, input, list, out),
            };
            Given::new(number, &[], &out[..pixels * pack.size as usize])
        }
    }
}
