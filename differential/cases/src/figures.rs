//! Document 01's figures as cases with the answers that it gives, and that document 02 gives to figure k's last sample
//! and to figure m under the edge rule full.

use crate::{Answer, Call, Case, Edges, Grid, Header, Mode};

/// A figure's letter, its case and the documents' answer.
pub struct Figure {
    pub letter: char,
    pub case: Case,
    pub answer: Answer,
}

impl Figure {
    /// Is it on the compared domain? Not with an empty list of bands, a sample with a bit above NBPP, or the rule full.
    pub fn is_compared(&self) -> bool {
        let full = self.case.grid().is_some_and(|grid| grid.edges == Edges::Full);
        self.letter != 'j' && !self.answer.values.contains(&26) && !full
    }
}

/// Picture 3 x 5, blocks 2 x 4, 2 bands, NBPP 8.
fn grid(mode: Mode) -> Grid {
    Grid::new([3, 5], 2, 8, mode, [2, 4])
}

/// A read on an image whose bytes are their own places.
fn read(mode: Mode, length: u8, (row, column): (u32, u32), bands: Option<Vec<u32>>) -> Case {
    Case::Read { grid: grid(mode), image: (0..length).collect(), row, column, level: 0, bands }
}

fn samples(shape: [u64; 3], bytes: &[u8]) -> Answer {
    Answer { number: 0, values: shape.to_vec(), bytes: bytes.to_vec() }
}

/// One write of one band to one block, and the image and marks after it.
fn write(grid: Grid, block: (u32, u32), [rows, columns]: [u32; 2], data: &[u8], image: &[u8]) -> (Case, Answer) {
    let (row, column) = block;
    let call = Call::Write { row, column, shape: [1, rows, columns], data: data.to_vec() };
    let mark = 1u64 << (row * grid.nbpr + column);
    let bytes = [image, &mark.to_be_bytes()].concat();
    (Case::Frame { grid, calls: vec![call] }, Answer { number: 0, values: vec![0; 3], bytes })
}

/// A write of one sample with a bit above NBPP, after which image and marks are as a start leaves them.
fn refused_write(grid: Grid, data: &[u8]) -> (Case, Answer) {
    let (case, accepted) = write(grid, (0, 0), [1, 1], data, &vec![0; data.len()]);
    let bytes = vec![0; accepted.bytes.len()];
    (case, Answer { number: 0, values: vec![26, 0, 0], bytes })
}

pub fn figures() -> Vec<Figure> {
    let mut list = Vec::new();
    let mut add = |letter, (case, answer)| list.push(Figure { letter, case, answer });
    let pair = [2, 1, 1];
    add('a', (read(Mode::B, 64, (1, 1), None), samples(pair, &[48, 56])));
    add('b', (read(Mode::P, 64, (1, 1), None), samples(pair, &[48, 49])));
    add('c', (read(Mode::R, 64, (1, 1), None), samples(pair, &[48, 52])));
    add('d', (read(Mode::S, 64, (1, 1), None), samples(pair, &[24, 56])));
    add('e', (read(Mode::P, 50, (1, 1), None), samples(pair, &[48, 49])));
    add('f', (read(Mode::P, 49, (1, 1), None), Answer::refused(7)));
    add('g', (read(Mode::B, 64, (2, 0), None), Answer::refused(6)));
    add('h', (read(Mode::B, 64, (1, 1), Some(vec![1, 1])), samples(pair, &[56, 56])));
    add('i', (read(Mode::B, 64, (1, 1), Some(vec![2])), Answer::refused(8)));
    add('j', (read(Mode::B, 64, (1, 1), Some(vec![])), samples([0, 1, 1], &[])));

    let twelve = Grid::new([1, 3], 1, 12, Mode::B, [1, 3]);
    let packed = [0x12, 0x34, 0x56, 0x78, 0x90];
    let row = [0x01, 0x23, 0x04, 0x56, 0x07, 0x89];
    add('k', write(twelve, (0, 0), [1, 3], &row, &packed));
    add('k', refused_write(Grid::new([1, 1], 1, 12, Mode::B, [1, 1]), &[0xf1, 0x23]));
    let one = Grid::new([1, 10], 1, 1, Mode::B, [1, 10]);
    add('l', write(one, (0, 0), [1, 10], &[1, 0, 1, 1, 0, 0, 0, 1, 1, 1], &[0xb1, 0xc0]));
    let four = Grid::new([2, 3], 1, 4, Mode::B, [2, 2]);
    add('m', write(four, (0, 1), [2, 1], &[5, 9], &[0, 0, 0x59, 0]));
    let full = Grid { edges: Edges::Full, ..four };
    add('m', write(full, (0, 1), [2, 1], &[5, 9], &[0, 0, 0x50, 0x90]));

    let header = Header { block_length: 4, ..Header::default() };
    let two_blocks = Grid::new([1, 2], 1, 8, Mode::B, [1, 1]);
    let mut table = vec![0, 0, 0, 0x12, 0, 4, 0, 0, 0, 0];
    table.extend([0, 0, 0, 0, 0xff, 0xff, 0xff, 0xff]);
    add(
        'n',
        (
            Case::MaskWrite { grid: two_blocks, header, blocks: vec![0, u32::MAX], pads: vec![] },
            Answer { number: 0, values: vec![], bytes: table },
        ),
    );
    list
}
