//! Buffers at chosen places of a memory page. Where source and output start at the same place of a page, loads wait for
//! stores, so sources start some hundreds of bytes after outputs on every side.

use std::hint::black_box;

use original::owned_buffer::OwnedBuffer;

const PAGE: usize = 4096;
/// Where a large `Vec` starts: the original's answers can't be put elsewhere.
const OUTPUT: usize = 16;
const SOURCE: usize = OUTPUT + 704;

/// A vector, and where in it a part of `length` bytes starts at `place` of a page. Every page of it is touched.
fn placed(length: usize, place: usize) -> (Vec<u8>, usize) {
    let mut bytes = vec![0; length + PAGE];
    bytes.iter_mut().step_by(PAGE).for_each(|byte| *byte = 1);
    let start = (PAGE + place - bytes.as_ptr() as usize % PAGE) % PAGE;
    bytes[start..start + length].fill(0);
    (bytes, start)
}

/// An output of zeros.
pub struct Output {
    bytes: Vec<u8>,
    start: usize,
    length: usize,
}

impl Output {
    pub fn new(length: usize) -> Output {
        let (bytes, start) = placed(length, OUTPUT);
        Output { bytes, start, length }
    }

    pub fn bytes(&mut self) -> &mut [u8] {
        &mut self.bytes[self.start..self.start + self.length]
    }
}

/// A source with random bytes.
pub fn source(length: usize) -> OwnedBuffer {
    let (mut bytes, start) = placed(length, SOURCE);
    let mut state = 0x9e37_79b9_7f4a_7c15u64;
    for chunk in bytes[start..start + length].chunks_mut(8) {
        state ^= state << 13;
        state ^= state >> 7;
        state ^= state << 17;
        chunk.copy_from_slice(&state.to_ne_bytes()[..chunk.len()]);
    }
    OwnedBuffer::from_vec(bytes).slice(start..start + length)
}

/// A source with these bytes.
pub fn source_of(content: &[u8]) -> OwnedBuffer {
    let (mut bytes, start) = placed(content.len(), SOURCE);
    bytes[start..start + content.len()].copy_from_slice(content);
    OwnedBuffer::from_vec(bytes).slice(start..start + content.len())
}

/// memcpy of as many bytes as the output has.
pub fn copy(from: &[u8], to: &mut Output) {
    let length = to.length;
    to.bytes().copy_from_slice(&black_box(from)[..length]);
    black_box(to.bytes());
}
