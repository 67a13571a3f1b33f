//! Reading files, and memory for what is read.

use crate::failure::Failure;
use std::fs::File;
use std::io::{Read, Seek, SeekFrom};
use std::path::Path;

/// The bytes of a file from an offset on, at most as many as given.
pub fn read(path: &Path, offset: u64, most: u64) -> Result<Vec<u8>, Failure> {
    let fault = |error| Failure::file("read", path, error);
    let mut file = File::open(path).map_err(fault)?;
    if offset > 0 {
        file.seek(SeekFrom::Start(offset)).map_err(fault)?;
    }
    let there = file.metadata().map_err(fault)?.len().saturating_sub(offset);
    let mut bytes = room(there.min(most))?;
    file.take(most).read_to_end(&mut bytes).map_err(fault)?;
    Ok(bytes)
}

/// An empty vector with room for bytes.
pub fn room(bytes: u64) -> Result<Vec<u8>, Failure> {
    let fault = || Failure::File(format!("there is no memory for {bytes} bytes"));
    let mut vector = Vec::new();
    let length = usize::try_from(bytes).map_err(|_| fault())?;
    vector.try_reserve_exact(length).map_err(|_| fault())?;
    Ok(vector)
}

/// So many zeros.
pub fn zeros<T: Clone + Default>(length: usize) -> Result<Vec<T>, Failure> {
    let mut vector = Vec::new();
    let room = vector.try_reserve_exact(length);
    room.map_err(|_| Failure::File(format!("there is no memory for {length} zeros")))?;
    vector.resize(length, T::default());
    Ok(vector)
}
