//! The reorderings alone: between a mode's order and band by band, row by row.

use super::questions;
use crate::{Mode, Pack};

/// The bytes of the data, if questions 2, 4 and 14 are answered yes; else the number.
fn data_bytes(p: &Pack, data: &[u8]) -> Result<u64, u8> {
    if !(1..=8).contains(&p.size) {
        return Err(2);
    }
    let [rows, columns, bands, size] = [p.rows, p.columns, p.bands, p.size].map(u128::from);
    let product = (rows * columns).saturating_mul(bands).saturating_mul(size);
    if product > 4_294_967_294 {
        return Err(4);
    }
    if data.len() as u128 != product {
        return Err(14);
    }
    Ok(product as u64)
}

/// The place of sample (b, r, c) in the mode's order.
fn place(p: &Pack, b: u64, r: u64, c: u64) -> u64 {
    let [rows, columns, bands] = [p.rows, p.columns, p.bands].map(u64::from);
    match p.mode {
        Mode::B | Mode::S => (b * rows + r) * columns + c,
        Mode::P => (r * columns + c) * bands + b,
        Mode::R => (r * bands + b) * columns + c,
    }
}

/// For each sample of the listed bands, band by band and row by row: its place in the mode's order.
fn places(p: &Pack, list: &[u32]) -> Vec<u64> {
    let mut places = Vec::new();
    if p.rows > 0 && p.columns > 0 {
        for &b in list {
            for r in 0..u64::from(p.rows) {
                for c in 0..u64::from(p.columns) {
                    places.push(place(p, u64::from(b), r, c));
                }
            }
        }
    }
    places
}

/// All bands; none if a side is 0, as there is then no sample.
fn all_bands(p: &Pack) -> Vec<u32> {
    if p.rows == 0 || p.columns == 0 {
        return Vec::new();
    }
    (0..p.bands).collect()
}

fn copy_sample(p: &Pack, data: &[u8], from: u64, out: &mut [u8], to: u64) {
    let size = p.size as usize;
    let (from, to) = (from as usize * size, to as usize * size);
    out[to..to + size].copy_from_slice(&data[from..from + size]);
}

pub fn to_sequential(p: &Pack, data: &[u8], out: &mut [u8]) -> u8 {
    select(p, data, None, out)
}

pub fn from_sequential(p: &Pack, data: &[u8], out: &mut [u8]) -> u8 {
    match data_bytes(p, data) {
        Err(number) => return number,
        Ok(bytes) if (out.len() as u64) < bytes => return 9,
        Ok(_) => {}
    }
    for (from, to) in places(p, &all_bands(p)).into_iter().enumerate() {
        copy_sample(p, data, from as u64, out, to);
    }
    0
}

/// To band by band, with a list of bands or all.
pub fn select(p: &Pack, data: &[u8], list: Option<&[u32]>, out: &mut [u8]) -> u8 {
    if let Err(number) = data_bytes(p, data) {
        return number;
    }
    if !questions::bands_inside(p.bands, list) {
        return 8;
    }
    let all = all_bands(p);
    let places = places(p, list.unwrap_or(&all));
    if (out.len() as u64) < places.len() as u64 * u64::from(p.size) {
        return 9;
    }
    for (to, from) in places.into_iter().enumerate() {
        copy_sample(p, data, from, out, to as u64);
    }
    0
}
