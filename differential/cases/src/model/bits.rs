//! Numbers at any bit of a byte slice, high bit first.

fn bit(bytes: &[u8], at: u64) -> u64 {
    u64::from(bytes[(at / 8) as usize] >> (7 - at % 8)) % 2
}

fn set_bit(bytes: &mut [u8], at: u64, bit: u64) {
    let weight = 1 << (7 - at % 8);
    let byte = &mut bytes[(at / 8) as usize];
    *byte = if bit == 1 { *byte | weight } else { *byte & !weight };
}

/// The number in `count` bits from bit `at` on; at most 64.
pub fn get(bytes: &[u8], at: u64, count: u64) -> u64 {
    (at..at + count).fold(0, |number, at| number << 1 | bit(bytes, at))
}

/// Puts the low `count` bits of a number at bit `at`.
pub fn put(bytes: &mut [u8], at: u64, count: u64, number: u64) {
    for i in 0..count {
        set_bit(bytes, at + i, number >> (count - 1 - i) & 1);
    }
}
