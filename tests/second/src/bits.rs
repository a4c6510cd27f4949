//! Bits as a plain list, the high bit of the first byte first; and numbers of
//! several bytes, the low byte first.

/// The bit at an address of a stream of bytes.
fn bit(bytes: &[u8], at: usize) -> bool {
    bytes[at / 8] >> (7 - at % 8) & 1 == 1
}

/// Turns the bit at an address.
pub fn turn(bytes: &mut [u8], at: usize) {
    bytes[at / 8] ^= 128 >> (at % 8);
}

/// The number that `width` bits from an address on say, high bit first.
pub fn field(bytes: &[u8], at: usize, width: usize) -> u64 {
    let mut value = 0;
    for k in at..at + width {
        value = 2 * value + u64::from(bit(bytes, k));
    }
    value
}

/// Appends a number as `width` bits, high bit first.
pub fn push_field(bits: &mut Vec<bool>, width: usize, value: u64) {
    for k in (0..width).rev() {
        bits.push(value >> k & 1 == 1);
    }
}

/// Packs bits into bytes, the last byte filled with zeros.
pub fn packed(bits: &[bool]) -> Vec<u8> {
    let mut bytes = vec![0; bits.len().div_ceil(8)];
    for (at, _) in bits.iter().enumerate().filter(|(_, &set)| set) {
        bytes[at / 8] |= 128 >> (at % 8);
    }
    bytes
}

/// The number in bytes, low byte first.
pub fn number(bytes: &[u8]) -> u64 {
    bytes
        .iter()
        .rev()
        .fold(0, |value, &byte| 256 * value + u64::from(byte))
}

/// Appends a number as `width` bytes, low byte first.
pub fn push_number(bytes: &mut Vec<u8>, width: usize, value: u64) {
    for k in 0..width {
        bytes.push((value >> (8 * k)) as u8);
    }
}
