//! Numbers in bytes: fields of bits, high bit first, by one load of eight
//! bytes; and numbers of two and four bytes, low byte first.

/// Eight bytes from `first` on, the first one highest; zeros beyond the end.
#[inline(always)]
fn eight(bytes: &[u8], first: usize) -> u64 {
    match bytes.get(first..first + 8) {
        Some(eight) => u64::from_be_bytes(eight.try_into().expect("eight bytes")),
        None => {
            let mut word = [0; 8];
            let rest = bytes.get(first..).unwrap_or(&[]);
            word[..rest.len()].copy_from_slice(rest);
            u64::from_be_bytes(word)
        }
    }
}

/// The bits from `at` on, 57 of them at least, at the high end of a word.
#[inline(always)]
pub fn bits_from(bytes: &[u8], at: usize) -> u64 {
    eight(bytes, at / 8) << (at % 8)
}

/// The first `width` bits of a word, as a number; width 0 to 63.
#[inline(always)]
pub fn first_bits(word: u64, width: u32) -> u64 {
    word >> 1 >> (63 - width)
}

/// A field of up to 57 bits.
#[inline(always)]
pub fn get(bytes: &[u8], at: usize, width: u32) -> u64 {
    first_bits(bits_from(bytes, at), width)
}

/// Puts a field of up to 57 bits where the bits are zero.
#[inline(always)]
pub fn put(bytes: &mut [u8], at: usize, width: u32, value: u64) {
    let first = at / 8;
    let placed = value << (64 - width - (at % 8) as u32);
    if let Some(eight) = bytes.get_mut(first..first + 8) {
        let word = u64::from_be_bytes((&*eight).try_into().expect("eight bytes"));
        eight.copy_from_slice(&(word | placed).to_be_bytes());
    } else {
        for (byte, part) in bytes[first..].iter_mut().zip(placed.to_be_bytes()) {
            *byte |= part;
        }
    }
}

/// Whether the bits from `at` up to `end` are all zero.
#[inline(always)]
pub fn all_zero(bytes: &[u8], mut at: usize, end: usize) -> bool {
    while at < end {
        let width = (end - at).min(57);
        if get(bytes, at, width as u32) != 0 {
            return false;
        }
        at += width;
    }
    true
}

pub fn two(bytes: &[u8], at: usize) -> usize {
    usize::from(u16::from_le_bytes([bytes[at], bytes[at + 1]]))
}

pub fn put_two(bytes: &mut [u8], at: usize, value: usize) {
    bytes[at..at + 2].copy_from_slice(&(value as u16).to_le_bytes());
}

pub fn four(bytes: &[u8], at: usize) -> u64 {
    let four = bytes[at..at + 4].try_into().expect("four bytes");
    u64::from(u32::from_le_bytes(four))
}

pub fn put_four(bytes: &mut [u8], at: usize, value: u64) {
    bytes[at..at + 4].copy_from_slice(&(value as u32).to_le_bytes());
}
