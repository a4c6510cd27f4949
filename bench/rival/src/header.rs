//! The header of an image: edition 1, or edition 2 where four bytes do not hold
//! the total.

use crate::fields::{four, put_four};

pub const MOST_HOURS: usize = 65_536;
pub const MOST_TOTAL: u64 = (1 << 40) - 1;
/// The largest total of edition 1.
const MOST_NARROW: u64 = 4_294_967_295;
/// Bytes of the header of edition 1, and of edition 2.
const NARROW: usize = 16;
const WIDE: usize = 24;

pub fn page_size_allowed(e: u32) -> bool {
    (2..=8).contains(&e)
}

/// What a header says; the places of an image's parts follow from it.
pub struct Header {
    pub e: u32,
    pub hours: usize,
    pub total: u64,
    pub code_bits: usize,
}

impl Header {
    /// The header of bytes that refusal 5 lets pass.
    #[inline(always)]
    pub fn read(bytes: &[u8]) -> Option<Header> {
        let (total, code_bits) = match bytes.first()? {
            1 if bytes.len() >= NARROW => (four(bytes, 8), four(bytes, 12)),
            2 if bytes.len() >= WIDE && four(bytes, 20) == 0 => {
                (wide_total(bytes)?, four(bytes, 16))
            }
            _ => return None,
        };
        let header = Header {
            e: bytes[1].into(),
            hours: four(bytes, 4) as usize,
            total,
            code_bits: code_bits as usize,
        };
        let right = bytes[2] == 0
            && bytes[3] == 0
            && page_size_allowed(header.e)
            && header.hours <= MOST_HOURS
            && header.image_bytes() == bytes.len();
        right.then_some(header)
    }

    /// Writes it where all bytes are zero.
    pub fn write(&self, image: &mut [u8]) {
        image[1] = self.e as u8;
        put_four(image, 4, self.hours as u64);
        put_four(image, 8, self.total);
        if self.total > MOST_NARROW {
            image[0] = 2;
            put_four(image, 12, self.total >> 32);
            put_four(image, 16, self.code_bits as u64);
        } else {
            image[0] = 1;
            put_four(image, 12, self.code_bits as u64);
        }
    }

    /// Its own bytes.
    #[inline(always)]
    pub fn bytes(&self) -> usize {
        if self.total > MOST_NARROW {
            WIDE
        } else {
            NARROW
        }
    }

    #[inline(always)]
    pub fn table_bytes(&self) -> usize {
        4 * self.hours.div_ceil(1 << self.e)
    }

    #[inline(always)]
    pub fn image_bytes(&self) -> usize {
        self.bytes() + self.table_bytes() + self.code_bits.div_ceil(8)
    }
}

/// S of edition 2, which is for no other totals.
#[inline(always)]
fn wide_total(bytes: &[u8]) -> Option<u64> {
    let total = four(bytes, 8) | four(bytes, 12) << 32;
    (MOST_NARROW < total && total <= MOST_TOTAL).then_some(total)
}
