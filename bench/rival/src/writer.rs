//! The fast writer of trees: sums first, then all bits in order.

use crate::code::digits;
use crate::fast::halves;

/// Writes the tree of counts whose sum is above 0 and that owns these bits.
pub fn write_tree(bytes: &mut [u8], at: usize, counts: &[u32], own: usize) {
    let mut writer = Writer::at(bytes, at);
    writer.node(&heap_of(counts), 1, counts.len().ilog2(), own);
    writer.finish();
}

/// Bits written in order: those not yet in the bytes wait in a word.
struct Writer<'a> {
    bytes: &'a mut [u8],
    place: usize,
    waiting: u64,
    /// How many wait, below 32.
    width: u32,
}

impl<'a> Writer<'a> {
    /// Starts at a bit address; the bits before it in its byte are kept.
    #[inline(always)]
    fn at(bytes: &'a mut [u8], at: usize) -> Writer<'a> {
        let width = (at % 8) as u32;
        let byte = bytes.get(at / 8).copied().unwrap_or(0);
        Writer {
            bytes,
            place: at / 8,
            waiting: u64::from(byte) >> (8 - width),
            width,
        }
    }

    /// Appends a field of up to 32 bits.
    #[inline(always)]
    fn push(&mut self, width: u32, value: u64) {
        self.waiting = self.waiting << width | value;
        self.width += width;
        if self.width >= 32 {
            self.width -= 32;
            let word = (self.waiting >> self.width) as u32;
            self.bytes[self.place..self.place + 4].copy_from_slice(&word.to_be_bytes());
            self.place += 4;
        }
    }

    #[inline(always)]
    fn push_zeros(&mut self, mut width: usize) {
        while width > 32 {
            self.push(32, 0);
            width -= 32;
        }
        self.push(width as u32, 0);
    }

    fn finish(self) {
        let word = (self.waiting << (32 - self.width)) as u32;
        let rest = self.width.div_ceil(8) as usize;
        self.bytes[self.place..self.place + rest].copy_from_slice(&word.to_be_bytes()[..rest]);
    }

    /// The node `k` of a heap of sums, of height h ≥ 2, with its own bits.
    fn node(&mut self, sums: &[u32; HEAP], k: usize, h: u32, own: usize) {
        let s = u64::from(sums[k]);
        if s == 0 {
            return;
        }
        if h == 2 {
            return self.four(sums, k, s, own);
        }
        let l = u64::from(sums[2 * k]);
        self.push(digits(s), l);
        let node = halves(0, h, s, l);
        self.node(sums, 2 * k, h - 1, node.left_bits);
        self.node(sums, 2 * k + 1, h - 1, node.right_bits);
        self.push_zeros(own - node.right_at - node.right_bits);
    }

    /// The three fields of four counts, joined if one push takes them all.
    #[inline(always)]
    fn four(&mut self, sums: &[u32; HEAP], k: usize, s: u64, own: usize) {
        let l = u64::from(sums[2 * k]);
        let (t, left_t, right_t) = (digits(s), digits(l), digits(s - l));
        let left_l = u64::from(sums[4 * k]);
        let right_l = u64::from(sums[4 * k + 2]);
        let left_over = own as u32 - t - left_t - right_t;
        if own <= 32 {
            let joined = (l << left_t | left_l) << right_t | right_l;
            return self.push(own as u32, joined << left_over);
        }
        self.push(t, l);
        self.push(left_t, left_l);
        self.push(right_t, right_l);
        self.push(left_over, 0);
    }
}

/// A heap of the sums of up to 256 counts: node 1 is the root, the halves of
/// node k are 2k and 2k + 1.
const HEAP: usize = 512;

#[inline(always)]
fn heap_of(counts: &[u32]) -> [u32; HEAP] {
    let mut sums = [0; HEAP];
    let n = counts.len();
    sums[n..2 * n].copy_from_slice(counts);
    for k in (1..n).rev() {
        sums[k] = sums[2 * k] + sums[2 * k + 1];
    }
    sums
}
