//! The tree code with everything that was seen to help: reserves of small sums
//! from a table and of others by the dense case alone, the two lowest levels
//! from one load, subtrees of sum zero left at once, loops in place of the last
//! call, a walk without jumps on data, code written in order through a word,
//! and interpolation in the search.

use crate::code::{digits, halved, Code, Found, MOST_COUNT};
use crate::fields::{all_zero, bits_from, first_bits, get};
use crate::straightforward::Straightforward;
use crate::writer::write_tree;

pub struct Fast;

const SMALL: usize = 256;

/// R(2^h, s) for every h and every small s.
static RESERVES: [[u16; SMALL]; 9] = small_reserves();

const fn small_reserves() -> [[u16; SMALL]; 9] {
    let mut table = [[0; SMALL]; 9];
    let mut h = 0;
    while h <= 8 {
        let mut s = 1;
        while s < SMALL {
            table[h][s] = small_reserve(h as u32, s as u64) as u16;
            s += 1;
        }
        h += 1;
    }
    table
}

/// The reserve of any sum above 0: with m = min(h, t) the dense case for 2^m
/// counts and s·(h - m) bits, which is document 01's formula in one piece.
const fn small_reserve(h: u32, s: u64) -> u64 {
    let t = digits(s);
    let m = if h < t { h } else { t };
    dense_reserve(m, s) + s * (h - m) as u64
}

/// The dense case, 2s ≥ 2^h: the only one from 256 on, h being at most 8.
#[inline(always)]
const fn dense_reserve(h: u32, s: u64) -> u64 {
    let t = digits(s);
    let whole = ((t - h + 1) as u64) << h;
    whole + (((s << h) - s) >> (t - 1)) - t as u64 - 1
}

/// The two halves of a node: their sums, places and reserves.
pub struct Halves {
    pub l: u64,
    pub r: u64,
    pub left_at: usize,
    pub right_at: usize,
    pub left_bits: usize,
    pub right_bits: usize,
}

/// Splits a node of height h ≥ 1 by its left sum, which is at most s.
#[inline(always)]
pub fn halves(at: usize, h: u32, s: u64, l: u64) -> Halves {
    let r = s - l;
    let left_at = at + digits(s) as usize;
    let left_bits = Fast::reserve(h - 1, l);
    Halves {
        l,
        r,
        left_at,
        right_at: left_at + left_bits,
        left_bits,
        right_bits: Fast::reserve(h - 1, r),
    }
}

/// The sums of a tree of four counts, and the bits that it leaves over.
struct Four {
    s: u64,
    l: u64,
    left_l: u64,
    right_l: u64,
    left_over: u64,
}

/// Three fields of four counts come out of one load if they have 57 bits at
/// most; they have three times the sum's digits at most.
const ONE_LOAD: u32 = 19;

impl Four {
    /// Out of a word with the tree's first bit as its highest: three times the
    /// digits of `s` are 57 at most, and the tree is exact.
    #[inline(always)]
    fn of_word(word: u64, s: u64) -> Four {
        let t = digits(s);
        let l = first_bits(word, t);
        let left = word << t;
        let left_t = digits(l);
        Four {
            s,
            l,
            left_l: first_bits(left, left_t),
            right_l: first_bits(left << left_t, digits(s - l)),
            left_over: 0,
        }
    }

    /// The four counts.
    #[inline(always)]
    fn counts(&self) -> [u64; 4] {
        let r = self.s - self.l;
        [
            self.left_l,
            self.l - self.left_l,
            self.right_l,
            r - self.right_l,
        ]
    }

    #[inline(always)]
    fn put(&self, counts: &mut [u32]) {
        for (place, count) in counts[..4].iter_mut().zip(self.counts()) {
            *place = count as u32;
        }
    }

    /// `None` at a left sum above its node at the root.
    #[inline(always)]
    fn at(bytes: &[u8], at: usize, s: u64, own: usize) -> Option<Four> {
        let t = digits(s);
        let whole = bits_from(bytes, at);
        let l = first_bits(whole, t);
        if l > s {
            return None;
        }
        let (left_t, right_t) = (digits(l), digits(s - l));
        let used = t + left_t + right_t;
        if t > ONE_LOAD {
            let left_at = at + t as usize;
            let right_at = left_at + left_t as usize;
            return Some(Four {
                s,
                l,
                left_l: get(bytes, left_at, left_t),
                right_l: get(bytes, right_at, right_t),
                left_over: get(bytes, at + used as usize, own as u32 - used),
            });
        }
        let left = whole << t;
        let right = left << left_t;
        Some(Four {
            s,
            l,
            left_l: first_bits(left, left_t),
            right_l: first_bits(right, right_t),
            left_over: first_bits(right << right_t, own as u32 - used),
        })
    }

    #[inline(always)]
    fn is_exact(&self) -> bool {
        self.left_l <= self.l
            && self.right_l <= self.s - self.l
            && self.left_over == 0
            && (self.s <= MOST_COUNT || self.counts().iter().all(|&count| count <= MOST_COUNT))
    }
}

/// Whether a node with s > 0, h ≥ 2 and these own bits is exact.
fn exact_node(bytes: &[u8], mut at: usize, mut h: u32, mut s: u64, mut own: usize) -> bool {
    while h > 2 {
        let l = get(bytes, at, digits(s));
        if l > s {
            return false;
        }
        let node = halves(at, h, s, l);
        let end = node.right_at + node.right_bits;
        if !all_zero(bytes, end, at + own) {
            return false;
        }
        h -= 1;
        if node.l > 0 && !exact_node(bytes, node.left_at, h, node.l, node.left_bits) {
            return false;
        }
        if node.r == 0 {
            return true;
        }
        (at, s, own) = (node.right_at, node.r, node.right_bits);
    }
    Four::at(bytes, at, s, own).is_some_and(|four| four.is_exact())
}

/// Eight counts with a smaller sum have 38 bits at most.
const EIGHT_IN_A_WORD: u64 = 64;

/// Takes eight counts out of one word.
#[inline(always)]
fn read_eight(word: u64, s: u64, counts: &mut [u32]) {
    let t = digits(s);
    let l = first_bits(word, t);
    let (left, right) = counts.split_at_mut(4);
    let word = word << t;
    Four::of_word(word, l).put(left);
    Four::of_word(word << Fast::reserve(2, l), s - l).put(right);
}

/// Takes the counts out of an exact node with h ≥ 2 and these own bits.
fn read_node(bytes: &[u8], at: usize, s: u64, own: usize, counts: &mut [u32]) {
    if s == 0 {
        return counts.fill(0);
    }
    if counts.len() == 4 {
        let four = Four::at(bytes, at, s, own).expect("the node is exact");
        return four.put(counts);
    }
    if counts.len() == 8 && s < EIGHT_IN_A_WORD {
        return read_eight(bits_from(bytes, at), s, counts);
    }
    let node = halves(at, counts.len().ilog2(), s, get(bytes, at, digits(s)));
    let (left, right) = counts.split_at_mut(counts.len() / 2);
    read_node(bytes, node.left_at, node.l, node.left_bits, left);
    read_node(bytes, node.right_at, node.r, node.right_bits, right);
}

impl Code for Fast {
    #[inline(always)]
    fn reserve(h: u32, s: u64) -> usize {
        if s < SMALL as u64 {
            usize::from(RESERVES[h as usize][s as usize])
        } else {
            dense_reserve(h, s) as usize
        }
    }

    fn write(bytes: &mut [u8], at: usize, counts: &[u32], s: u64) {
        if s == 0 {
            return;
        }
        // The writer has its sums in 32 bits; few pages have a larger one.
        if s > u32::MAX.into() {
            return Straightforward::write(bytes, at, counts, s);
        }
        write_tree(bytes, at, counts, Self::reserve(counts.len().ilog2(), s));
    }

    fn is_exact(bytes: &[u8], at: usize, h: u32, s: u64) -> bool {
        s == 0 || exact_node(bytes, at, h, s, Self::reserve(h, s))
    }

    fn read(bytes: &[u8], at: usize, s: u64, counts: &mut [u32]) {
        let h = counts.len().ilog2();
        read_node(bytes, at, s, Self::reserve(h, s), counts);
    }

    fn walk(bytes: &[u8], mut at: usize, mut h: u32, mut s: u64, j: u32) -> Option<Found> {
        let mut before = 0;
        while h > 0 && s > 0 {
            let t = digits(s);
            let l = get(bytes, at, t);
            if l > s {
                return None;
            }
            h -= 1;
            // All ones on the way to the right half, zero to the left: half of
            // these turns would be jumps that nothing can foretell.
            let right = u64::from(j >> h & 1).wrapping_neg();
            at += t as usize + (Self::reserve(h, l) & right as usize);
            before += l & right;
            s = l ^ ((l ^ (s - l)) & right);
        }
        Some(Found { before, count: s })
    }

    fn seek(bytes: &[u8], mut at: usize, mut h: u32, mut s: u64, mut figure: u64) -> Option<u32> {
        let mut j = 0;
        while h > 0 {
            let t = digits(s);
            let l = get(bytes, at, t);
            if l > s {
                return None;
            }
            h -= 1;
            let right = u64::from(figure > l).wrapping_neg();
            at += t as usize + (Self::reserve(h, l) & right as usize);
            figure -= l & right;
            s = l ^ ((l ^ (s - l)) & right);
            j += (right as u32 & 1) << h;
        }
        Some(j)
    }

    /// Guesses the page from the figure's share of the total, strides out from
    /// there doubling, and halves what lies between.
    #[inline(always)]
    fn page_of(
        pages: usize,
        total: u64,
        figure: u64,
        root: impl Fn(usize) -> Result<u64, i64>,
    ) -> Result<usize, i64> {
        let last = pages - 1;
        let guess = ((figure - 1) * pages as u64 / total) as usize;
        let (mut low, mut high, mut stride) = (guess, guess, 1);
        if root(guess)? < figure {
            loop {
                low = high + 1;
                high = (high + stride).min(last);
                if high == last || root(high)? >= figure {
                    return halved(low, high, figure, root);
                }
                stride *= 2;
            }
        }
        while low > 0 {
            low = high.saturating_sub(stride);
            if root(low)? < figure {
                return halved(low + 1, high, figure, root);
            }
            (high, stride) = (low, 2 * stride);
        }
        Ok(high)
    }
}
