//! The tree code as document 01 describes it: recursion on the height, one
//! field a node, the reserve by its two cases.

use crate::code::{digits, halved, Code, Found, MOST_COUNT};
use crate::fields::{all_zero, get, put};

pub struct Straightforward;

/// The end of an exact tree; `None` if the tree is not exact.
fn exact_end(bytes: &[u8], at: usize, h: u32, s: u64) -> Option<usize> {
    if h == 0 || s == 0 {
        return (s <= MOST_COUNT).then_some(at);
    }
    let t = digits(s);
    let l = get(bytes, at, t);
    if l > s {
        return None;
    }
    let left_end = exact_end(bytes, at + t as usize, h - 1, l)?;
    let right_end = exact_end(bytes, left_end, h - 1, s - l)?;
    let end = at + Straightforward::reserve(h, s);
    all_zero(bytes, right_end, end).then_some(end)
}

impl Code for Straightforward {
    fn reserve(h: u32, s: u64) -> usize {
        if s == 0 {
            return 0;
        }
        let (n, h, t) = (1u64 << h, u64::from(h), u64::from(digits(s)));
        let bits = if 2 * s >= n {
            n * (t + 1 - h) + ((s * (n - 1)) >> (t - 1)) - t - 1
        } else {
            let rounded_up = s.div_ceil(1 << (t - 1));
            (1 << t) + 2 * s + s * (h - t) - rounded_up - t - 1
        };
        bits as usize
    }

    fn write(bytes: &mut [u8], at: usize, counts: &[u32], s: u64) {
        if counts.len() == 1 || s == 0 {
            return;
        }
        let t = digits(s);
        let (left, right) = counts.split_at(counts.len() / 2);
        let l = left.iter().map(|&count| u64::from(count)).sum();
        let left_at = at + t as usize;
        put(bytes, at, t, l);
        Self::write(bytes, left_at, left, l);
        let right_at = left_at + Self::reserve(left.len().ilog2(), l);
        Self::write(bytes, right_at, right, s - l);
    }

    fn is_exact(bytes: &[u8], at: usize, h: u32, s: u64) -> bool {
        exact_end(bytes, at, h, s).is_some()
    }

    fn read(bytes: &[u8], at: usize, s: u64, counts: &mut [u32]) {
        if counts.len() == 1 || s == 0 {
            counts.fill(0);
            counts[0] = s as u32;
            return;
        }
        let t = digits(s);
        let l = get(bytes, at, t);
        let (left, right) = counts.split_at_mut(counts.len() / 2);
        let left_at = at + t as usize;
        let right_at = left_at + Self::reserve(left.len().ilog2(), l);
        Self::read(bytes, left_at, l, left);
        Self::read(bytes, right_at, s - l, right);
    }

    fn walk(bytes: &[u8], at: usize, h: u32, s: u64, j: u32) -> Option<Found> {
        if h == 0 || s == 0 {
            let (before, count) = (0, s);
            return Some(Found { before, count });
        }
        let t = digits(s);
        let l = get(bytes, at, t);
        if l > s {
            return None;
        }
        let (half, left_at) = (1 << (h - 1), at + t as usize);
        if j < half {
            return Self::walk(bytes, left_at, h - 1, l, j);
        }
        let right_at = left_at + Self::reserve(h - 1, l);
        let right = Self::walk(bytes, right_at, h - 1, s - l, j - half)?;
        Some(Found {
            before: l + right.before,
            count: right.count,
        })
    }

    fn seek(bytes: &[u8], at: usize, h: u32, s: u64, figure: u64) -> Option<u32> {
        if h == 0 {
            return Some(0);
        }
        let t = digits(s);
        let l = get(bytes, at, t);
        if l > s {
            return None;
        }
        let left_at = at + t as usize;
        if figure <= l {
            return Self::seek(bytes, left_at, h - 1, l, figure);
        }
        let right_at = left_at + Self::reserve(h - 1, l);
        let right = Self::seek(bytes, right_at, h - 1, s - l, figure - l)?;
        Some((1 << (h - 1)) + right)
    }

    fn page_of(
        pages: usize,
        _total: u64,
        figure: u64,
        root: impl Fn(usize) -> Result<u64, i64>,
    ) -> Result<usize, i64> {
        halved(0, pages - 1, figure, root)
    }
}
