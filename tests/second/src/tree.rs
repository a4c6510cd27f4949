//! The tree code of 2^h counts whose sum is known.

use crate::bits::{field, push_field};
use crate::reserve::{digits, reserve};

/// Appends the code of `counts`, exactly R(2^h, sum) bits.
pub fn encode(counts: &[u64], out: &mut Vec<bool>) {
    let sum: u64 = counts.iter().sum();
    if counts.len() == 1 || sum == 0 {
        return;
    }
    let end = out.len() + reserve(counts.len().ilog2(), sum);
    let (left, right) = counts.split_at(counts.len() / 2);
    push_field(out, digits(sum), left.iter().sum());
    encode(left, out);
    encode(right, out);
    assert!(out.len() <= end, "the reserve holds both halves");
    out.resize(end, false);
}

/// Appends the 2^h counts that the code at bit `at` says; false at a left sum
/// above its node. Whether the bits left over are zero is not looked at.
pub fn decode(code: &[u8], at: usize, h: u32, sum: u64, out: &mut Vec<u64>) -> bool {
    if h == 0 || sum == 0 {
        out.push(sum);
        out.resize(out.len() + (1 << h) - 1, 0);
        return true;
    }
    let t = digits(sum);
    let left = field(code, at, t);
    if left > sum {
        return false;
    }
    let right_at = at + t + reserve(h - 1, left);
    decode(code, at + t, h - 1, left, out) && decode(code, right_at, h - 1, sum - left, out)
}

/// What a walk to one hour of a tree finds.
pub struct Walked {
    pub before: u64,
    pub count: u64,
}

/// Walks to count `j`; `None` at a left sum above its node on the way.
pub fn walk(code: &[u8], at: usize, h: u32, sum: u64, j: usize) -> Option<Walked> {
    if h == 0 || sum == 0 {
        return Some(Walked {
            before: 0,
            count: sum,
        });
    }
    let t = digits(sum);
    let left = field(code, at, t);
    if left > sum {
        return None;
    }
    let half = 1 << (h - 1);
    if j < half {
        return walk(code, at + t, h - 1, left, j);
    }
    let right_at = at + t + reserve(h - 1, left);
    let right = walk(code, right_at, h - 1, sum - left, j - half)?;
    Some(Walked {
        before: left + right.before,
        count: right.count,
    })
}
