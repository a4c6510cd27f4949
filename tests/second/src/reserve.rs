//! What a subtree reserves.

/// Binary digits of `s`, 0 for 0.
pub fn digits(mut s: u64) -> usize {
    let mut digits = 0;
    while s > 0 {
        s /= 2;
        digits += 1;
    }
    digits
}

/// R(2^h, s), document 01's formula with its own divisor 2^(t-1).
pub fn reserve(h: u32, s: u64) -> usize {
    if s == 0 {
        return 0;
    }
    let (n, h, t) = (1i64 << h, i64::from(h), digits(s) as i64);
    let s = i64::try_from(s).expect("sums are below 2^40");
    let half = 1i64 << (t - 1);
    let bits = if 2 * s >= n {
        n * (t - h + 1) + s * (n - 1) / half - t - 1
    } else {
        let rounded_up = (s + half - 1) / half;
        2 * half + 2 * s - rounded_up - t - 1 + s * (h - t)
    };
    usize::try_from(bits).expect("a reserve is never below zero")
}

/// The cells that a store's page of sum `s` has: 240 bits of code in each.
pub fn cells(s: u64) -> u64 {
    reserve(6, s).div_ceil(240) as u64
}
