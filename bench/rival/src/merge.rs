//! The image of the hour-by-hour sums of two images.

use crate::code::Code;
use crate::header::page_size_allowed;
use crate::image::{accepted, write};
use crate::refused::{word, PAGE_SIZE, TOTAL};

pub fn merge<C: Code>(first: &[u8], second: &[u8], e: u32, out: &mut [u8]) -> i64 {
    if !page_size_allowed(e) {
        return PAGE_SIZE;
    }
    word(sums::<C>(first, second).map(|sums| write::<C>(&sums, e, out)))
}

/// The shorter log has no coins beyond its end.
fn sums<C: Code>(first: &[u8], second: &[u8]) -> Result<Vec<u32>, i64> {
    let (first, second) = (accepted::<C>(first)?, accepted::<C>(second)?);
    let (mut sums, more) = (first.counts::<C>(), second.counts::<C>());
    sums.resize(first.hours.max(second.hours), 0);
    for (sum, count) in sums.iter_mut().zip(more) {
        *sum = sum.checked_add(count).ok_or(TOTAL)?;
    }
    Ok(sums)
}
