//! Document 02, note 6: how many cells more coins in one hour take, and how
//! many bits a page of twice the sum reserves.

use crate::ffi::Library;
use crate::reserve::reserve;
use crate::run::{Outcome, Run};
use crate::store_bytes;
use crate::store_calls::{compare, Call};

/// The coins of a page before it gains some: few, and what just fills its cells.
const BEFORE: [u32; 14] = [
    0,
    1,
    31,
    32,
    63,
    64,
    121,
    122,
    1_771,
    25_226,
    353_686,
    4_860_066,
    66_043_643,
    954_437_176,
];

pub fn play(run: &mut Run) -> Outcome {
    for before in BEFORE {
        let result = more(&mut run.library, before).and(doubled(before.into()));
        run.note(format!("a page of {before} coins"), result)?;
    }
    Ok(())
}

/// 'at most ceil(d / 40) more cells, or eight if that is less': by a set of
/// the first hour, and by an append, in a page that has these coins.
fn more(library: &mut Library, before: u32) -> Result<(), String> {
    let mut page = vec![0; store_bytes::length(1, 8)];
    for call in [Call::Fresh(1, 8), Call::Append(before)] {
        compare(library, &mut page, call)?;
    }
    for coins in (1..300).chain([u32::MAX - before]) {
        for call in [Call::Set(0, before + coins), Call::Append(coins)] {
            let word = compare(library, &mut page.clone(), call)?.word;
            let most = coins.div_ceil(40).min(8);
            if !(0..=most.into()).contains(&word) {
                return Err(format!("{call}: {word}, and {most} cells at most are due"));
            }
        }
    }
    Ok(())
}

/// 'a page with twice the sum reserves at most 63 more bits'.
fn doubled(sum: u64) -> Result<(), String> {
    if reserve(6, 2 * sum) <= reserve(6, sum) + 63 {
        return Ok(());
    }
    Err(format!("the reserve of twice {sum}"))
}
