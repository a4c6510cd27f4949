//! Days with a clock change (document 02, note 4): which hours a day has. All
//! in numbers that nothing here can pass.

use crate::refusal::{refuse_if, Answer, Refusal};
use std::ops::{Deref, Range};

/// A list of changes that is short enough to be part of a call: day number and
/// hours by turns.
#[derive(Clone, Copy, Debug)]
pub struct Changes {
    entries: [u32; Changes::MOST],
    number: usize,
}

impl Changes {
    pub const MOST: usize = 12;
    pub const NONE: Changes = Changes {
        entries: [0; Changes::MOST],
        number: 0,
    };

    pub fn of(list: &[u32]) -> Changes {
        let mut entries = [0; Changes::MOST];
        entries[..list.len()].copy_from_slice(list);
        let number = list.len();
        Changes { entries, number }
    }
}

impl Deref for Changes {
    type Target = [u32];

    fn deref(&self) -> &[u32] {
        &self.entries[..self.number]
    }
}

/// The hours of a day, the end not included; refused if the list is wrong
/// anywhere.
pub fn hours_of(day: u64, changes: &[u32]) -> Answer<Range<u128>> {
    refuse_if(!is_right(changes), Refusal::Changes)?;
    let mut start = 24 * u128::from(day);
    let mut hours = 24;
    for pair in changes.chunks(2) {
        let (number, changed) = (u64::from(pair[0]), u128::from(pair[1]));
        if number < day {
            start = start + changed - 24;
        } else if number == day {
            hours = changed;
        }
    }
    Ok(start..start + hours)
}

/// Whole pairs, rising day numbers, 23 or 25 hours.
fn is_right(changes: &[u32]) -> bool {
    let numbers: Vec<u32> = changes.iter().copied().step_by(2).collect();
    changes.len() % 2 == 0
        && numbers.windows(2).all(|two| two[0] < two[1])
        && changes.chunks(2).all(|pair| [23, 25].contains(&pair[1]))
}

/// Wrong lists, each in a way of its own.
pub const WRONG: [&[u32]; 12] = [
    &[0],
    &[23],
    &[1, 23, 2],
    &[0, 24],
    &[0, 22],
    &[0, 26],
    &[0, 23 + (1 << 16)],
    &[5, 23, 5, 25],
    &[5, 23, 4, 25],
    &[1, 23, 2, 24],
    &[3, 24, 4, 23],
    &[u32::MAX, 25, 0, 23],
];

/// The hours of each day one after the other, as document 02 says it.
fn day_by_day(day: u64, changes: &[u32]) -> Range<u128> {
    let hours = |of: u64| {
        let pair = changes.chunks(2).find(|pair| u64::from(pair[0]) == of);
        pair.map_or(24, |pair| u128::from(pair[1]))
    };
    let start = (0..day).map(hours).sum();
    start..start + hours(day)
}

pub fn self_test() {
    let right: [&[u32]; 6] = [
        &[],
        &[0, 23],
        &[3, 25],
        &[3, 23, 7, 25],
        &[1, 25, 2, 25],
        &[88, 23, 305, 25, 453, 23, 670, 25, 2_278, 23, 2_495, 25],
    ];
    for changes in right {
        for day in (0..12).chain(360..370).chain(450..456).chain(2_490..2_500) {
            assert_eq!(hours_of(day, changes), Ok(day_by_day(day, changes)));
        }
    }
    for day in [0, 1, 178_956_970, u64::from(u32::MAX)] {
        let old = 24 * u128::from(day)..24 * u128::from(day) + 24;
        assert_eq!(hours_of(day, &[]), Ok(old), "the old answers");
        for changes in WRONG {
            assert_eq!(hours_of(day, changes), Err(Refusal::Changes));
        }
    }
    // A change moves the days after it, and not its own day's start.
    assert_eq!(hours_of(2, &[2, 23]), Ok(48..71));
    assert_eq!(hours_of(3, &[2, 23]), Ok(71..95));
    assert_eq!(hours_of(3, &[2, 25]), Ok(73..97));
    // Nothing wraps at the last day.
    let last = u64::from(u32::MAX);
    let end = 24 * (1u128 << 32);
    assert_eq!(
        hours_of(last, &[0, 25, u32::MAX, 25]).map(|h| h.end),
        Ok(end + 2)
    );
    assert_eq!(
        hours_of(last, &[0, 23, u32::MAX, 23]).map(|h| h.end),
        Ok(end - 2)
    );
}
