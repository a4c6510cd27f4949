//! Insert and strike: every hour behind the one that is meant moves by one, so
//! each page from there on gains a count at one end and loses one at the other.

use crate::code::Code;
use crate::fields::{put_four, two};
use crate::refused::{word, CELLS, FULL, HOUR, TOTAL};
use crate::sound::{cells_of, sound, Sound, HEIGHT, MOST_PAGES, MOST_TOTAL, PAGE, PAGE_CODE};
use core::ops::RangeInclusive;

/// What becomes of the pages that are concerned: the count that enters each of
/// them, and its new sum.
struct Plan {
    pages: RangeInclusive<usize>,
    enters: [u32; MOST_PAGES],
    sums: [u32; MOST_PAGES],
}

/// How the counts of a page move, from some place on.
type Shift = fn(&mut [u32], u32);

pub fn insert<C: Code>(bytes: &mut [u8], hour: u32, mut count: u32) -> i64 {
    word(sound::<C>(bytes).and_then(|store| {
        let hour = hour as usize;
        if hour > store.hours {
            return Err(HOUR);
        }
        if store.hours == PAGE * store.layout.pages {
            return Err(FULL);
        }
        if store.total + u64::from(count) > MOST_TOTAL {
            return Err(TOTAL);
        }
        let mut plan = Plan::of(hour / PAGE..=store.hours / PAGE);
        for page in plan.pages.clone() {
            store.pass_on::<C>(bytes, &mut plan, page, PAGE - 1, &mut count);
        }
        let shift: Shift = |counts, enters| {
            counts.rotate_right(1);
            counts[0] = enters;
        };
        let moved = store.carry_out::<C>(bytes, &plan, hour % PAGE, shift)?;
        put_four(bytes, 12, store.hours as u64 + 1);
        Ok(moved)
    }))
}

pub fn strike<C: Code>(bytes: &mut [u8], hour: u32) -> i64 {
    word(sound::<C>(bytes).and_then(|store| {
        let hour = hour as usize;
        if hour >= store.hours {
            return Err(HOUR);
        }
        let mut plan = Plan::of(hour / PAGE..=(store.hours - 1) / PAGE);
        let mut count = 0;
        for page in plan.pages.clone().rev() {
            let j = hour.saturating_sub(PAGE * page);
            store.pass_on::<C>(bytes, &mut plan, page, j, &mut count);
        }
        let shift: Shift = |counts, enters| {
            counts.rotate_left(1);
            *counts.last_mut().expect("an hour at least") = enters;
        };
        let moved = store.carry_out::<C>(bytes, &plan, hour % PAGE, shift)?;
        put_four(bytes, 12, store.hours as u64 - 1);
        Ok(moved)
    }))
}

impl Plan {
    fn of(pages: RangeInclusive<usize>) -> Plan {
        Plan {
            pages,
            enters: [0; MOST_PAGES],
            sums: [0; MOST_PAGES],
        }
    }
}

impl Sound {
    /// A count enters a page, and the one at place `j` leaves it for the next.
    fn pass_on<C: Code>(
        &self,
        bytes: &[u8],
        plan: &mut Plan,
        page: usize,
        j: usize,
        count: &mut u32,
    ) {
        let code = self.code::<C>(bytes, page);
        let sum = self.sum(bytes, page);
        let found = C::walk(&code, 0, HEIGHT, sum, j as u32).expect("a sound page");
        let leaving = found.count as u32;
        plan.enters[page] = *count;
        plan.sums[page] = sum as u32 - leaving + *count;
        *count = leaving;
    }

    /// The cells that a page has and is to have.
    fn cells<C: Code>(&self, bytes: &[u8], plan: &Plan, page: usize) -> (usize, usize) {
        let (old, new) = (self.sum(bytes, page), u64::from(plan.sums[page]));
        (cells_of::<C>(old), cells_of::<C>(new))
    }

    /// Rewrites the pages, those that grow behind all others; nothing if the
    /// cells do not suffice.
    fn carry_out<C: Code>(
        &self,
        bytes: &mut [u8],
        plan: &Plan,
        j: usize,
        shift: Shift,
    ) -> Result<i64, i64> {
        let mut numbers = [(0, 0); MOST_PAGES];
        let (mut had, mut need) = (0, 0);
        for page in plan.pages.clone() {
            let (before, after) = self.cells::<C>(bytes, plan, page);
            numbers[page] = (before, after);
            (had, need) = (had + before, need + after);
        }
        if need > had + two(bytes, 8) {
            return Err(CELLS);
        }
        for growing in [false, true] {
            for page in plan.pages.clone() {
                let (before, after) = numbers[page];
                if (after > before) == growing {
                    let from = if page == *plan.pages.start() { j } else { 0 };
                    let mut counts = self.counts::<C>(bytes, page);
                    shift(&mut counts[from..], plan.enters[page]);
                    self.rewrite::<C>(bytes, page, (before, after), &counts);
                }
            }
        }
        let (taken, returned) = (need.saturating_sub(had), had.saturating_sub(need));
        Ok((taken + (returned << 16)) as i64)
    }

    fn rewrite<C: Code>(
        &self,
        bytes: &mut [u8],
        page: usize,
        (before, after): (usize, usize),
        counts: &[u32; PAGE],
    ) {
        let sum = counts.iter().map(|&count| u64::from(count)).sum();
        let mut code = [0; PAGE_CODE];
        C::write(&mut code, 0, counts, sum);
        self.relink(bytes, page, before, after, &code);
        put_four(bytes, self.layout.entry(page), sum);
    }
}
