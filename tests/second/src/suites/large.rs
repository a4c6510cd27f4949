//! Fresh stores of every size, and lists of calls on the largest stores and on
//! other shapes whose cell numbers need both bytes.

use crate::draw::{calls, Taste};
use crate::plain::TOTAL_LIMIT;
use crate::random::{counts, Random, Size};
use crate::reserve::cells;
use crate::run::{Outcome, Run};
use crate::session::{Session, Start};
use crate::store_bytes::length;
use crate::store_calls::{compare, Call};
use crate::suites::sessions::compare_session;

const FIRST_SEED: u64 = 2_000_000;
const STARTS: u64 = 50;
const CALLS: usize = 80;
/// Plays spent on shortening a list that differs.
const PLAYS: usize = 30;
/// Pages and cells: the largest, and others with cell numbers of two bytes.
const SHAPES: [(u32, u32); 6] = [
    (1_024, 1_800),
    (1_024, 300),
    (40, 1_800),
    (30, 258),
    (64, 520),
    (150, 400),
];

pub fn play(run: &mut Run) -> Outcome {
    let result = fresh_stores(run);
    run.note("fresh stores", result)?;
    run.each_seed(FIRST_SEED, STARTS, |run, seed| {
        compare_session(run, &large_session(seed), PLAYS)
    })?;
    run.each_seed(FIRST_SEED + 100_000, 1, |run, seed| {
        compare_session(run, &freezes_of_a_full_log(seed), PLAYS)
    })
}

/// Sizes around one byte, and at their limits and beyond, each in a buffer of
/// the length that it asks for.
fn fresh_stores(run: &mut Run) -> Result<(), String> {
    for pages in [0, 1, 2, 255, 256, 257, 1_023, 1_024, 1_025] {
        for cells in [0, 1, 2, 255, 256, 257, 1_799, 1_800, 1_801] {
            let mut bytes = vec![0xC3; length(pages as usize, cells as usize)];
            for call in [Call::Fresh(pages, cells), Call::Free] {
                compare(&mut run.library, &mut bytes, call)
                    .map_err(|difference| format!("{pages} and {cells}: {difference}"))?;
            }
        }
    }
    Ok(())
}

fn large_session(seed: u64) -> Session {
    let mut random = Random::new(seed);
    let (pages, cells) = SHAPES[seed as usize % SHAPES.len()];
    let hours = match random.below(3) {
        0 => 64 * pages - random.below(4) as u32,
        1 => random.below(64 * u64::from(pages)) as u32,
        _ => 0,
    };
    let size = random.pick(&[Size::Few, Size::Usual, Size::Many, Size::Mixed]);
    let mut start = fitting(&mut random, hours as usize, cells, size);
    if random.one_in(3) {
        fill_total(&mut start, cells);
    }
    let taste = Taste {
        size: Size::Mixed,
        appends: 30,
        sets: 30,
        moves: 20,
    };
    let list = calls(&mut random, pages, cells, &start, &taste, CALLS);
    Session {
        pages,
        cells,
        start: Start::Built(start, seed),
        calls: list,
    }
}

/// Counts for which the cells just suffice: pages that would need more than
/// is left stay empty.
pub fn fitting(random: &mut Random, hours: usize, all: u32, size: Size) -> Vec<u64> {
    let mut left = u64::from(all);
    let mut list = counts(random, hours, size);
    for page in list.chunks_mut(64) {
        let need = cells(page.iter().sum());
        if need > left {
            page.fill(0);
        } else {
            left -= need;
        }
    }
    list
}

/// Raises the first count until the total is one below its limit, if the
/// cells allow it.
fn fill_total(list: &mut [u64], all: u32) {
    let missing = TOTAL_LIMIT - 1 - list.iter().sum::<u64>().min(TOTAL_LIMIT - 1);
    let need: u64 = list.chunks(64).map(|page| cells(page.iter().sum())).sum();
    if !list.is_empty() && need + 8 <= u64::from(all) {
        list[0] += missing;
    }
}

/// Freeze at every e on a log of 65,536 hours, and what a full log refuses.
fn freezes_of_a_full_log(seed: u64) -> Session {
    let start = fitting(&mut Random::new(seed), 65_536, 1_800, Size::Few);
    let mut list: Vec<Call> = (2..=8).map(|e| Call::Freeze(e, 1)).collect();
    list.extend([Call::Freeze(9, 0), Call::Freeze(2, -1), Call::Append(0)]);
    Session {
        pages: 1_024,
        cells: 1_800,
        start: Start::Built(start, seed),
        calls: list,
    }
}
