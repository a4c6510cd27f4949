//! Drawing a list of calls: a plain list goes along, so that arguments can be
//! drawn near the turning points of the state they will meet.

use crate::days::{Changes, WRONG};
use crate::plain::Plain;
use crate::random::{count, Random, Size};
use crate::store_bytes::{self, fits};
use crate::store_calls::Call;

/// What a list of calls is made of.
pub struct Taste {
    pub size: Size,
    /// Weights of append, of set, and of insert and strike together; the
    /// queries together weigh 30.
    pub appends: u64,
    pub sets: u64,
    pub moves: u64,
}

const QUERIES: u64 = 30;

/// A day at which 24·d + 24 would come out small again if it wrapped.
const WRAPPING_DAY: u32 = 178_956_970;

pub fn calls(
    random: &mut Random,
    pages: u32,
    cells: u32,
    start: &[u64],
    taste: &Taste,
    length: usize,
) -> Vec<Call> {
    let bytes = store_bytes::length(pages as usize, cells as usize);
    let mut plain = Plain::of(pages.into(), cells.into(), start.to_vec());
    let mut list = Vec::new();
    for _ in 0..length {
        let call = draw(random, pages, cells, &plain, taste);
        list.push(call);
        match call {
            Call::Fresh(p, c) if fits(bytes, p.into(), c.into()) => {
                plain = Plain::fresh(p.into(), c.into());
            }
            Call::Append(_) | Call::Set(..) | Call::Insert(..) | Call::Strike(_) => {
                call.by_plain(&mut plain, &mut []);
            }
            _ => {}
        }
    }
    list
}

fn draw(random: &mut Random, pages: u32, cells: u32, plain: &Plain, taste: &Taste) -> Call {
    let kind = random.below(taste.appends + taste.sets + taste.moves + QUERIES);
    if kind < taste.appends {
        return Call::Append(count(random, taste.size));
    }
    if kind < taste.appends + taste.sets {
        return Call::Set(hour(random, plain), count(random, taste.size));
    }
    if kind < taste.appends + taste.sets + taste.moves {
        return insert_or_strike(random, pages, plain, taste.size);
    }
    match random.below(QUERIES) {
        0..=6 => Call::Count(hour(random, plain)),
        7..=13 => Call::Reading(hour(random, plain)),
        14..=20 => Call::Reach(figure(random, plain)),
        21..=24 => Call::Day(day(random, plain), changes(random, plain)),
        25..=27 => Call::Free,
        28 => Call::Freeze(page_size(random), room(random)),
        _ => fresh(random, pages, cells),
    }
}

/// An hour near the end, one of those logged, or one far off whose low bits
/// alone would be good.
fn hour(random: &mut Random, plain: &Plain) -> u32 {
    let hours = plain.counts().len() as u64;
    let hour = match random.below(20) {
        0..=2 => (hours + random.below(3)).saturating_sub(1),
        3 => random.pick(&[hours | 65_536, hours | 1 << 31, u64::from(u32::MAX)]),
        _ => random.below(hours + 1),
    };
    hour as u32
}

/// At the front, at a page's border or anywhere: all hours behind it move.
fn insert_or_strike(random: &mut Random, pages: u32, plain: &Plain, size: Size) -> Call {
    let hour = match random.below(4) {
        0 => 0,
        1 => (64 * random.below(pages.into()) + random.below(3)).saturating_sub(1) as u32,
        _ => hour(random, plain),
    };
    match random.below(5) {
        0..=2 => Call::Insert(hour, count(random, size)),
        _ => Call::Strike(hour),
    }
}

/// None, a wrong list, or one with changes on some of the days logged.
fn changes(random: &mut Random, plain: &Plain) -> Changes {
    match random.below(8) {
        0 | 1 => Changes::NONE,
        2 => Changes::of(random.pick(&WRONG)),
        _ => right_changes(random, plain.counts().len() as u64 / 24),
    }
}

/// Changes on the first of so many days, or all over them.
pub fn right_changes(random: &mut Random, days: u64) -> Changes {
    let mut list = Vec::new();
    let step = random.pick(&[4, 4 + days / 4]);
    let mut number = random.below(step) as u32;
    for _ in 0..random.below(Changes::MOST as u64 / 2) {
        list.extend([number, random.pick(&[23, 25])]);
        number += random.between(1, step) as u32;
    }
    if random.one_in(4) {
        list.extend([u32::MAX, random.pick(&[23, 25])]);
    }
    Changes::of(&list)
}

fn day(random: &mut Random, plain: &Plain) -> u32 {
    let days = plain.counts().len() as u64 / 24;
    match random.below(12) {
        0 => WRAPPING_DAY + random.below(3) as u32 - 1,
        1 => u32::MAX,
        _ => random.between(0, days) as u32,
    }
}

/// A figure at a reading or beside it, or any other.
fn figure(random: &mut Random, plain: &Plain) -> u32 {
    let hours = plain.counts().len() as u64;
    let total = plain.reading(hours).expect("N is an hour to read at");
    let figure = match random.below(10) {
        0 => total + 1,
        1 => u64::from(u32::MAX),
        2 => random.between(0, total),
        _ => {
            let reading = plain.reading(random.between(0, hours)).expect("within N");
            (reading + random.below(3)).saturating_sub(1)
        }
    };
    figure.min(u32::MAX.into()) as u32
}

fn page_size(random: &mut Random) -> u32 {
    match random.below(8) {
        0 => random.pick(&[0, 1, 9, 258, 65_540, u32::MAX]),
        _ => random.between(2, 8) as u32,
    }
}

fn room(random: &mut Random) -> i64 {
    random.pick(&[0, 0, 1, 20, -1, -1_000_000])
}

/// Mostly one that is refused, so that lists grow long; two are not: the same
/// shape again, and another one of the same length.
fn fresh(random: &mut Random, pages: u32, cells: u32) -> Call {
    let (p, c) = match random.below(12) {
        0 => (pages, cells),
        1 => (pages + 16, cells.saturating_sub(3)),
        2 => (pages + 65_536, cells),
        3 => (pages, cells + 65_536),
        4 => (0, cells),
        5 => (pages, 0),
        6 => (1_025, cells),
        7 => (pages, 1_801),
        _ => (random.next() as u32, random.below(2_000) as u32),
    };
    Call::Fresh(p, c)
}
