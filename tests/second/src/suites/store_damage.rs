//! Stores that are damaged: every call must give the same verdict, and those
//! that are still sound the same answers.

use crate::bits::turn;
use crate::days::Changes;
use crate::random::{counts, Random, Size};
use crate::run::{Outcome, Run};
use crate::session::built;
use crate::store::Store;
use crate::store_bytes::length;
use crate::store_calls::{compare, compare_all, Call};
use crate::suites::large::fitting;

const FIRST_SEED: u64 = 6_000_000;
const EACH_BIT: u64 = 24;
const EACH_NUMBER: u64 = 60;
const RANDOM: u64 = 4_000;
const LARGEST: u64 = 40;

pub fn play(run: &mut Run) -> Outcome {
    run.each_seed(FIRST_SEED, EACH_BIT, each_bit_and_length)?;
    run.each_seed(FIRST_SEED + 100_000, EACH_NUMBER, each_number)?;
    run.each_seed(FIRST_SEED + 200_000, RANDOM, random_damage)?;
    run.each_seed(FIRST_SEED + 300_000, LARGEST, damaged_largest)
}

/// A small sound store, its chains running through its cells in any order.
pub fn small_store(random: &mut Random) -> Store {
    loop {
        let pages = random.between(1, 4) as usize;
        let cells = random.between(1, 14) as usize;
        let hours = random.between(0, 64 * pages as u64) as usize;
        let size = random.pick(&Size::ALL);
        let list = counts(random, hours, size);
        if let Some(store) = built(pages, cells, &list, random) {
            return store;
        }
    }
}

/// Every call on these bytes; all hours if they are sound.
fn probe(run: &mut Run, bytes: &[u8], random: &mut Random) -> Result<(), String> {
    let mut calls = vec![
        Call::Append(random.next() as u32 >> random.below(33).min(31)),
        Call::Append(0),
        Call::Set(0, random.below(300) as u32),
        Call::Count(0),
        Call::Reading(0),
        Call::Reach(0),
        Call::Day(0, Changes::NONE),
        Call::Day(0, Changes::of(&[0, 23])),
        Call::Day(0, Changes::of(&[0, 24])),
        Call::Insert(0, random.below(300) as u32),
        Call::Strike(0),
        Call::Free,
        Call::Freeze(random.between(2, 8) as u32, 0),
    ];
    if let Ok(store) = Store::read(bytes) {
        calls.extend(all_questions(&store));
    }
    compare_all(&mut run.library, bytes, &calls)
}

fn all_questions(store: &Store) -> Vec<Call> {
    let hours = store.hours as u32;
    let mut calls = Vec::new();
    for hour in 0..=hours {
        calls.extend([Call::Count(hour), Call::Reading(hour)]);
    }
    let mut reading = 0;
    for count in store.counts() {
        reading += count as u32;
        calls.push(Call::Reach(reading));
    }
    calls.extend((0..=hours / 24).map(|day| Call::Day(day, Changes::NONE)));
    calls
}

/// The store as it is, with each bit turned, at each shorter length and at
/// some longer ones.
fn each_bit_and_length(run: &mut Run, seed: u64) -> Result<(), String> {
    let mut random = Random::new(seed);
    let bytes = small_store(&mut random).bytes();
    probe(run, &bytes, &mut random)?;
    for bit in 0..8 * bytes.len() {
        let mut damaged = bytes.clone();
        turn(&mut damaged, bit);
        probe(run, &damaged, &mut random).map_err(|text| format!("bit {bit}: {text}"))?;
    }
    for length in (0..bytes.len()).chain(bytes.len() + 1..bytes.len() + 40) {
        let mut cut = bytes.clone();
        cut.resize(length, 0);
        compare(&mut run.library, &mut cut, Call::Free)
            .map_err(|text| format!("length {length}: {text}"))?;
    }
    Ok(())
}

/// Where a store's links stand: the first free cell, each page's first cell,
/// each cell's next cell.
pub fn links(store: &Store) -> Vec<usize> {
    let pages = store.pages.len();
    let firsts = (0..pages).map(|p| 16 + 6 * p + 4);
    let nexts = (0..store.cells).map(|cell| length(pages, cell));
    [6].into_iter().chain(firsts).chain(nexts).collect()
}

/// Each number of hours that the header can name, and some that it cannot.
fn each_number_of_hours(run: &mut Run, bytes: &[u8], pages: usize) -> Result<(), String> {
    let most = 64 * pages as u32;
    for hours in (0..=most + 1).chain([65_536, most | 1 << 31]) {
        compare_with(run, bytes, 12, &hours.to_le_bytes())?;
    }
    Ok(())
}

/// The store with other bytes from some place on.
fn compare_with(run: &mut Run, bytes: &[u8], at: usize, other: &[u8]) -> Result<(), String> {
    let mut damaged = bytes.to_vec();
    damaged[at..at + other.len()].copy_from_slice(other);
    compare_all(&mut run.library, &damaged, &[Call::Free, Call::Append(1)])
        .map_err(|text| format!("{other:?} from byte {at} on: {text}"))
}

/// Each N, and each link led to each cell, to none and to numbers that are no
/// cell.
fn each_number(run: &mut Run, seed: u64) -> Result<(), String> {
    let mut random = Random::new(seed);
    let store = small_store(&mut random);
    let bytes = store.bytes();
    each_number_of_hours(run, &bytes, store.pages.len())?;
    let cells = store.cells as u16;
    let wild = [cells + 1, cells + 2, 255, 256, 1_800, 1_801, 65_535];
    for at in links(&store) {
        for target in (0..=cells).chain(wild) {
            compare_with(run, &bytes, at, &target.to_le_bytes())?;
        }
    }
    Ok(())
}

/// Several changes at once, of kinds that single bits do not give.
fn random_damage(run: &mut Run, seed: u64) -> Result<(), String> {
    let mut random = Random::new(seed);
    let store = small_store(&mut random);
    let mut bytes = store.bytes();
    for _ in 0..random.between(1, 3) {
        damage(&store, &mut bytes, &mut random);
    }
    probe(run, &bytes, &mut random)
}

/// The largest store, well filled, with one change.
fn damaged_largest(run: &mut Run, seed: u64) -> Result<(), String> {
    let mut random = Random::new(seed);
    let size = random.pick(&[Size::Few, Size::Usual]);
    let list = fitting(&mut random, 65_500, 1_800, size);
    let store = built(1_024, 1_800, &list, &mut random).expect("the list fits");
    let mut bytes = store.bytes();
    damage(&store, &mut bytes, &mut random);
    let calls = [Call::Free, Call::Append(1), Call::Reading(65_500)];
    compare_all(&mut run.library, &bytes, &calls)
}

pub fn damage(store: &Store, bytes: &mut [u8], random: &mut Random) {
    let any = random.below(bytes.len() as u64) as usize;
    let links = links(store);
    let (one, other) = (random.pick(&links), random.pick(&links));
    match random.below(6) {
        0 => bytes[any] = random.next() as u8,
        1 => bytes[any] = random.pick(&[0, 1, 127, 128, 255]),
        2 => bytes[12] = random.next() as u8,
        3 => bytes[one] = random.below(store.cells as u64 + 2) as u8,
        4 => swap(bytes, one, other, 2),
        _ => swap_entries(store, bytes, random),
    }
}

fn swap(bytes: &mut [u8], one: usize, other: usize, width: usize) {
    for k in 0..width {
        bytes.swap(one + k, other + k);
    }
}

/// Two whole page entries change places: often a sound store again.
fn swap_entries(store: &Store, bytes: &mut [u8], random: &mut Random) {
    let pages = store.pages.len() as u64;
    let mut entry = || 16 + 6 * random.below(pages) as usize;
    swap(bytes, entry(), entry(), 6);
}
