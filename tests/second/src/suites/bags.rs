//! Bags matched over images of every page size.

use crate::image::image_of;
use crate::plain::TOTAL_LIMIT;
use crate::random::{counts, Random, Size};
use crate::run::{Outcome, Run};
use crate::run_calls::compare_match;
use crate::store_calls::{same_bytes, same_word};

const FIRST_SEED: u64 = 8_200_000;
const LISTS: u64 = 300;
const ALIKE: u64 = 60;
const FAR_APART: u64 = 40;
/// Up to this total every figure is asked.
const EVERY: u64 = 400;

/// Figures whose low bits alone could be good ones.
const WILD: [u64; 6] = [0, 1 << 32, (1 << 32) + 5, 1 << 40, 1 << 63, u64::MAX];

pub fn play(run: &mut Run) -> Outcome {
    let result = by_document_02(run);
    run.note("bags by document 02", result)?;
    for e in run.page_sizes() {
        let result = around_a_border(run, e).and_then(|()| longest(run, e));
        run.note(format!("bags, e = {e}"), result)?;
    }
    run.each_seed(FIRST_SEED, LISTS, random_list)?;
    run.each_seed(FIRST_SEED + 100_000, ALIKE, alike_in_low_bits)?;
    run.each_seed(FIRST_SEED + 150_000, FAR_APART, coins_far_apart)
}

/// Counts, figure and the word: the first hour, and the hours from 2^32 on.
const WORDS: [(&[u64], u64, i64); 13] = [
    (&[0, 0, 5], 5, 3 << 32),
    (&[5, 0, 0], 5, 1 << 32),
    (&[9, 0, 5, 0], 5, 1 + (2 << 32)),
    (&[1, 0, 2, 0, 5], 8, 5 << 32),
    (&[1, 0, 2, 0, 5], 7, 1 + (4 << 32)),
    (&[2, 3, 4, 1], 5, 2 << 32),
    (&[3, 3], 4, 0),
    (&[3, 3], 7, 0),
    (&[0, 0], 1, 0),
    (&[], 1, 0),
    (&[], 0, -17),
    (&[0, 0], 0, -17),
    (&[4_294_967_295], 4_294_967_295, 1 << 32),
];

fn by_document_02(run: &mut Run) -> Result<(), String> {
    for (list, figure, expected) in WORDS {
        gives(run, &image_of(list, 2), figure, expected)?;
    }
    // 6 before 17, and 5 before both.
    let mut damaged = image_of(WORDS[0].0, 2);
    damaged[8] ^= 1;
    gives(run, &damaged, 0, -6)?;
    damaged[0] = 9;
    gives(run, &damaged, 0, -5)
}

fn gives(run: &mut Run, image: &[u8], figure: u64, expected: i64) -> Result<(), String> {
    let mut lent = image.to_vec();
    let answer = run.library.image_match(&mut lent, figure);
    same_word(answer, expected, "document 02")?;
    same_bytes(&lent, image, "image")
}

fn compare(run: &mut Run, list: &[u64], e: u32, bags: &[u64]) -> Result<(), String> {
    let image = image_of(list, e);
    let accepted = Ok(list.to_vec());
    compare_match(&mut run.library, &image, &accepted, bags)
        .map_err(|difference| format!("e = {e}, N = {}: {difference}", list.len()))
}

/// Every figure over two pages and an hour, with zeros at either end and runs
/// that cross the border.
fn around_a_border(run: &mut Run, e: u32) -> Result<(), String> {
    let page = 1usize << e;
    let mut list = vec![0; 2 * page + 1];
    (list[1], list[page - 1], list[page], list[2 * page - 1]) = (2, 7, 9, 30);
    let every: Vec<u64> = (0..=50).chain(WILD).collect();
    compare(run, &list, e, &every)?;
    let every: Vec<u64> = (0..=6 * page as u64 + 4).chain(WILD).collect();
    compare(run, &vec![3; 2 * page + 1], e, &every)
}

/// The most hours: a hit in the last hour alone, none at all, the whole log,
/// and more than the log has.
fn longest(run: &mut Run, e: u32) -> Result<(), String> {
    let hours = 65_536;
    let mut list = vec![2; hours];
    let total = 2 * hours as u64;
    let some = [1, 2, 3, 999, 1_000, total - 1, total, total + 1];
    let some: Vec<u64> = some.into_iter().chain(WILD).collect();
    compare(run, &list, e, &some)?;
    list[hours - 1] = 3;
    compare(run, &list, e, &some)?;
    let mut last_alone = vec![0; hours];
    last_alone[hours - 1] = TOTAL_LIMIT;
    compare(run, &last_alone, e, &[1, TOTAL_LIMIT - 1, TOTAL_LIMIT])?;
    compare(run, &vec![0; hours], e, &[0, 1])
}

fn random_list(run: &mut Run, seed: u64) -> Result<(), String> {
    let mut random = Random::new(seed);
    let (e, length) = (random.between(2, 8) as u32, random.below(120) as usize);
    let size = random.pick(&Size::ALL);
    let list = counts(&mut random, length, size);
    let total: u64 = list.iter().sum();
    let mut bags: Vec<u64> = WILD.into();
    if total <= EVERY {
        bags.extend(1..=total + 1);
    }
    for _ in 0..60 {
        let end = random.between(0, length as u64) as usize;
        let first = random.between(0, end as u64) as usize;
        let sum: u64 = list[first..end].iter().sum();
        bags.extend([sum.saturating_sub(1), sum, sum + 1]);
    }
    compare(run, &list, e, &bags)
}

/// Counts, sums and figures that all have the same low bits, so that only the
/// high ones tell a run from another.
fn alike_in_low_bits(run: &mut Run, seed: u64) -> Result<(), String> {
    let mut random = Random::new(seed);
    let (e, length) = (random.between(2, 8) as u32, random.below(700) as usize);
    let unit = 1 << random.between(8, 16);
    let list: Vec<u64> = (0..length).map(|_| random.below(6) * unit).collect();
    let total: u64 = list.iter().sum();
    let few = (1..=40).map(|units| units * unit);
    let many = (0..20).map(|_| random.below(total / unit + 2) * unit);
    let bags: Vec<u64> = few
        .chain(many)
        .flat_map(|bag| [bag, bag + 1])
        .chain([total])
        .collect();
    compare(run, &list, e, &bags)
}

/// Coins in the first few of every 255 pages alone, with sums that are small
/// modulo 2,048. The library marks a page's sums by that remainder, and its
/// marks come again after 255 pages: here such a page meets those of the last,
/// and only the high bits tell their sums apart.
fn coins_far_apart(run: &mut Run, seed: u64) -> Result<(), String> {
    let mut random = Random::new(seed);
    let (e, length) = (2, random.between(2_000, 6_000));
    let pages = random.between(1, 4);
    let list: Vec<u64> = (0..length)
        .map(|hour| match (hour >> e) % 255 < pages {
            true => small_remainder(&mut random, 5, 3),
            false => 0,
        })
        .collect();
    let bags: Vec<u64> = (0..40)
        .map(|_| small_remainder(&mut random, 12, 12))
        .collect();
    compare(run, &list, e, &bags)
}

/// A number up to `high` times 2,048, and up to `low` more.
fn small_remainder(random: &mut Random, high: u64, low: u64) -> u64 {
    2_048 * random.between(0, high) + random.between(0, low)
}
