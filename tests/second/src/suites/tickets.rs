//! Ticket walls (document 02, note 8): images of totals up to 2^40 - 1, of
//! which those above 4,294,967,295 have edition 2.

use crate::image::{image_of, COUNT_LIMIT, MOST_COINS};
use crate::random::{counts_to, Random, Size};
use crate::run::{Outcome, Run};
use crate::run_calls::{compare_busiest, compare_match};
use crate::store_calls::{same_bytes, same_word};
use crate::suites::images::written_and_looked;

const FIRST_SEED: u64 = 8_600_000;
const LISTS: u64 = 400;
const RUNS: u64 = 120;
/// The least total of edition 2.
const LEAST: u64 = 1 << 32;

pub fn play(run: &mut Run) -> Outcome {
    let result = by_document_02(run).and_then(|()| greatest(run));
    run.note("ticket walls by document 02", result)?;
    for e in run.page_sizes() {
        let result = totals(run, e).and_then(|()| longest(run, e));
        run.note(format!("ticket walls, e = {e}"), result)?;
    }
    run.each_seed(FIRST_SEED, LISTS, random_list)?;
    run.each_seed(FIRST_SEED + 100_000, RUNS, runs_of_hours)
}

/// 256 hours that are as full as can be, and one more.
fn full_and(last: u64) -> Vec<u64> {
    [vec![COUNT_LIMIT; 256], vec![last]].concat()
}

/// Totals of 2^32 - 1, 2^32 and 2^40 - 1: e, the image's length and its header,
/// by the document's own layout; one coin more is refused 3, before 4.
fn by_document_02(run: &mut Run) -> Result<(), String> {
    let narrow = [1, 2, 0, 0, 1, 0, 0, 0, 0xFF, 0xFF, 0xFF, 0xFF, 128, 0, 0, 0];
    let least = [
        2, 2, 0, 0, 2, 0, 0, 0, 0, 0, 0, 0, 1, 0, 0, 0, 130, 0, 0, 0, 0, 0, 0, 0,
    ];
    let most = [
        2, 8, 0, 0, 1, 1, 0, 0, 0xFF, 0xFF, 0xFF, 0xFF, 0xFF, 0, 0, 0, 0x17, 0x26, 0, 0, 0, 0, 0, 0,
    ];
    heads(run, &[COUNT_LIMIT], 2, 36, &narrow)?;
    heads(run, &[COUNT_LIMIT, 1], 2, 45, &least)?;
    heads(run, &full_and(255), 8, 1_251, &most)?;
    let mut lent: Vec<u32> = full_and(256).iter().map(|&count| count as u32).collect();
    same_word(run.library.image_length(&mut lent, 8), -3, "document 02")?;
    let answer = run.library.image_write(&mut lent, 8, &mut []);
    same_word(answer, -3, "document 02")
}

/// A list whose image has this length and begins with this header.
fn heads(run: &mut Run, list: &[u64], e: u32, length: i64, header: &[u8]) -> Result<(), String> {
    let mut lent: Vec<u32> = list.iter().map(|&count| count as u32).collect();
    let mut out = vec![0x5A; length as usize];
    let answer = run.library.image_length(&mut lent, e);
    same_word(answer, length, "document 02")?;
    let answer = run.library.image_write(&mut lent, e, &mut out);
    same_word(answer, length, "document 02")?;
    same_bytes(&out[..header.len()], header, "header")?;
    same_bytes(&out, &image_of(list, e), "image")
}

/// What is asked of the greatest total, and what comes out.
fn greatest(run: &mut Run) -> Result<(), String> {
    let image = image_of(&full_and(255), 8);
    let (full, total) = (256 * COUNT_LIMIT as i64, MOST_COINS as i64);
    let mut lent = image.clone();
    let bytes = &mut lent[..];
    let library = &mut run.library;
    for (answer, expected) in [
        (library.image_check(bytes), total + (257 << 40)),
        (library.image_count(bytes, 255), COUNT_LIMIT as i64),
        (library.image_count(bytes, 256), 255),
        (library.image_reading(bytes, 256), full),
        (library.image_reading(bytes, 257), total),
        (library.image_reach(bytes, LEAST), 2),
        (library.image_reach(bytes, MOST_COINS), 257),
        (library.image_reach(bytes, MOST_COINS + 1), -8),
        (library.image_busiest(bytes, 256), full),
        (library.image_busiest(bytes, 257), total),
        (library.image_match(bytes, MOST_COINS), 257 << 32),
        (library.image_match(bytes, full as u64), 256 << 32),
        (library.image_match(bytes, 255), 256 + (1 << 32)),
        (library.image_match(bytes, MOST_COINS + 1), 0),
        (library.image_to_book(bytes, &mut []), -15),
    ] {
        same_word(answer, expected, "document 02")?;
    }
    same_bytes(&lent, &image, "image")
}

/// Totals around both ends of edition 2: full hours from the first on, or up
/// to the last, or with empty ones between; and spread evenly.
fn totals(run: &mut Run, e: u32) -> Result<(), String> {
    for end in [LEAST, 1 << 33, MOST_COINS + 1] {
        for total in end - 2..=end + 1 {
            let mut full = vec![COUNT_LIMIT; (total / COUNT_LIMIT) as usize];
            full.push(total % COUNT_LIMIT);
            let backwards = full.iter().rev().copied().collect();
            let apart = full.iter().flat_map(|&count| [0, count, 0]).collect();
            let mut even = vec![total / 300; 300];
            even[299] += total % 300;
            for list in [full, backwards, apart, even] {
                written_and_looked(run, &list, e, 60)
                    .map_err(|text| format!("total {total}, N = {}: {text}", list.len()))?;
            }
        }
    }
    Ok(())
}

/// The most hours with the most coins, and with one more.
fn longest(run: &mut Run, e: u32) -> Result<(), String> {
    let mut list = vec![MOST_COINS / 65_536; 65_536];
    list[65_535] += MOST_COINS % 65_536;
    written_and_looked(run, &list, e, 60)?;
    list[0] += 1;
    written_and_looked(run, &list, e, 60)
}

/// A total near either end of edition 2, or of any number of digits between.
fn total(random: &mut Random) -> u64 {
    let digits = random.between(33, 40);
    match random.below(4) {
        0 => LEAST - 3 + random.below(6),
        1 => MOST_COINS - random.below(3),
        _ => random.between(LEAST, (1 << digits) - 1),
    }
}

/// Counts with this total, or with all that so many hours can hold.
fn counts_of(random: &mut Random, length: usize, size: Size, total: u64) -> Vec<u64> {
    let mut list = counts_to(random, length, size, total);
    let mut left = total - list.iter().sum::<u64>();
    let mut hours: Vec<usize> = (0..length).collect();
    random.shuffle(&mut hours);
    for hour in hours {
        let more = left.min(COUNT_LIMIT - list[hour]);
        list[hour] += more;
        left -= more;
    }
    list
}

/// A list whose total is drawn so.
pub fn drawn(random: &mut Random, most_hours: u64) -> Vec<u64> {
    let (length, total) = (random.between(2, most_hours) as usize, total(random));
    let size = random.pick(&Size::ALL);
    counts_of(random, length, size, total)
}

fn random_list(run: &mut Run, seed: u64) -> Result<(), String> {
    let mut random = Random::new(seed);
    let e = random.between(2, 8) as u32;
    written_and_looked(run, &drawn(&mut random, 600), e, 200)
}

/// Bags with the sums of runs, and with sums that differ from them in one coin
/// or in their high bits alone; stretches of every number of hours. Half of
/// the lists have counts and sums with the same low bits.
fn runs_of_hours(run: &mut Run, seed: u64) -> Result<(), String> {
    let mut random = Random::new(seed);
    let e = random.between(2, 8) as u32;
    let mut list = drawn(&mut random, 300);
    if random.one_in(2) {
        let low = (1 << random.between(20, 31)) - 1;
        list.iter_mut().for_each(|count| *count &= !low);
    }
    let hours = list.len() as u64;
    let mut bags = vec![LEAST, MOST_COINS, 1 << 40];
    for _ in 0..40 {
        let end = random.between(1, hours) as usize;
        let first = random.below(end as u64) as usize;
        let sum: u64 = list[first..end].iter().sum();
        bags.extend([sum, sum + 1, sum ^ 1 << 32, sum | 1 << 40]);
    }
    let (image, accepted) = (image_of(&list, e), Ok(list));
    let stretches: Vec<u32> = (0..=hours as u32 + 1).collect();
    compare_match(&mut run.library, &image, &accepted, &bags)?;
    compare_busiest(&mut run.library, &image, &accepted, &stretches)
}
