//! Two coin doors (document 02, note 9): images merged.

use crate::bits::{number, turn};
use crate::image::{image_of, COUNT_LIMIT, MOST_COINS};
use crate::merge_calls::{compare_doubling, compare_merging, Door};
use crate::random::{counts, Random, Size};
use crate::run::{Outcome, Run};
use crate::store_calls::{same_bytes, same_word};
use crate::suites::tickets::drawn;

const FIRST_SEED: u64 = 9_000_000;
const PAIRS: u64 = 1_500;
const DAMAGED: u64 = 40;
const LONG: u64 = 12;
const MOST_HOURS: usize = 65_536;

pub fn play(run: &mut Run) -> Outcome {
    let result = by_document_02(run).and_then(|()| order(run));
    run.note("merge by document 02", result)?;
    for e in run.page_sizes() {
        let result = page_sizes(run, e)
            .and_then(|()| one_full_hour(run, e))
            .and_then(|()| totals(run, e))
            .and_then(|()| longest(run, e));
        run.note(format!("merge, e = {e}"), result)?;
    }
    run.each_seed(FIRST_SEED, PAIRS, random_pair)?;
    run.each_seed(FIRST_SEED + 100_000, DAMAGED, damaged)?;
    run.each_seed(FIRST_SEED + 200_000, LONG, long_pair)
}

/// Document 01's counts, and six hours at another e. Their sums are 4, 0, 2, 1, 5
/// and 7, whose image at e = 2 is written out here.
fn by_document_02(run: &mut Run) -> Result<(), String> {
    let image = [
        1, 2, 0, 0, 6, 0, 0, 0, 19, 0, 0, 0, 30, 0, 0, 0, // N, S and L
        0, 0, 0, 0, 14, 0, 0, 0, // two pages
        0x3C, 0x92, 0x78, 0xA0,
    ];
    let mut first = image_of(&[1, 0, 2, 0, 5], 2);
    let mut second = image_of(&[3, 0, 0, 1, 0, 7], 3);
    let mut out = [0x5A; 31];
    let answer = run
        .library
        .image_merge(&mut first, &mut second, 2, &mut out);
    same_word(answer, 28, "document 02")?;
    same_bytes(&out[..28], &image, "image of the sums")?;
    same_bytes(&out[28..], &[0x5A; 3], "later bytes")
}

/// Every set of refusals that fit at once: 'Refusals: 1, then 5 and 6 of the first,
/// the same of the second, then 3 if a count passes 4,294,967,295 or the total its
/// limit, then 4'.
fn order(run: &mut Run) -> Result<(), String> {
    let in_other_hours = [vec![0; 256], vec![256]].concat();
    for (first, second, three) in [
        (vec![1, 0, 2], vec![4], 0),
        (vec![0, COUNT_LIMIT], vec![3, 1], 3),
        (vec![COUNT_LIMIT; 256], in_other_hours, 3),
    ] {
        let (first, second) = (image_of(&first, 3), image_of(&second, 8));
        for (e, one) in [(9, 1), (2, 0)] {
            for of_first in [0, 5, 6] {
                for of_second in [0, 5, 6] {
                    let doors = [with_fault(&first, of_first), with_fault(&second, of_second)];
                    for (room, four) in [(0, 4), (2_000, 0)] {
                        let fit = [one, of_first, of_second, three, four];
                        first_that_fits(run, &doors, e, room, fit)?;
                    }
                    compare_merging(&mut run.library, &doors[0], &doors[1], e)?;
                }
            }
        }
    }
    Ok(())
}

/// An image as it is, with a wrong header (5), or with another total than its
/// counts have (6).
fn with_fault(image: &[u8], fault: i64) -> Door {
    let mut bytes = image.to_vec();
    match fault {
        5 => bytes[0] = 3,
        6 => bytes[8] ^= 1,
        _ => {}
    }
    Door::any(bytes)
}

/// The first of these refusals comes that is not 0, and changes no byte; or none.
fn first_that_fits(
    run: &mut Run,
    doors: &[Door; 2],
    e: u32,
    room: usize,
    fit: [i64; 5],
) -> Result<(), String> {
    let [mut first, mut second] = doors.each_ref().map(|door| door.bytes.clone());
    let mut out = vec![0x5A; room];
    let answer = run
        .library
        .image_merge(&mut first, &mut second, e, &mut out);
    match fit.into_iter().find(|&refusal| refusal != 0) {
        None if answer > 0 => Ok(()),
        None => Err(format!("refused {}, though nothing fits", -answer)),
        Some(refusal) => {
            same_word(answer, -refusal, "document 02")?;
            same_bytes(&out, &vec![0x5A; room], "buffer of a refused call")
        }
    }
}

/// All three page sizes, and logs that end in the same page, in the same 256 hours,
/// before them, or nowhere; of either edition.
fn page_sizes(run: &mut Run, e: u32) -> Result<(), String> {
    let mut random = Random::new(e.into());
    for (a, b) in (2..=8).flat_map(|a| (2..=8).map(move |b| (a, b))) {
        for hours in [
            [0, 0],
            [0, 5],
            [1 << a, (1 << b) + 1],
            [256, 255],
            [257, 512],
            [700, 3],
        ] {
            let [first, second] = hours.map(|length| {
                let size = random.pick(&Size::ALL);
                counts(&mut random, length, size)
            });
            let (first, second) = (Door::of(&first, a), Door::of(&second, b));
            let wide = Door::of(&drawn(&mut random, 300), a);
            for [one, other] in [[&first, &second], [&second, &first], [&wide, &second]] {
                compare_merging(&mut run.library, one, other, e)
                    .map_err(|text| format!("e of {a} and {b}, {hours:?} hours: {text}"))?;
            }
        }
    }
    Ok(())
}

/// One hour whose sum is at the limit of a count, or above it, also by as much as
/// 32 bits would lose: in either log's first and last hours and at borders of pages.
fn one_full_hour(run: &mut Run, e: u32) -> Result<(), String> {
    let half = 1 << 31;
    for hour in [0, 1, 3, 4, 255, 256, 511, 512, 599] {
        for (count, more) in [
            (COUNT_LIMIT, 0),
            (COUNT_LIMIT, 1),
            (COUNT_LIMIT - 1, 1),
            (half, half - 1),
            (half, half),
            (COUNT_LIMIT, COUNT_LIMIT),
        ] {
            let [mut first, mut second] = [vec![2; 600], vec![3; hour + 1]];
            (first[hour], second[hour]) = (count, more);
            let short = Door::of(&second[..hour], 2 + (e + 3) % 7);
            let (first, second) = (Door::of(&first, e), Door::of(&second, 2 + e % 7));
            for [one, other] in [[&first, &second], [&second, &first], [&first, &short]] {
                compare_merging(&mut run.library, one, other, e)
                    .map_err(|text| format!("hour {hour}, {count} and {more}: {text}"))?;
            }
        }
    }
    Ok(())
}

/// A total over every second of 600 hours.
fn spread(total: u64, from: usize) -> Vec<u64> {
    let mut list = vec![0; 600];
    list.iter_mut()
        .skip(from)
        .step_by(2)
        .for_each(|count| *count = total / 300);
    list[from] += total % 300;
    list
}

/// Totals around the ends of both editions, in one log or shared out, while no
/// count passes its limit.
fn totals(run: &mut Run, e: u32) -> Result<(), String> {
    let ends = [1 << 32, MOST_COINS + 1]
        .into_iter()
        .flat_map(|end| end - 2..end + 2);
    for total in ends.chain([2 * MOST_COINS]) {
        for first in [0, 5, total / 2, total - 5, total] {
            let second = total - first;
            if first.max(second) > MOST_COINS {
                continue;
            }
            let (a, b) = (
                Door::of(&spread(first, 0), 6),
                Door::of(&spread(second, 1), e),
            );
            compare_merging(&mut run.library, &a, &b, e)
                .map_err(|text| format!("totals {first} and {second}: {text}"))?;
        }
    }
    Ok(())
}

/// The most hours, in one log and in both, of either edition.
fn longest(run: &mut Run, e: u32) -> Result<(), String> {
    let mut random = Random::new(e.into());
    let first = Door::of(&counts(&mut random, MOST_HOURS, Size::Few), e);
    let wide = Door::of(&vec![16_000_000; MOST_HOURS], 8);
    for length in [0, 1, MOST_HOURS - 1, MOST_HOURS] {
        let second = Door::of(&counts(&mut random, length, Size::Usual), 2 + e % 7);
        compare_merging(&mut run.library, &first, &second, e)?;
        compare_merging(&mut run.library, &second, &wide, e)?;
    }
    compare_doubling(&mut run.library, &first, e)?;
    compare_doubling(&mut run.library, &wide, e)
}

/// A list of either edition, of at most so many hours.
fn any_list(random: &mut Random, most_hours: u64) -> Vec<u64> {
    let (size, length) = (random.pick(&Size::ALL), random.below(most_hours));
    if random.one_in(4) {
        return drawn(random, most_hours);
    }
    let list = counts(random, length as usize, size);
    let less = random.below(8);
    list.iter().map(|count| count >> less).collect()
}

fn random_pair(run: &mut Run, seed: u64) -> Result<(), String> {
    let mut random = Random::new(seed);
    let most_hours = random.pick(&[3, 20, 300, 1_200]);
    let [a, b, e] = [(); 3].map(|()| random.between(2, 8) as u32);
    let first = any_list(&mut random, most_hours);
    let second = any_list(&mut random, most_hours);
    let (first, second) = (Door::of(&first, a), Door::of(&second, b));
    let sums = compare_merging(&mut run.library, &first, &second, e)?;
    let swapped = compare_merging(&mut run.library, &second, &first, e)?;
    if sums != swapped {
        return Err("the second implementation's sums depend on the order".into());
    }
    compare_doubling(&mut run.library, &first, e)?;
    let none = Door::of(&[], random.between(2, 8) as u32);
    let alone = compare_merging(&mut run.library, &none, &first, e)?;
    same_bytes(
        &alone.ok_or("no image of one log")?,
        &image_of(first.list.as_ref().expect("a list"), e),
        "image of one log",
    )?;
    match sums {
        Some(sums) => held_readings(run, [&first.bytes, &second.bytes, &sums]),
        None => Ok(()),
    }
}

/// 'The reading at every hour is the sum of the two readings, each held at its own
/// total beyond its end', by the library's own answers.
fn held_readings(run: &mut Run, images: [&[u8]; 3]) -> Result<(), String> {
    let mut lent = images.map(<[u8]>::to_vec);
    let hours = images.map(|image| number(&image[4..8]) as u32);
    let every = hours[2] as usize / 40 + 1;
    for i in (0..hours[2]).step_by(every).chain(hours) {
        let mut readings = [0; 3];
        for k in 0..3 {
            readings[k] = run.library.image_reading(&mut lent[k], i.min(hours[k]));
            same_bytes(&lent[k], images[k], "image")?;
        }
        let [first, second, sums] = readings;
        same_word(sums, first + second, "the sum of two readings")?;
    }
    Ok(())
}

/// Each bit of either image turned, each length of either, and both at once.
fn damaged(run: &mut Run, seed: u64) -> Result<(), String> {
    let mut random = Random::new(seed);
    let [a, b, e] = [(); 3].map(|()| random.pick(&[2, 2, 3, 4]));
    let [first, second] = [a, b].map(|e| image_of(&any_list(&mut random, 12), e));
    let good = [&first, &second].map(|image| Door::any(image.clone()));
    for first_one in [true, false] {
        let image = if first_one { &first } else { &second };
        for spoilt in 0..9 * image.len() {
            let mut bytes = image.clone();
            match spoilt.checked_sub(8 * image.len()) {
                None => turn(&mut bytes, spoilt),
                Some(length) => bytes.truncate(length),
            }
            let (door, mut other) = (Door::any(bytes), good[usize::from(first_one)].clone());
            if random.one_in(4) {
                let bit = random.below(8 * other.bytes.len() as u64) as usize;
                turn(&mut other.bytes, bit);
                other = Door::any(other.bytes);
            }
            let [one, two] = if first_one {
                [&door, &other]
            } else {
                [&other, &door]
            };
            compare_merging(&mut run.library, one, two, e)
                .map_err(|text| format!("first {first_one}, {spoilt}: {text}"))?;
            compare_doubling(&mut run.library, &door, e)?;
        }
    }
    Ok(())
}

/// Long logs, as they are and with one hour alone that passes the limit.
fn long_pair(run: &mut Run, seed: u64) -> Result<(), String> {
    let mut random = Random::new(seed);
    let [a, b, e] = [(); 3].map(|()| random.between(2, 8) as u32);
    let [mut first, mut second] = [(); 2].map(|()| {
        let length = random.between(1_000, MOST_HOURS as u64) as usize;
        counts(&mut random, length, Size::Usual)
    });
    let doors = [Door::of(&first, a), Door::of(&second, b)];
    compare_merging(&mut run.library, &doors[0], &doors[1], e)?;
    let hour = random.below(first.len().min(second.len()) as u64) as usize;
    (first[hour], second[hour]) = (COUNT_LIMIT, 1);
    let doors = [Door::of(&first, a), Door::of(&second, b)];
    compare_merging(&mut run.library, &doors[0], &doors[1], e)?;
    Ok(())
}
