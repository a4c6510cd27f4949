//! Days with a clock change, on stores of a few weeks and on the longest log.

use crate::days::{hours_of, Changes, WRONG};
use crate::draw::right_changes;
use crate::plain::Plain;
use crate::random::{counts, Random, Size};
use crate::refusal::word;
use crate::run::{Outcome, Run};
use crate::session::built;
use crate::store;
use crate::store_calls::{compare, same_bytes, same_word, Call, SECOND};
use crate::suites::large::fitting;

const FIRST_SEED: u64 = 8_600_000;
const STORES: u64 = 200;
const LONGEST: u64 = 12;

/// Hours of the longest log, and more days than it can have, of 23 hours each.
const HOURS: usize = 65_536;
const DAYS: u32 = 65_536 / 23 + 1;

/// Days far off, some of which would come near again if their hours wrapped.
const WILD: [u32; 5] = [178_956_969, 178_956_970, 178_956_971, 1 << 31, u32::MAX];

pub fn play(run: &mut Run) -> Outcome {
    let result = by_document_02(run);
    run.note("days by document 02", result)?;
    let result = days_of_later_years(run);
    run.note("days of later years by document 02", result)?;
    let result = long_lists(run).and_then(|()| longest_lists(run));
    run.note("long lists of changed days", result)?;
    run.each_seed(FIRST_SEED, STORES, random_store)?;
    run.each_seed(FIRST_SEED + 100_000, LONGEST, longest_log)
}

/// A store of so many hours, the count of hour i being i.
fn rising(hours: usize) -> Vec<u8> {
    let list: Vec<u64> = (0..hours as u64).collect();
    let store = built(4, 32, &list, &mut Random::new(9));
    store.expect("eight cells a page suffice").bytes()
}

/// The sum of the counts of these hours.
fn sum(from: i64, to: i64) -> i64 {
    (from..to).sum()
}

fn by_document_02(run: &mut Run) -> Result<(), String> {
    let last = u32::MAX;
    let words: [(u32, &[u32], i64); 14] = [
        (0, &[], sum(0, 24)),
        (3, &[], sum(72, 96)),
        (4, &[], -7),
        (1, &[1, 23], sum(24, 47)),
        (1, &[1, 25], sum(24, 49)),
        (2, &[1, 23], sum(47, 71)),
        (2, &[1, 25], sum(49, 73)),
        (3, &[0, 25], sum(73, 97)),
        (3, &[0, 25, 1, 25, 2, 25], -7),
        (3, &[3, 25], sum(72, 97)),
        (3, &[0, 25, 3, 25], -7),
        (4, &[0, 23, 4, 23], -7),
        (3, &[last, 23], sum(72, 96)),
        (last, &[0, 23, last, 25], -7),
    ];
    let mut bytes = rising(97);
    for (day, changes, expected) in words {
        let call = Call::Day(day, Changes::of(changes));
        let done = compare(&mut run.library, &mut bytes, call)?;
        same_word(done.word, expected, "document 02").map_err(|text| format!("{call}: {text}"))?;
    }
    wrong_lists(run, &bytes)
}

/// The longest log with a coin in every hour: the coins of a day are its hours.
/// Eight hours less in the first days, and day 2,730 ends with the log.
fn days_of_later_years(run: &mut Run) -> Result<(), String> {
    let store = built(1_024, 1_800, &[1; HOURS], &mut Random::new(1));
    let bytes = store.expect("a cell for each page suffices").bytes();
    let eight: Vec<u32> = (0..8).flat_map(|day| [day, 23]).collect();
    let words: [(u32, &[u32], i64); 9] = [
        (2_729, &[], 24),
        (2_730, &[], -7),
        (365, &[365, 25], 25),
        (400, &[400, 25], 25),
        (400, &[399, 25], 24),
        (2_729, &[2_729, 23], 23),
        (2_729, &[88, 23, 2_729, 25], 25),
        (2_730, &eight, 24),
        (2_730, &eight[2..], -7),
    ];
    for (day, changes, expected) in words {
        gives(run, &bytes, day, changes, expected, "document 02")?;
    }
    Ok(())
}

/// 16 for every day, logged or not; 10 before it.
fn wrong_lists(run: &mut Run, bytes: &[u8]) -> Result<(), String> {
    let mut unsound = bytes.to_vec();
    unsound[1] = 1;
    for changes in WRONG {
        for day in (0..8).chain(WILD) {
            let answer = run.library.day(&mut bytes.to_vec(), day, changes);
            same_word(answer, -16, "document 02")?;
            let answer = run.library.day(&mut unsound, day, changes);
            same_word(answer, -10, "document 02")?;
        }
    }
    Ok(())
}

/// A list of any length, which no call of a session carries.
fn compare_day(run: &mut Run, bytes: &[u8], day: u32, changes: &[u32]) -> Result<(), String> {
    let expected = word(store::day(bytes, day.into(), changes));
    gives(run, bytes, day, changes, expected, SECOND)
}

fn gives(
    run: &mut Run,
    bytes: &[u8],
    day: u32,
    changes: &[u32],
    expected: i64,
    other: &str,
) -> Result<(), String> {
    let mut lent = bytes.to_vec();
    let answer = run.library.day(&mut lent, day, changes);
    same_word(answer, expected, other)
        .and_then(|()| same_bytes(&lent, bytes, "store"))
        .map_err(|difference| format!("day {day}, {} entries: {difference}", changes.len()))
}

/// A list with another entry at one place.
fn other(list: &[u32], at: usize, entry: u32) -> Vec<u32> {
    let mut list = list.to_vec();
    list[at] = entry;
    list
}

/// A change on each day of the longest log: right, a change short, and wrong at
/// one place alone, whichever it is.
fn long_lists(run: &mut Run) -> Result<(), String> {
    let bytes = rising(200);
    for hours in [23, 25] {
        let right: Vec<u32> = (0..DAYS).flat_map(|day| [day, hours]).collect();
        for day in (0..10).chain(WILD) {
            compare_day(run, &bytes, day, &right)?;
            compare_day(run, &bytes, day, &right[..right.len() - 1])?;
        }
        for at in 0..right.len() {
            let entry = match at % 2 {
                0 if at == 0 => u32::MAX,
                0 => right[at - 2],
                _ => 24,
            };
            let wrong = other(&right, at, entry);
            gives(run, &bytes, 3, &wrong, -16, "document 02")?;
        }
    }
    Ok(())
}

/// More changes than numbers of two bytes count, as many entries and as many
/// pairs: right, and wrong in the last pairs.
fn longest_lists(run: &mut Run) -> Result<(), String> {
    let bytes = rising(200);
    let right: Vec<u32> = (0..70_000).flat_map(|day| [3 * day + 1, 25]).collect();
    let last = right.len() - 1;
    compare_day(run, &bytes, 7, &right)?;
    for list in [
        right[..last].to_vec(),
        other(&right, last, 24),
        other(&right, last - 1, right[last - 3]),
        other(&right, last - 3, u32::MAX),
    ] {
        gives(run, &bytes, 7, &list, -16, "document 02")?;
    }
    Ok(())
}

/// Changes over all days of the longest log: two a year, one alone, on every day
/// and on half of them; of 23 hours, of 25 and of both.
fn changes_over_years(random: &mut Random, kind: u64) -> Vec<u32> {
    let days: Vec<u32> = match kind % 4 {
        0 => (0..9)
            .flat_map(|year| [365 * year + 88, 365 * year + 305])
            .collect(),
        1 => vec![random.between(366, 2_700) as u32],
        2 => (0..DAYS).collect(),
        _ => (0..DAYS).filter(|_| random.one_in(2)).collect(),
    };
    let hours: [&[u32]; 3] = [&[23], &[25], &[23, 25]];
    let hours = hours[kind as usize / 4 % hours.len()];
    days.into_iter()
        .flat_map(|day| [day, random.pick(hours)])
        .collect()
}

/// Days all over the log, some that are changed with their neighbours, and the
/// last that is logged with its own.
fn days_to_ask(random: &mut Random, changes: &[u32]) -> Vec<u32> {
    let ends_late = |&day: &u32| hours_of(day.into(), changes).is_ok_and(|h| h.end > HOURS as u128);
    let not_logged = (0..=DAYS).find(ends_late).expect("the log has an end");
    let mut near = vec![not_logged - 1];
    near.extend((0..20).map(|_| changes[2 * random.below(changes.len() as u64 / 2) as usize]));
    let beside = near
        .into_iter()
        .flat_map(|day| [day.saturating_sub(1), day, day + 1]);
    (0..DAYS).step_by(37).chain(beside).chain(WILD).collect()
}

/// The largest store with all its hours logged. It is held to the plain list: the
/// second implementation would read 63,760 bytes anew for every day.
fn longest_log(run: &mut Run, seed: u64) -> Result<(), String> {
    let mut random = Random::new(seed);
    let list = fitting(&mut random, HOURS, 1_800, Size::Few);
    let store = built(1_024, 1_800, &list, &mut random).expect("the list fits");
    let (bytes, plain) = (store.bytes(), Plain::of(1_024, 1_800, list));
    let changes = changes_over_years(&mut random, seed);
    for day in days_to_ask(&mut random, &changes) {
        let expected = word(plain.day(day.into(), &changes));
        gives(run, &bytes, day, &changes, expected, "the plain list")?;
    }
    Ok(())
}

/// Every day of a store under several lists.
fn random_store(run: &mut Run, seed: u64) -> Result<(), String> {
    let mut random = Random::new(seed);
    let hours = random.between(0, 256) as usize;
    let size = random.pick(&Size::ALL);
    let list = counts(&mut random, hours, size);
    let store = built(4, 32, &list, &mut random).expect("eight cells a page suffice");
    let bytes = store.bytes();
    for _ in 0..6 {
        let changes = right_changes(&mut random, 12);
        for day in (0..12).chain(WILD) {
            compare_day(run, &bytes, day, &changes)
                .map_err(|difference| format!("{:?}: {difference}", &*changes))?;
        }
    }
    Ok(())
}
