//! Insert and strike: at every hour of a store, and in lists of calls on
//! stores whose cells barely suffice.

use crate::draw::{calls, Taste};
use crate::forgotten::tight;
use crate::plain::need;
use crate::random::{counts, Random, Size};
use crate::run::{Outcome, Run};
use crate::session::{built, Session, Start};
use crate::store_calls::{compare, compare_all, same_bytes, same_word, Call};
use crate::suites::sessions::compare_session;

const FIRST_SEED: u64 = 8_800_000;
const STORES: u64 = 60;
const LISTS: u64 = 600;
const PLAYS: usize = 400;

pub fn play(run: &mut Run) -> Outcome {
    let result = by_document_02(run);
    run.note("insert and strike by document 02", result)?;
    run.each_seed(FIRST_SEED, STORES, every_hour)?;
    run.each_seed(FIRST_SEED + 100_000, LISTS, |run, seed| {
        compare_session(run, &tight_session(seed), PLAYS)
    })
}

/// Each refusal before the next: on a log that is full, and on one that lacks
/// an hour.
fn by_document_02(run: &mut Run) -> Result<(), String> {
    let too_many = u32::MAX;
    let full = tight().bytes();
    let words = [
        (Call::Insert(129, too_many), -7),
        (Call::Insert(128, too_many), -11),
        (Call::Insert(0, too_many), -11),
        (Call::Strike(128), -7),
        (Call::Strike(u32::MAX), -7),
        (Call::Strike(0), -12),
        (Call::Strike(64), 0),
        (Call::Strike(1), 0),
    ];
    all_give(run, &full, &words)?;
    let mut shorter = full.clone();
    compare(&mut run.library, &mut shorter, Call::Strike(127))?;
    let words = [
        (Call::Insert(128, too_many), -7),
        (Call::Insert(127, too_many), -3),
        (Call::Insert(127, too_many - 244), -12),
        (Call::Insert(0, 1), -12),
        (Call::Insert(127, 0), 0),
    ];
    all_give(run, &shorter, &words)?;
    let mut unsound = full;
    unsound[11] = 1;
    let words = [(Call::Insert(999, 0), -10), (Call::Strike(999), -10)];
    all_give(run, &unsound, &words)?;
    rise_and_fall(run)
}

fn rise_and_fall(run: &mut Run) -> Result<(), String> {
    let roomy = built(1, 8, &[0, 123], &mut Random::new(0)).expect("eight cells");
    let words = [
        (Call::Strike(0), 0),
        (Call::Strike(1), 2 * 65_536),
        (Call::Insert(0, 0), 0),
        (Call::Insert(1, u32::MAX - 123), 6),
    ];
    all_give(run, &roomy.bytes(), &words)?;
    many_cells(run)
}

/// Each page of the largest store has as many coins as a cell holds, every
/// second one five of them in its last hour: an hour more at the front brings
/// those five to a page that is full, an hour less brings them back.
fn many_cells(run: &mut Run) -> Result<(), String> {
    let mut list = vec![0; 65_535];
    for page in (0..1_024).step_by(2) {
        list[64 * page] = 117;
        list[64 * page + 63] = 5;
        list[64 * page + 64] = 122;
    }
    let store = built(1_024, 1_800, &list, &mut Random::new(0));
    let mut bytes = store.expect("a cell for each page").bytes();
    for (call, expected) in [(Call::Insert(0, 0), 512), (Call::Strike(0), 512 * 65_536)] {
        let done = compare(&mut run.library, &mut bytes, call)?;
        same_word(done.word, expected, "document 02")?;
    }
    Ok(())
}

fn all_give(run: &mut Run, bytes: &[u8], words: &[(Call, i64)]) -> Result<(), String> {
    for &(call, expected) in words {
        compare(&mut run.library, &mut bytes.to_vec(), call)
            .and_then(|done| same_word(done.word, expected, "document 02"))
            .map_err(|difference| format!("{call}: {difference}"))?;
    }
    Ok(())
}

/// A list of a few pages, in which some hours have most of the coins.
fn bumpy(random: &mut Random, hours: usize) -> Vec<u64> {
    let size = random.pick(&[Size::Zero, Size::Few, Size::Usual]);
    let mut list = counts(random, hours, size);
    for _ in 0..random.below(6) {
        if hours > 0 {
            let near = random
                .pick(&[0, 63, 64, 127, 128, 191])
                .min(hours as u64 - 1);
            list[near as usize] = random.pick(&[1, 122, 123, 600, 70_000, 1_000_000]);
        }
    }
    list
}

/// Every hour inserted before and struck, each on a copy of the store; and
/// insert at N beside append.
fn every_hour(run: &mut Run, seed: u64) -> Result<(), String> {
    let mut random = Random::new(seed);
    let hours = random.pick(&[0, 1, 63, 64, 65, 127, 128, 150, 191, 192]);
    let list = bumpy(&mut random, hours);
    let cells = need(&list).max(1) + random.pick(&[0, 0, 1, 2, 9]);
    let store = built(3, cells as usize, &list, &mut random).expect("the need and more");
    let bytes = store.bytes();
    let count = random.pick(&[0, 1, 50, 123, 5_000, u32::MAX]);
    for hour in 0..=hours as u32 + 1 {
        let moves = [
            Call::Insert(hour, count),
            Call::Insert(hour, 0),
            Call::Strike(hour),
        ];
        compare_all(&mut run.library, &bytes, &moves)?;
    }
    let (mut inserted, mut appended) = (bytes.clone(), bytes);
    let at_end = Call::Insert(hours as u32, count);
    let by_insert = compare(&mut run.library, &mut inserted, at_end)?;
    let by_append = compare(&mut run.library, &mut appended, Call::Append(count))?;
    same_word(by_insert.word, by_append.word, "append")?;
    same_bytes(&inserted, &appended, "store, beside append")
}

/// All nine calls mixed, on a store with a cell or two more than it needs.
fn tight_session(seed: u64) -> Session {
    let mut random = Random::new(seed);
    let pages = random.between(2, 4) as u32;
    let hours = random.below(64 * u64::from(pages) + 1) as usize;
    let start = bumpy(&mut random, hours);
    let cells = (need(&start).max(1) + random.below(4)) as u32;
    let taste = Taste {
        size: random.pick(&[Size::Few, Size::Usual, Size::Mixed]),
        appends: 10,
        sets: 10,
        moves: 60,
    };
    let list = calls(&mut random, pages, cells, &start, &taste, 150);
    Session {
        pages,
        cells,
        start: Start::Built(start, seed),
        calls: list,
    }
}
