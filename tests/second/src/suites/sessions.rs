//! Random lists of calls on small stores.

use crate::draw::{calls, Taste};
use crate::random::{Random, Size};
use crate::run::{Outcome, Run};
use crate::session::{Session, Start};

const FIRST_SEED: u64 = 1_000_000;
const LISTS: u64 = 2_000;
/// Plays spent on shortening a list that differs.
const PLAYS: usize = 400;

pub fn play(run: &mut Run) -> Outcome {
    run.each_seed(FIRST_SEED, LISTS, |run, seed| {
        compare_session(run, &small_session(seed), PLAYS)
    })
}

/// Plays a session; one that differs is shown as short as it can be made in
/// so many plays.
pub fn compare_session(run: &mut Run, session: &Session, plays: usize) -> Result<(), String> {
    let result = session.play(&mut run.library);
    if run.is_self_test() {
        return result;
    }
    result.map_err(|difference| {
        let shorter = session.shortened(&mut run.library, plays);
        format!("{difference}\n  shortened: {}", shorter.lines())
    })
}

fn small_session(seed: u64) -> Session {
    let mut random = Random::new(seed);
    let pages = random.pick(&[1, 1, 1, 2, 2, 3, 5]);
    let cells = match random.below(4) {
        0 => 8 * pages,
        1 => random.between(1, 3) as u32,
        _ => random.between(1, 8 * u64::from(pages)) as u32,
    };
    let taste = Taste {
        size: random.pick(&Size::ALL),
        appends: random.pick(&[10, 40, 80]),
        sets: random.pick(&[5, 30]),
        moves: random.pick(&[0, 15, 40]),
    };
    let length = random.between(20, 130 * u64::from(pages)) as usize;
    let list = calls(&mut random, pages, cells, &[], &taste, length);
    Session {
        pages,
        cells,
        start: Start::Fresh,
        calls: list,
    }
}
