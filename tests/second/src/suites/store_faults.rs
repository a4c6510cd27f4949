//! The faults that a store can have, one by one and by name: each must be
//! refused with 10. The second implementation's word is not enough here, the
//! verdict is document 01's.

use crate::bits::turn;
use crate::days::Changes;
use crate::ffi::Library;
use crate::random::Random;
use crate::run::{Outcome, Run};
use crate::session::built;
use crate::store::Store;
use crate::store_bytes::length;
use crate::store_calls::{compare, same_word, Call};

const FIRST_SEED: u64 = 5_000_000;
const STORES: u64 = 40;
pub const PAGES: usize = 4;
pub const CELLS: usize = 24;
pub const HOURS: usize = 140;

/// A fault: what it is, and how it comes into a sound store.
pub type Fault = (&'static str, fn(&mut Sample));

/// A sound store of known shape and its bytes, in which a fault is made.
/// Page 0 has three cells or more, page 1 two, page 2 one hour with coins,
/// page 3 none; four or more cells are free.
pub struct Sample {
    pub store: Store,
    pub bytes: Vec<u8>,
}

pub fn play(run: &mut Run) -> Outcome {
    run.each_seed(FIRST_SEED, STORES, |run, seed| {
        named_faults(&mut run.library, seed)
    })?;
    for (name, bytes) in wrong_sizes() {
        let result = verdict(&mut run.library, &bytes, Some(-10));
        run.note(name, result)?;
    }
    for fault in &LAST_FAULTS {
        let result = fault_of_the_largest(&mut run.library, fault);
        run.note(fault.0, result)?;
    }
    let result = total_above_limit(&mut run.library);
    run.note("total above its limit", result)?;
    let result = hours_from_n_on(&mut run.library);
    run.note("hours from N on", result)
}

const FAULTS: [Fault; 33] = [
    ("edition 0", |s| s.bytes[0] = 0),
    ("edition 2", |s| s.bytes[0] = 2),
    ("byte 1 set", |s| s.bytes[1] = 1),
    ("byte 10 set", |s| s.bytes[10] = 1),
    ("byte 11 set", |s| s.bytes[11] = 1),
    ("N above 64P", |s| s.put(12, 64 * PAGES + 1)),
    ("N far above 64P", |s| s.bytes[15] = 1),
    ("N below a logged count", |s| s.put(12, HOURS - 1)),
    ("P one less", |s| s.put(2, PAGES - 1)),
    ("C one less", |s| s.put(4, CELLS - 1)),
    ("free count one more", |s| s.put(8, s.store.free.len() + 1)),
    ("free count one less", |s| s.put(8, s.store.free.len() - 1)),
    ("free count 0", |s| s.put(8, 0)),
    ("a cell leads to itself", |s| {
        s.link(s.chain(0)[1], s.chain(0)[1])
    }),
    ("a chain turns back", |s| {
        s.link(s.chain(0)[2], s.chain(0)[0])
    }),
    ("a chain runs into another page's", |s| {
        s.link(s.chain(0)[1], s.chain(1)[0]);
    }),
    ("a chain runs into the free chain", |s| {
        s.link(s.last(0), s.store.free[0]);
    }),
    ("a chain ends early", |s| s.link(s.chain(0)[0], 0)),
    ("a chain leads above C", |s| {
        s.link(s.chain(0)[0], CELLS + 1)
    }),
    ("a chain leads far above C", |s| {
        s.link(s.chain(0)[0], 65_535)
    }),
    ("two pages have one chain", |s| {
        s.put(16 + 6 + 4, s.chain(0)[0]);
    }),
    ("a page with coins has no chain", |s| s.put(16 + 4, 0)),
    ("a page without coins has a chain", |s| {
        s.put(16 + 6 * 3 + 4, s.store.free[0]);
    }),
    ("a chain one cell too long", one_cell_too_long),
    ("the free chain leads to itself", |s| {
        s.link(s.store.free[1], s.store.free[1]);
    }),
    ("the free chain runs into a page's", |s| {
        s.link(s.store.free[1], s.chain(1)[0]);
    }),
    ("the free chain ends early", |s| s.link(s.store.free[0], 0)),
    ("the free chain leads above C", |s| {
        s.link(s.store.free[0], CELLS + 1);
    }),
    ("the free chain has lost a cell", lost_cell),
    ("a free cell has its first bit set", |s| {
        s.turn(s.store.free[1], 0)
    }),
    ("a free cell has its last bit set", |s| {
        s.turn(s.store.free[2], 239)
    }),
    ("an unused bit of a chain is set", |s| {
        s.turn(s.last(0), 239)
    }),
    ("a page's sum is one less", |s| {
        let sum = s.store.pages[1].counts.iter().sum::<u64>();
        s.put(16 + 6, sum as usize - 1);
    }),
];

/// Faults in the last page and the last cells of the largest store, where a
/// check that ends early does not come.
const LAST_FAULTS: [Fault; 9] = [
    ("the last hour is not logged", |s| {
        s.bytes[12..16].copy_from_slice(&65_535u32.to_le_bytes());
    }),
    ("the last page's sum asks for two cells", |s| {
        s.put(16 + 6 * 1_023, 123);
    }),
    ("the last page has no chain", |s| {
        s.put(16 + 6 * 1_023 + 4, 0)
    }),
    ("the last page's chain runs on", |s| {
        s.link(s.last(1_023), s.store.free[0]);
    }),
    ("an unused bit of the last page is set", |s| {
        s.turn(s.last(1_023), 239)
    }),
    ("the last free cell has its last bit set", |s| {
        s.turn(s.last_free(), 239)
    }),
    ("the last free cell leads to itself", |s| {
        s.link(s.last_free(), s.last_free())
    }),
    ("the last free cell leads above C", |s| {
        s.link(s.last_free(), 1_801)
    }),
    ("the free count is one more than the last", |s| {
        s.put(8, s.store.free.len() + 1);
    }),
];

/// Changes after which document 01 still calls the store sound.
const STILL_SOUND: [Fault; 3] = [
    ("nothing", |_| ()),
    ("N larger over hours of zero", |s| s.put(12, HOURS + 1)),
    ("N is 64P", |s| s.bytes[12..14].copy_from_slice(&[0, 1])),
];

impl Sample {
    pub fn new(seed: u64) -> Sample {
        let mut random = Random::new(seed);
        let mut list = vec![0; HOURS];
        list[random.below(64) as usize] = random.between(70_000, 90_000);
        list[64 + random.below(60) as usize] = random.between(130, 250);
        list[HOURS - 1] = random.between(1, 122);
        let store = built(PAGES, CELLS, &list, &mut random).expect("24 cells suffice");
        Sample::of(store)
    }

    /// The largest store with a coin in every hour.
    fn largest() -> Sample {
        let store = built(1_024, 1_800, &[1; 65_536], &mut Random::new(4));
        Sample::of(store.expect("a cell for each page suffices"))
    }

    pub fn of(store: Store) -> Sample {
        let bytes = store.bytes();
        Sample { store, bytes }
    }

    pub fn chain(&self, page: usize) -> &[usize] {
        &self.store.pages[page].chain
    }

    pub fn last(&self, page: usize) -> usize {
        *self.chain(page).last().expect("the page has cells")
    }

    fn last_free(&self) -> usize {
        *self.store.free.last().expect("some cells are free")
    }

    /// Where a cell stands.
    pub fn cell(&self, number: usize) -> usize {
        length(self.store.pages.len(), number - 1)
    }

    /// Puts a number of two bytes.
    pub fn put(&mut self, at: usize, value: usize) {
        let value = u16::try_from(value).expect("two bytes hold it");
        self.bytes[at..at + 2].copy_from_slice(&value.to_le_bytes());
    }

    pub fn link(&mut self, from: usize, to: usize) {
        self.put(self.cell(from), to);
    }

    /// Gives a page the entry of another one: its sum and its chain.
    pub fn same_entry(&mut self, from: usize, to: usize) {
        let [from, to] = [from, to].map(|page| 16 + 6 * page);
        self.bytes.copy_within(from..from + 6, to);
    }

    /// Turns a bit of a cell's code.
    pub fn turn(&mut self, cell: usize, bit: usize) {
        let code = self.cell(cell) + 2;
        turn(&mut self.bytes, 8 * code + bit);
    }
}

/// The front of the free chain is moved to the end of page 1's.
fn one_cell_too_long(s: &mut Sample) {
    s.link(s.last(1), s.store.free[0]);
    s.link(s.store.free[0], 0);
    s.put(6, s.store.free[1]);
    s.put(8, s.store.free.len() - 1);
}

/// The free chain and its count agree, but a cell is on no chain.
fn lost_cell(s: &mut Sample) {
    s.put(6, s.store.free[1]);
    s.put(8, s.store.free.len() - 1);
}

/// Each fault in a sample of its own.
fn named_faults(library: &mut Library, seed: u64) -> Result<(), String> {
    let faults = FAULTS.iter().map(|fault| (fault, Some(-10)));
    let still_sound = STILL_SOUND.iter().map(|change| (change, None));
    for ((name, make), expected) in faults.chain(still_sound) {
        let mut sample = Sample::new(seed);
        make(&mut sample);
        verdict(library, &sample.bytes, expected)
            .map_err(|difference| format!("{name}: {difference}"))?;
    }
    Ok(())
}

/// Every live call and freeze on these bytes; all refused if one word is given.
fn verdict(library: &mut Library, bytes: &[u8], all: Option<i64>) -> Result<(), String> {
    let calls = [
        Call::Free,
        Call::Append(7),
        Call::Set(0, 7),
        Call::Insert(0, 7),
        Call::Strike(0),
        Call::Count(0),
        Call::Reading(0),
        Call::Reach(0),
        Call::Day(0, Changes::NONE),
        Call::Day(0, Changes::of(&[0])),
        Call::Freeze(3, 0),
        Call::Freeze(1, -1),
    ];
    for call in calls {
        let done = compare(library, &mut bytes.to_vec(), call)
            .map_err(|difference| format!("{call}: {difference}"))?;
        if let Some(expected) = all {
            same_word(done.word, expected, "document 01")?;
        } else if done.word == -10 {
            return Err(format!("{call}: refused 10 on a sound store"));
        }
    }
    Ok(())
}

/// Sound without the fault, and refused 10 with it.
fn fault_of_the_largest(library: &mut Library, (_, make): &Fault) -> Result<(), String> {
    let mut sample = Sample::largest();
    let free = compare(library, &mut sample.bytes, Call::Free)?;
    same_word(free.word, 776, "document 01")?;
    make(&mut sample);
    for call in [Call::Free, Call::Append(0), Call::Strike(65_535)] {
        let done = compare(library, &mut sample.bytes, call)?;
        same_word(done.word, -10, "document 01")?;
    }
    Ok(())
}

/// Stores that would be sound but for a P or C outside its limits.
pub fn wrong_sizes() -> Vec<(&'static str, Vec<u8>)> {
    let sized = |pages, cells| Store::fresh(pages, cells).bytes();
    vec![
        ("no pages", sized(0, 3)),
        ("no cells", sized(3, 0)),
        ("1,025 pages", sized(1_025, 3)),
        ("1,801 cells", sized(3, 1_801)),
        ("65,535 pages", sized(65_535, 1)),
        ("65,535 cells", sized(1, 65_535)),
        ("no bytes", Vec::new()),
        ("a header alone", sized(1, 1)[..16].to_vec()),
    ]
}

/// Coins in one hour alone: sound exactly if that hour is below N.
fn hours_from_n_on(library: &mut Library) -> Result<(), String> {
    for hour in 0..128 {
        let mut list = vec![0; 128];
        list[hour] = 3;
        let mut store = built(2, 2, &list, &mut Random::new(0)).expect("2 cells suffice");
        for (hours, expected) in [(hour, Some(-10)), (hour + 1, None)] {
            store.hours = hours;
            verdict(library, &store.bytes(), expected)
                .map_err(|difference| format!("coins in {hour}, N = {hours}: {difference}"))?;
        }
    }
    Ok(())
}

/// Two pages, each within the limit, sound in all but their total.
fn total_above_limit(library: &mut Library) -> Result<(), String> {
    for (first, second, expected) in [
        (4_294_967_295, 1, Some(-10)),
        (3_000_000_000, 3_000_000_000, Some(-10)),
        (4_294_967_294, 1, None),
    ] {
        let mut list = vec![0; 128];
        (list[5], list[100]) = (first, second);
        let store = built(2, 16, &list, &mut Random::new(first)).expect("16 cells suffice");
        verdict(library, &store.bytes(), expected)?;
    }
    Ok(())
}
