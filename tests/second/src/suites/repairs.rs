//! Bring a store back to sound (document 02, note 10): damage by name, whose
//! verdict is the document's, and damage of every kind.

use crate::bits::turn;
use crate::ffi::Library;
use crate::random::{Random, Size};
use crate::repair_calls::{compare_repair, same_list, unwritten};
use crate::run::{Outcome, Run};
use crate::session::built;
use crate::store::Store;
use crate::store_bytes::length;
use crate::store_calls::{compare_all, same_word, Call};
use crate::suites::large::fitting;
use crate::suites::store_damage::{damage, links, small_store};
use crate::suites::store_faults::{wrong_sizes, Fault, Sample, CELLS, HOURS, PAGES};

const FIRST_SEED: u64 = 10_000_000;
const NAMED: u64 = 40;
const EACH_BIT: u64 = 24;
const EACH_NUMBER: u64 = 60;
const RANDOM: u64 = 20_000;
const NOISE: u64 = 4_000;
const LARGEST: u64 = 30;

pub fn play(run: &mut Run) -> Outcome {
    run.each_seed(FIRST_SEED, NAMED, |run, seed| {
        named_damage(&mut run.library, seed).and_then(|()| refused(&mut run.library, seed))
    })?;
    let result = totals(&mut run.library).and_then(|()| sizes(&mut run.library));
    run.note("totals and sizes", result)?;
    let result = one_chain_for_all(&mut run.library);
    run.note("one chain for all pages", result)?;
    run.each_seed(FIRST_SEED + 100_000, EACH_BIT, each_bit_and_length)?;
    run.each_seed(FIRST_SEED + 200_000, EACH_NUMBER, each_number)?;
    run.each_seed(FIRST_SEED + 300_000, RANDOM, random_damage)?;
    run.each_seed(FIRST_SEED + 400_000, NOISE, noise)?;
    run.each_seed(FIRST_SEED + 500_000, LARGEST, damaged_largest)
}

/// Damage: what it is, the pages that it costs, and how it is done.
type Damage = (&'static str, &'static [u32], fn(&mut Sample));

/// Of a store whose page 0 has four cells, page 1 two, page 2 one hour with
/// coins, the last that is logged, and page 3 none.
const DAMAGE: [Damage; 32] = [
    ("none", &[], |_| ()),
    ("the free chain's first cell and number are any", &[], |s| {
        s.bytes[6..10].fill(0xFF);
    }),
    ("the free chain leads to itself", &[], |s| {
        s.link(s.store.free[1], s.store.free[1]);
    }),
    ("a free cell is not clear", &[], |s| {
        s.turn(s.store.free[0], 7)
    }),
    ("the free chain has a page's cells", &[], |s| {
        s.put(6, s.chain(0)[0]);
    }),
    ("a page's chain over free cells", &[], over_free_cells),
    ("a chain ends early", &[0], |s| s.link(s.chain(0)[0], 0)),
    ("a chain runs on", &[1], |s| {
        s.link(s.last(1), s.store.free[0])
    }),
    ("a page with coins has no chain", &[0], |s| s.put(20, 0)),
    ("a chain leads above C", &[0], |s| {
        s.link(s.chain(0)[0], CELLS + 1)
    }),
    ("a chain leads far above C", &[0], |s| {
        s.link(s.chain(0)[2], 65_535)
    }),
    ("a chain ends above C", &[1], |s| {
        s.link(s.last(1), CELLS + 1)
    }),
    ("a cell leads to itself", &[0], |s| {
        s.link(s.chain(0)[1], s.chain(0)[1])
    }),
    ("a chain turns back", &[0], |s| {
        s.link(s.last(0), s.chain(0)[0])
    }),
    ("a chain runs into another page's", &[0], |s| {
        s.link(s.chain(0)[1], s.chain(1)[0]);
    }),
    ("a chain runs into an earlier page's", &[1], |s| {
        s.link(s.chain(1)[0], s.last(0));
    }),
    ("page 1 is page 0 again", &[1], |s| s.same_entry(0, 1)),
    (
        "page 1 shares page 0's last cell alone",
        &[1],
        one_cell_shared,
    ),
    ("page 0 is page 1 too", &[1], |s| s.same_entry(1, 0)),
    ("page 1 has the chain of page 0, which is lost", &[0], |s| {
        s.same_entry(0, 1);
        s.bytes[19] = 1;
    }),
    ("a page's sum is one less", &[1], |s| s.bytes[22] -= 1),
    ("a page's sum is 0", &[2], |s| s.bytes[28..32].fill(0)),
    ("a page without coins has a chain", &[3], |s| {
        s.put(38, s.store.free[0]);
    }),
    ("a page without coins leads above C", &[3], |s| {
        s.put(38, CELLS + 1)
    }),
    ("a left sum is above its node", &[1], |s| {
        let code = s.cell(s.chain(1)[0]) + 2;
        s.bytes[code] = 0xFF;
    }),
    ("a bit left over within the reserve", &[1], |s| {
        s.turn(s.chain(1)[0], 60)
    }),
    ("a bit between the reserve and the chain's end", &[1], |s| {
        s.turn(s.last(1), 239)
    }),
    ("the last hour is not logged", &[2], |s| {
        s.put(12, HOURS - 1)
    }),
    ("one page is logged", &[1, 2], |s| s.put(12, 64)),
    ("no hour is logged", &[0, 1, 2], |s| s.put(12, 0)),
    ("all hours are logged", &[], |s| s.put(12, 64 * PAGES)),
    ("all entries are lost", &[0, 1, 2, 3], |s| {
        s.bytes[16..40].fill(0xFF)
    }),
];

/// Page 1's chain is laid into two cells that are free, and are still said to be.
fn over_free_cells(s: &mut Sample) {
    for k in 0..2 {
        let (from, to) = (s.cell(s.chain(1)[k]), s.cell(s.store.free[k]));
        s.bytes.copy_within(from..from + 32, to);
    }
    s.link(s.store.free[0], s.store.free[1]);
    s.put(26, s.store.free[0]);
}

/// Page 1 becomes page 0, in three cells that were free and the last of page 0.
fn one_cell_shared(s: &mut Sample) {
    s.same_entry(0, 1);
    s.put(26, s.store.free[0]);
    for k in 0..3 {
        let (from, to) = (s.cell(s.chain(0)[k]), s.cell(s.store.free[k]));
        s.bytes.copy_within(from..from + 32, to);
    }
    s.link(s.store.free[0], s.store.free[1]);
    s.link(s.store.free[1], s.store.free[2]);
}

fn named_damage(library: &mut Library, seed: u64) -> Result<(), String> {
    for (name, lost, make) in DAMAGE {
        let mut sample = Sample::new(seed);
        make(&mut sample);
        loses(library, &sample.bytes, PAGES, lost).map_err(|text| format!("{name}: {text}"))?;
    }
    Ok(())
}

/// The library lists exactly these pages, whatever room there is for more.
fn loses(library: &mut Library, bytes: &[u8], pages: usize, lost: &[u32]) -> Result<(), String> {
    for room in [pages, pages + 3] {
        let done = compare_repair(library, bytes, room)?;
        same_word(done.word, lost.len() as i64, "document 02")?;
        let later = &unwritten(room)[lost.len()..];
        same_list(&done.list, &[lost, later].concat())?;
    }
    Ok(())
}

/// Each reason for 18 alone, where all else is as it should be.
const REFUSED: [Fault; 12] = [
    ("edition 0", |s| s.bytes[0] = 0),
    ("edition 2", |s| s.bytes[0] = 2),
    ("byte 1 set", |s| s.bytes[1] = 1),
    ("byte 10 set", |s| s.bytes[10] = 1),
    ("byte 11 set", |s| s.bytes[11] = 1),
    ("P one more", |s| s.put(2, PAGES + 1)),
    ("C one more", |s| s.put(4, CELLS + 1)),
    ("N above 64P", |s| s.put(12, 64 * PAGES + 1)),
    ("N far above 64P", |s| s.bytes[15] = 1),
    ("a byte too few", |s| {
        s.bytes.truncate(length(PAGES, CELLS) - 1)
    }),
    ("a byte too many", |s| s.bytes.push(0)),
    ("a cell too many", |s| s.bytes.extend([0; 32])),
];

fn refused(library: &mut Library, seed: u64) -> Result<(), String> {
    for (name, make) in REFUSED {
        let mut sample = Sample::new(seed);
        make(&mut sample);
        let done = compare_repair(library, &sample.bytes, 1_024)?;
        same_word(done.word, -18, name)?;
    }
    let mut sample = Sample::new(seed);
    for room in 0..PAGES {
        let done = compare_repair(library, &sample.bytes, room)?;
        same_word(done.word, -18, "a list too short")?;
    }
    // However much there is to be repaired.
    sample.bytes[16..].fill(0xA5);
    let done = compare_repair(library, &sample.bytes, PAGES - 1)?;
    same_word(done.word, -18, "a list too short")
}

/// P and C outside their limits, in a store of the length that they give.
fn sizes(library: &mut Library) -> Result<(), String> {
    for (name, bytes) in wrong_sizes() {
        let done = compare_repair(library, &bytes, 65_535)?;
        same_word(done.word, -18, name)?;
    }
    Ok(())
}

/// 'the total of kept pages fits': judged page by page, so a later page may
/// still fit where one before it did not.
fn totals(library: &mut Library) -> Result<(), String> {
    let cases: [([u64; 4], &[u32]); 5] = [
        ([4_294_967_295, 0, 0, 0], &[]),
        ([4_294_967_294, 2, 1, 0], &[1]),
        (
            [4_000_000_000, 1_000_000_000, 200_000_000, 94_967_296],
            &[1, 3],
        ),
        ([3_000_000_000, 3_000_000_000, 3_000_000_000, 1], &[1, 2]),
        ([1, 4_294_967_295, 4_294_967_294, 5], &[1, 3]),
    ];
    for (sums, lost) in cases {
        let mut list = vec![0; 256];
        (0..4).for_each(|p| list[64 * p + 5 + p] = sums[p]);
        let store = built(4, 32, &list, &mut Random::new(sums[0])).expect("32 cells suffice");
        loses(library, &store.bytes(), 4, lost).map_err(|text| format!("{sums:?}: {text}"))?;
    }
    Ok(())
}

/// The most pages, all over one chain, which the first keeps; and with a bit set
/// at the chain's end, so that all are judged to there.
fn one_chain_for_all(library: &mut Library) -> Result<(), String> {
    let list = [vec![4_194_303], vec![0; 65_535]].concat();
    let mut sample = Sample::of(built(1_024, 1_800, &list, &mut Random::new(8)).expect("cells"));
    (1..1_024).for_each(|page| sample.same_entry(0, page));
    let lost: Vec<u32> = (1..1_024).collect();
    loses(library, &sample.bytes, 1_024, &lost)?;
    sample.turn(sample.last(0), 239);
    let lost: Vec<u32> = (0..1_024).collect();
    loses(library, &sample.bytes, 1_024, &lost)
}

/// A repair of these bytes with room for all pages, or now and then for one less.
fn compare_any(
    run: &mut Run,
    bytes: &[u8],
    pages: usize,
    random: &mut Random,
) -> Result<(), String> {
    let room = match random.below(8) {
        0 => pages - 1,
        1 => pages + 1 + random.below(5) as usize,
        _ => pages,
    };
    let done = compare_repair(&mut run.library, bytes, room)?;
    if done.word > 0 {
        let hours = u32::from_le_bytes(bytes[12..16].try_into().expect("4 bytes"));
        let calls = [Call::Append(1), Call::Reading(hours), Call::Freeze(6, 0)];
        compare_all(&mut run.library, &done.bytes, &calls)?;
    }
    Ok(())
}

/// The store as it is, with each bit turned, and at each length.
fn each_bit_and_length(run: &mut Run, seed: u64) -> Result<(), String> {
    let mut random = Random::new(seed);
    let store = small_store(&mut random);
    let (bytes, pages) = (store.bytes(), store.pages.len());
    compare_any(run, &bytes, pages, &mut random)?;
    for bit in 0..8 * bytes.len() {
        let mut damaged = bytes.clone();
        turn(&mut damaged, bit);
        compare_any(run, &damaged, pages, &mut random)
            .map_err(|text| format!("bit {bit}: {text}"))?;
    }
    for length in 0..bytes.len() + 40 {
        let mut cut = bytes.clone();
        cut.resize(length, 0);
        compare_repair(&mut run.library, &cut, pages)
            .map_err(|text| format!("length {length}: {text}"))?;
    }
    Ok(())
}

/// Each N, and each link led to each cell, to none and to numbers that are no
/// cell: chains cross, share cells and run in circles.
fn each_number(run: &mut Run, seed: u64) -> Result<(), String> {
    let mut random = Random::new(seed);
    let store = small_store(&mut random);
    let (bytes, pages, cells) = (store.bytes(), store.pages.len(), store.cells as u16);
    for hours in 0..=64 * pages as u32 + 1 {
        let mut damaged = bytes.clone();
        damaged[12..16].copy_from_slice(&hours.to_le_bytes());
        compare_any(run, &damaged, pages, &mut random)
            .map_err(|text| format!("N = {hours}: {text}"))?;
    }
    for at in links(&store) {
        for target in (0..=cells + 1).chain([256, 1_800, 65_535]) {
            let mut damaged = bytes.clone();
            damaged[at..at + 2].copy_from_slice(&target.to_le_bytes());
            compare_any(run, &damaged, pages, &mut random)
                .map_err(|text| format!("{target} at byte {at}: {text}"))?;
        }
    }
    Ok(())
}

/// Several changes at once.
fn random_damage(run: &mut Run, seed: u64) -> Result<(), String> {
    let mut random = Random::new(seed);
    let store = small_store(&mut random);
    let mut bytes = store.bytes();
    for _ in 0..random.between(1, 5) {
        damage_more(&store, &mut bytes, &mut random);
    }
    compare_any(run, &bytes, store.pages.len(), &mut random)
}

/// One change: of those that leave a store sound or not, or of those that make
/// pages share cells.
fn damage_more(store: &Store, bytes: &mut [u8], random: &mut Random) {
    let (pages, cells) = (store.pages.len() as u64, store.cells as u64);
    let [one, other] = [(); 2].map(|()| 16 + 6 * random.below(pages) as usize);
    let [from, to] = [(); 2].map(|()| {
        let cell = random.below(cells) as usize;
        length(pages as usize, cell)
    });
    match random.below(8) {
        0 => bytes.copy_within(one..one + 6, other),
        1 => bytes.copy_within(from..from + 32, to),
        2 => bytes[one..one + 4].copy_from_slice(&(random.next() as u32).to_le_bytes()),
        3 => bytes[from + 31] ^= 1 << random.below(8),
        4 => {
            let length = random.pick(&[2, 8, 38]);
            let at = 16 + random.below((bytes.len() - 16 - length) as u64 + 1) as usize;
            bytes[at..at + length].copy_from_slice(&random.bytes(length));
        }
        _ => damage(store, bytes, random),
    }
}

/// Noise behind a header that is right: any bytes, or such that many chains run
/// through cells, cross and come to an end.
fn noise(run: &mut Run, seed: u64) -> Result<(), String> {
    let mut random = Random::new(seed);
    let (pages, cells) = (
        random.between(1, 6) as usize,
        random.between(1, 20) as usize,
    );
    let mut store = Store::fresh(pages, cells);
    store.hours = random.between(0, 64 * pages as u64) as usize;
    let mut bytes = store.bytes();
    let any = random.bytes(bytes.len() - 16);
    bytes[16..].copy_from_slice(&any);
    if random.one_in(2) {
        lead_to_cells(&store, &mut bytes, &mut random);
    }
    compare_any(run, &bytes, pages, &mut random)
}

/// Links lead to cells or end, sums are few coins or none, and most cells are
/// clear but for their first bits.
fn lead_to_cells(store: &Store, bytes: &mut [u8], random: &mut Random) {
    let pages = store.pages.len();
    for at in links(store) {
        let cell = random.below(store.cells as u64 + 1) as u16;
        let next = if random.one_in(2) { 0 } else { cell };
        bytes[at..at + 2].copy_from_slice(&next.to_le_bytes());
    }
    for p in 0..pages {
        let sum = random.pick(&[0, 1, 1, 1, 2, 3, 100, 130]);
        bytes[16 + 6 * p..][..4].copy_from_slice(&u32::to_le_bytes(sum));
    }
    for cell in 0..store.cells {
        let code = &mut bytes[length(pages, cell) + 2..][..30];
        code[1..].fill(0);
        code[0] &= random.pick(&[0xFF, 0xFC, 0xF0]);
    }
}

/// The largest store, well filled, with a few changes or very many.
fn damaged_largest(run: &mut Run, seed: u64) -> Result<(), String> {
    let mut random = Random::new(seed);
    let size = random.pick(&[Size::Few, Size::Usual]);
    let list = fitting(&mut random, 65_500, 1_800, size);
    let store = built(1_024, 1_800, &list, &mut random).expect("the list fits");
    let mut bytes = store.bytes();
    for _ in 0..random.pick(&[0, 1, 30, 3_000]) {
        damage_more(&store, &mut bytes, &mut random);
    }
    compare_any(run, &bytes, 1_024, &mut random)
}
