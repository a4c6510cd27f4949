//! A forgotten hour (document 02, note 5): what insert and strike do to lists
//! and to cells, worked out by hand and by the laws.

use crate::plain::{need, Plain};
use crate::random::{counts, Random, Size};
use crate::refusal::{Answer, Moved, Refusal};
use crate::session::built;
use crate::store::{self, Page, Store};

pub fn self_test() {
    cells_in_order();
    refusals_in_order();
    strike_without_cells();
    let mut random = Random::new(5);
    for _ in 0..200 {
        laws(&mut random);
    }
}

/// Four pages and seven cells, of which cell 4 is free.
fn by_hand() -> Store {
    let chains: [&[usize]; 4] = [&[5, 2, 7], &[1], &[3, 6], &[]];
    let mut list = vec![0; 193];
    (list[0], list[63], list[127], list[191]) = (1, 5_000, 100, 200);
    let page = |p: usize| {
        let mut counts = list[64 * p..list.len().min(64 * p + 64)].to_vec();
        counts.resize(64, 0);
        let chain = chains[p].to_vec();
        Page { counts, chain }
    };
    Store {
        cells: 7,
        hours: list.len(),
        pages: (0..4).map(page).collect(),
        free: vec![4],
    }
}

fn chains(bytes: &[u8]) -> Vec<Vec<usize>> {
    let store = Store::read(bytes).expect("sound");
    let pages = store.pages.into_iter().map(|page| page.chain);
    pages.chain([store.free]).collect()
}

/// An hour more at the front: 5,000 coins leave page 0 for page 1, 100 leave
/// page 1, 200 leave page 2. Pages 0 and 2 give back cells 7, 2 and 6, so that
/// the free chain is 6, 2, 7, 4; of these page 1 takes two, then page 3.
fn cells_in_order() {
    let mut bytes = by_hand().bytes();
    let before = chains(&bytes);
    assert_eq!(
        before,
        [vec![5, 2, 7], vec![1], vec![3, 6], vec![], vec![4]]
    );
    assert_eq!(store::insert(&mut bytes, 0, 0), Ok(Moved::between(6, 7)));
    let longer = [vec![5], vec![1, 6, 2], vec![3], vec![7, 4], vec![]];
    assert_eq!(chains(&bytes), longer);
    // Back: page 1 gives 2 and 6, page 3 gives 4 and 7; page 0 takes two of
    // 7, 4, 6, 2, and page 2 one.
    assert_eq!(store::strike(&mut bytes, 0), Ok(Moved::between(7, 6)));
    let back = [vec![5, 7, 4], vec![1], vec![3, 6], vec![], vec![2]];
    assert_eq!(chains(&bytes), back);
    assert_eq!(
        Store::read(&bytes).expect("sound").counts(),
        by_hand().counts()
    );
}

/// What the plain list and a store answer; they must agree.
fn inserted(pages: usize, cells: usize, list: &[u64], hour: u64, count: u64) -> Answer<Moved> {
    let mut plain = Plain::of(pages as u64, cells as u64, list.to_vec());
    let store = built(pages, cells, list, &mut Random::new(0)).expect("cells enough");
    let answer = store::insert(&mut store.bytes(), hour, count);
    assert_eq!(answer, plain.insert(hour, count));
    answer
}

fn refusals_in_order() {
    let full = [vec![0; 63], vec![100]].concat();
    let too_many = u64::from(u32::MAX);
    let rest = &full[1..];
    assert_eq!(inserted(1, 1, &full, 65, too_many), Err(Refusal::Hour));
    assert_eq!(inserted(1, 1, &full, 64, too_many), Err(Refusal::Full));
    assert_eq!(inserted(1, 1, &full, 0, too_many), Err(Refusal::Full));
    assert_eq!(inserted(1, 1, rest, 64, too_many), Err(Refusal::Hour));
    assert_eq!(inserted(1, 1, rest, 63, too_many), Err(Refusal::Total));
    assert_eq!(inserted(1, 1, rest, 63, 23), Err(Refusal::Cells));
    assert_eq!(inserted(1, 1, rest, 63, 22), Ok(Moved::between(1, 1)));
    let mut garbage = vec![7; 100];
    assert_eq!(store::insert(&mut garbage, 999, 0), Err(Refusal::Unsound));
    assert_eq!(store::strike(&mut garbage, 999), Err(Refusal::Unsound));
    assert_eq!(garbage, [7; 100]);
}

/// One hour without coins is struck, and one coin comes over to a page whose
/// cell is full: three cells instead of two.
pub fn tight() -> Store {
    let mut list = vec![0; 128];
    (list[1], list[64], list[65]) = (122, 1, 121);
    built(2, 2, &list, &mut Random::new(0)).expect("two cells suffice")
}

fn strike_without_cells() {
    let mut bytes = tight().bytes();
    let before = bytes.clone();
    assert_eq!(store::strike(&mut bytes, 0), Err(Refusal::Cells));
    assert_eq!(store::strike(&mut bytes, 128), Err(Refusal::Hour));
    assert_eq!(bytes, before);
    assert_eq!(store::strike(&mut bytes, 64), Ok(Moved::between(2, 2)));
    let mut full = Plain::of(1, 8, vec![u64::from(u32::MAX); 1]);
    assert_eq!(full.strike(0), Ok(Moved::between(8, 0)));
}

/// Insert at N is append, bytes too; a strike of what was inserted gives the
/// list back; a page whose number of cells stays keeps its chain.
fn laws(random: &mut Random) {
    let hours = random.below(190) as usize;
    let size = random.pick(&Size::ALL);
    let list = counts(random, hours, size);
    let all = need(&list) as usize + random.between(1, 9) as usize;
    let Some(store) = built(3, all, &list, random) else {
        return;
    };
    let (bytes, count) = (store.bytes(), random.below(200));
    let (mut appended, mut at_end) = (bytes.clone(), bytes.clone());
    let answer = store::append(&mut appended, count);
    assert_eq!(store::insert(&mut at_end, hours as u64, count), answer);
    assert_eq!(at_end, appended);
    let (mut moved, hour) = (bytes.clone(), random.between(0, hours as u64));
    let rose = store::insert(&mut moved, hour, count);
    let after = Store::read(&moved).expect("sound");
    for (old, new) in store.pages.iter().zip(&after.pages) {
        assert!(old.chain.len() != new.chain.len() || old.chain == new.chain);
    }
    if let Ok(Moved { taken, returned }) = rose {
        let fell = Ok(Moved {
            taken: returned,
            returned: taken,
        });
        assert_eq!(store::strike(&mut moved, hour), fell);
    }
    assert_eq!(Store::read(&moved).expect("sound").counts(), list);
}
