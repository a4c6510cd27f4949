//! Bring a store back to sound (document 02, note 10).

use crate::plain::{HOURS_A_PAGE, TOTAL_LIMIT};
use crate::random::Random;
use crate::refusal::{refuse_if, Answer, Refusal};
use crate::session::built;
use crate::store::{Page, Store};
use crate::store_bytes::Header;

/// Makes bytes a sound store and lists the pages that are not kept; gives how
/// many.
pub fn repair(bytes: &mut [u8], list: &mut [u32]) -> Answer<u64> {
    let header = Header::read(bytes).ok_or(Refusal::NotRepairable)?;
    refuse_if(list.len() < header.pages, Refusal::NotRepairable)?;
    let (mut kept, mut lost) = (Kept::none(&header), Vec::new());
    for p in 0..header.pages {
        match header.page(bytes, p) {
            Some(page) if kept.takes(&page) => kept.keep(page),
            _ => {
                kept.pages.push(Page::empty());
                lost.push(p as u32);
            }
        }
    }
    bytes.copy_from_slice(&kept.store().bytes());
    list[..lost.len()].copy_from_slice(&lost);
    Ok(lost.len() as u64)
}

/// The pages gone through so far, those that are not kept being empty.
struct Kept {
    hours: usize,
    pages: Vec<Page>,
    total: u64,
    /// For each cell from 1 on, whether a page that is kept has it.
    used: Vec<bool>,
}

impl Kept {
    fn none(header: &Header) -> Kept {
        Kept {
            hours: header.hours,
            pages: Vec::new(),
            total: 0,
            used: vec![false; header.cells],
        }
    }

    /// 'uses no cell of a page kept earlier', 'its hours from N on are zero, and
    /// the total of kept pages fits'; what note 10 asks of a page's own chain and
    /// tree is what makes a page that can be read.
    fn takes(&self, page: &Page) -> bool {
        let logged = self.hours.saturating_sub(HOURS_A_PAGE * self.pages.len());
        page.chain.iter().all(|&cell| !self.used[cell - 1])
            && page.counts.iter().skip(logged).all(|&count| count == 0)
            && self.total + page.sum() <= TOTAL_LIMIT
    }

    fn keep(&mut self, page: Page) {
        self.total += page.sum();
        for &cell in &page.chain {
            self.used[cell - 1] = true;
        }
        self.pages.push(page);
    }

    /// 'The remaining cells are cleared and chained in rising order.'
    fn store(self) -> Store {
        let cells = self.used.len();
        Store {
            cells,
            hours: self.hours,
            pages: self.pages,
            free: (1..=cells).filter(|&cell| !self.used[cell - 1]).collect(),
        }
    }
}

/// What is lost of these bytes, which must be sound afterwards; a list of ten
/// is lent.
fn lost_of(bytes: &[u8]) -> (Vec<u32>, Store) {
    let (mut left, mut list) = (bytes.to_vec(), [7_777; 10]);
    let lost = repair(&mut left, &mut list).expect("a good header") as usize;
    assert!(list[lost..].iter().all(|&entry| entry == 7_777));
    (
        list[..lost].to_vec(),
        Store::read(&left).expect("a sound store"),
    )
}

pub fn self_test() {
    let list = [vec![123], vec![0; 63], vec![122], vec![0; 63], vec![5]].concat();
    let store = built(3, 6, &list, &mut Random::new(1)).expect("four cells of six");
    let bytes = store.bytes();
    let (lost, after) = lost_of(&bytes);
    assert_eq!((lost, after.counts()), (vec![], list.clone()));
    let mut free = store.free.clone();
    free.sort_unstable();
    assert_eq!(after.free, free, "rising");

    // Page 1 has page 0's chain, which page 0 keeps.
    let mut shared = bytes.clone();
    shared.copy_within(16..22, 22);
    let (lost, after) = lost_of(&shared);
    let rest = [vec![123], vec![0; 127], vec![5]].concat();
    assert_eq!((lost, after.counts()), (vec![1], rest));
    // Page 0 has coins for four cells: now page 1 keeps the chain.
    shared[18] = 1;
    let (lost, after) = lost_of(&shared);
    let rest = [vec![0; 64], vec![123], vec![0; 63], vec![5]].concat();
    assert_eq!((lost, after.counts()), (vec![0], rest));

    for (at, value) in [(0, 2), (1, 1), (2, 4), (4, 7), (10, 1), (11, 1), (12, 193)] {
        let mut wrong = bytes.clone();
        wrong[at] = value;
        let before = wrong.clone();
        let answer = repair(&mut wrong, &mut [0; 10]);
        assert_eq!((answer, wrong), (Err(Refusal::NotRepairable), before));
    }
    let short = repair(&mut bytes.clone(), &mut [0; 2]);
    assert_eq!(short, Err(Refusal::NotRepairable), "three pages");
}
