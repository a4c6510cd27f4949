//! The live store: a sound one as lists, and each call over bytes, which are
//! read whole into those lists and written whole again.

use crate::days;
use crate::image;
use crate::plain::{need, reached, HOURS_A_PAGE, TOTAL_LIMIT};
use crate::refusal::{refuse_if, Answer, Moved, Refusal};
use crate::reserve::cells;
use crate::store_bytes::fits;

/// One page: its 64 counts and the cells of its chain in order.
#[derive(Clone)]
pub struct Page {
    pub counts: Vec<u64>,
    pub chain: Vec<usize>,
}

impl Page {
    pub fn empty() -> Page {
        Page {
            counts: vec![0; HOURS_A_PAGE],
            chain: Vec::new(),
        }
    }

    pub fn sum(&self) -> u64 {
        self.counts.iter().sum()
    }
}

/// A sound store.
#[derive(Clone)]
pub struct Store {
    pub cells: usize,
    pub hours: usize,
    pub pages: Vec<Page>,
    pub free: Vec<usize>,
}

impl Store {
    pub fn fresh(pages: usize, cells: usize) -> Store {
        Store {
            cells,
            hours: 0,
            pages: vec![Page::empty(); pages],
            free: (1..=cells).collect(),
        }
    }

    pub fn all_counts(&self) -> impl Iterator<Item = u64> + '_ {
        self.pages
            .iter()
            .flat_map(|page| page.counts.iter().copied())
    }

    /// The counts of the hours logged.
    pub fn counts(&self) -> Vec<u64> {
        self.all_counts().take(self.hours).collect()
    }

    pub fn total(&self) -> u64 {
        self.pages.iter().map(Page::sum).sum()
    }

    /// Gives an hour a new count and the page its new number of cells.
    fn change(&mut self, hour: usize, count: u64) -> Answer<Moved> {
        let page = &mut self.pages[hour / HOURS_A_PAGE];
        let before = page.chain.len();
        page.counts[hour % HOURS_A_PAGE] = count;
        let after = cells(page.sum()) as usize;
        refuse_if(self.total() > TOTAL_LIMIT, Refusal::Total)?;
        refuse_if(after > before + self.free.len(), Refusal::Cells)?;
        self.resize(hour / HOURS_A_PAGE, after);
        Ok(Moved::between(before as u64, after as u64))
    }

    /// Gives the store another list, page by page: first every page that
    /// shrinks gives back cells, then every page that grows takes some.
    fn become_list(&mut self, counts: &[u64]) -> Answer<Moved> {
        let (before, after) = (need(&self.counts()), need(counts));
        refuse_if(counts.iter().sum::<u64>() > TOTAL_LIMIT, Refusal::Total)?;
        refuse_if(after > self.cells as u64, Refusal::Cells)?;
        let mut filled = counts.to_vec();
        filled.resize(HOURS_A_PAGE * self.pages.len(), 0);
        for (page, counts) in self.pages.iter_mut().zip(filled.chunks(HOURS_A_PAGE)) {
            page.counts = counts.to_vec();
        }
        self.hours = counts.len();
        self.resize_where(|has, asks| asks < has);
        self.resize_where(|has, asks| asks > has);
        Ok(Moved::between(before, after))
    }

    /// Gives the pages that are meant the cells that their sums ask for, the
    /// lowest page first.
    fn resize_where(&mut self, meant: fn(usize, usize) -> bool) {
        for p in 0..self.pages.len() {
            let has = self.pages[p].chain.len();
            let asks = cells(self.pages[p].sum()) as usize;
            if meant(has, asks) {
                self.resize(p, asks);
            }
        }
    }

    /// Moves one cell after the other, between the end of a page's chain and
    /// the front of the free chain.
    fn resize(&mut self, page: usize, length: usize) {
        let chain = &mut self.pages[page].chain;
        while chain.len() < length {
            chain.push(self.free.remove(0));
        }
        while chain.len() > length {
            self.free
                .insert(0, chain.pop().expect("it is the longer one"));
        }
    }
}

pub fn fresh(bytes: &mut [u8], pages: u64, cells: u64) -> Answer<()> {
    refuse_if(!fits(bytes.len(), pages, cells), Refusal::Fresh)?;
    bytes.copy_from_slice(&Store::fresh(pages as usize, cells as usize).bytes());
    Ok(())
}

pub fn append(bytes: &mut [u8], count: u64) -> Answer<Moved> {
    let mut store = Store::read(bytes)?;
    let hour = store.hours;
    refuse_if(hour == HOURS_A_PAGE * store.pages.len(), Refusal::Full)?;
    let moved = store.change(hour, count)?;
    store.hours += 1;
    bytes.copy_from_slice(&store.bytes());
    Ok(moved)
}

pub fn set(bytes: &mut [u8], hour: u64, count: u64) -> Answer<Moved> {
    let mut store = Store::read(bytes)?;
    refuse_if(hour >= store.hours as u64, Refusal::Hour)?;
    let moved = store.change(hour as usize, count)?;
    bytes.copy_from_slice(&store.bytes());
    Ok(moved)
}

pub fn insert(bytes: &mut [u8], hour: u64, count: u64) -> Answer<Moved> {
    let mut store = Store::read(bytes)?;
    refuse_if(hour > store.hours as u64, Refusal::Hour)?;
    let full = HOURS_A_PAGE * store.pages.len();
    refuse_if(store.hours == full, Refusal::Full)?;
    let mut counts = store.counts();
    counts.insert(hour as usize, count);
    let moved = store.become_list(&counts)?;
    bytes.copy_from_slice(&store.bytes());
    Ok(moved)
}

pub fn strike(bytes: &mut [u8], hour: u64) -> Answer<Moved> {
    let mut store = Store::read(bytes)?;
    refuse_if(hour >= store.hours as u64, Refusal::Hour)?;
    let mut counts = store.counts();
    counts.remove(hour as usize);
    let moved = store.become_list(&counts)?;
    bytes.copy_from_slice(&store.bytes());
    Ok(moved)
}

pub fn count(bytes: &[u8], hour: u64) -> Answer<u64> {
    let store = Store::read(bytes)?;
    refuse_if(hour >= store.hours as u64, Refusal::Hour)?;
    Ok(store.counts()[hour as usize])
}

pub fn reading(bytes: &[u8], hour: u64) -> Answer<u64> {
    let store = Store::read(bytes)?;
    refuse_if(hour > store.hours as u64, Refusal::Hour)?;
    Ok(store.all_counts().take(hour as usize).sum())
}

pub fn reach(bytes: &[u8], figure: u64) -> Answer<u64> {
    let store = Store::read(bytes)?;
    refuse_if(figure > store.total(), Refusal::Figure)?;
    Ok(reached(&store.counts(), figure))
}

pub fn day(bytes: &[u8], day: u64, changes: &[u32]) -> Answer<u64> {
    let store = Store::read(bytes)?;
    let hours = days::hours_of(day, changes)?;
    refuse_if(hours.end > store.hours as u128, Refusal::Hour)?;
    let (first, last) = (hours.start as usize, hours.end as usize);
    Ok(store.all_counts().skip(first).take(last - first).sum())
}

pub fn free(bytes: &[u8]) -> Answer<u64> {
    Ok(Store::read(bytes)?.free.len() as u64)
}

pub fn freeze(bytes: &[u8], e: u32, out: &mut [u8]) -> Answer<u64> {
    let store = Store::read(bytes)?;
    image::write(&store.counts(), e, out)
}
