//! The plain list of document 01: a list of counts, and the P and C that fresh
//! was given. It never sees a store's bytes.

use crate::days;
use crate::refusal::{refuse_if, Answer, Moved, Refusal};
use crate::reserve::cells;

pub const TOTAL_LIMIT: u64 = 4_294_967_295;
pub const HOURS_A_PAGE: usize = 64;

pub struct Plain {
    pages: u64,
    cells: u64,
    counts: Vec<u64>,
}

impl Plain {
    pub fn fresh(pages: u64, cells: u64) -> Plain {
        Plain::of(pages, cells, Vec::new())
    }

    /// The state after `counts` were appended one by one.
    pub fn of(pages: u64, cells: u64, counts: Vec<u64>) -> Plain {
        Plain {
            pages,
            cells,
            counts,
        }
    }

    pub fn counts(&self) -> &[u64] {
        &self.counts
    }

    fn hours(&self) -> u64 {
        self.counts.len() as u64
    }

    fn total(&self) -> u64 {
        self.counts.iter().sum()
    }

    /// The new list takes the place of the old, unless its total or its need
    /// is too large.
    fn become_list(&mut self, counts: Vec<u64>) -> Answer<Moved> {
        refuse_if(counts.iter().sum::<u64>() > TOTAL_LIMIT, Refusal::Total)?;
        let moved = Moved::between(need(&self.counts), need(&counts));
        refuse_if(need(&counts) > self.cells, Refusal::Cells)?;
        self.counts = counts;
        Ok(moved)
    }

    fn is_full(&self) -> bool {
        self.hours() == HOURS_A_PAGE as u64 * self.pages
    }

    pub fn append(&mut self, count: u64) -> Answer<Moved> {
        refuse_if(self.is_full(), Refusal::Full)?;
        let mut counts = self.counts.clone();
        counts.push(count);
        self.become_list(counts)
    }

    pub fn set(&mut self, hour: u64, count: u64) -> Answer<Moved> {
        refuse_if(hour >= self.hours(), Refusal::Hour)?;
        let mut counts = self.counts.clone();
        counts[hour as usize] = count;
        self.become_list(counts)
    }

    /// The count joins the list before an hour, at N behind all.
    pub fn insert(&mut self, hour: u64, count: u64) -> Answer<Moved> {
        refuse_if(hour > self.hours(), Refusal::Hour)?;
        refuse_if(self.is_full(), Refusal::Full)?;
        let mut counts = self.counts.clone();
        counts.insert(hour as usize, count);
        self.become_list(counts)
    }

    pub fn strike(&mut self, hour: u64) -> Answer<Moved> {
        refuse_if(hour >= self.hours(), Refusal::Hour)?;
        let mut counts = self.counts.clone();
        counts.remove(hour as usize);
        self.become_list(counts)
    }

    pub fn count(&self, hour: u64) -> Answer<u64> {
        refuse_if(hour >= self.hours(), Refusal::Hour)?;
        Ok(self.counts[hour as usize])
    }

    pub fn reading(&self, hour: u64) -> Answer<u64> {
        refuse_if(hour > self.hours(), Refusal::Hour)?;
        Ok(self.counts[..hour as usize].iter().sum())
    }

    pub fn reach(&self, figure: u64) -> Answer<u64> {
        refuse_if(figure > self.total(), Refusal::Figure)?;
        Ok(reached(&self.counts, figure))
    }

    pub fn free(&self) -> u64 {
        self.cells - need(&self.counts)
    }

    pub fn day(&self, day: u64, changes: &[u32]) -> Answer<u64> {
        let hours = days::hours_of(day, changes)?;
        refuse_if(hours.end > self.hours().into(), Refusal::Hour)?;
        Ok(self.reading(hours.end as u64)? - self.reading(hours.start as u64)?)
    }
}

/// The cells of all pages by the formula.
pub fn need(counts: &[u64]) -> u64 {
    counts
        .chunks(HOURS_A_PAGE)
        .map(|page| cells(page.iter().sum()))
        .sum()
}

/// The smallest i with reading at i ≥ figure, which is at most the total.
pub fn reached(counts: &[u64], figure: u64) -> u64 {
    let mut reading = 0;
    let mut i = 0;
    while reading < figure {
        reading += counts[i];
        i += 1;
    }
    i as u64
}

/// The reading at every hour from 0 to N.
pub fn readings(counts: &[u64]) -> Vec<u64> {
    let mut readings = vec![0];
    for (k, count) in counts.iter().enumerate() {
        readings.push(readings[k] + count);
    }
    readings
}
