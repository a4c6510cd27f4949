//! A list of calls on one store: played on the library, the second
//! implementation and the plain list at once, and shortened if they differ.

use crate::ffi::Library;
use crate::plain::Plain;
use crate::random::Random;
use crate::reserve::cells;
use crate::store::{Page, Store};
use crate::store_bytes::length;
use crate::store_calls::{compare, same_bytes, same_word, Call};
use std::fmt::Write;

/// Where a session starts, and its calls.
#[derive(Clone)]
pub struct Session {
    pub pages: u32,
    pub cells: u32,
    pub start: Start,
    pub calls: Vec<Call>,
}

#[derive(Clone)]
pub enum Start {
    /// Fresh, in a buffer that held other bytes.
    Fresh,
    /// A store of these counts whose chains run through the cells in an order
    /// drawn from the seed.
    Built(Vec<u64>, u64),
}

/// A store of a list, its cells dealt in a random order; `None` if they do
/// not suffice.
pub fn built(pages: usize, all: usize, counts: &[u64], random: &mut Random) -> Option<Store> {
    let mut order: Vec<usize> = (1..=all).collect();
    random.shuffle(&mut order);
    let mut store = Store::fresh(pages, all);
    store.hours = counts.len();
    for (page, chunk) in store.pages.iter_mut().zip(counts.chunks(64)) {
        let need = cells(chunk.iter().sum()) as usize;
        if need > order.len() {
            return None;
        }
        let mut counts = chunk.to_vec();
        counts.resize(64, 0);
        let chain = order.drain(..need).collect();
        *page = Page { counts, chain };
    }
    store.free = order;
    Some(store)
}

impl Session {
    /// Plays the calls; an error names the first that differs.
    pub fn play(&self, library: &mut Library) -> Result<(), String> {
        let (mut bytes, mut plain) = self.begin(library)?;
        for (k, &call) in self.calls.iter().enumerate() {
            step(library, &mut bytes, &mut plain, call)
                .map_err(|difference| format!("call {k}, {call}: {difference}"))?;
        }
        Ok(())
    }

    fn begin(&self, library: &mut Library) -> Result<(Vec<u8>, Plain), String> {
        let (pages, all) = (self.pages as usize, self.cells as usize);
        let counts = match &self.start {
            Start::Fresh => &Vec::new(),
            Start::Built(counts, _) => counts,
        };
        let plain = Plain::of(self.pages.into(), self.cells.into(), counts.clone());
        let bytes = match &self.start {
            Start::Fresh => {
                let mut bytes = vec![0xC3; length(pages, all)];
                compare(library, &mut bytes, Call::Fresh(self.pages, self.cells))?;
                bytes
            }
            Start::Built(_, seed) => built(pages, all, counts, &mut Random::new(*seed))
                .expect("the start fits its cells")
                .bytes(),
        };
        Ok((bytes, plain))
    }

    /// Drops calls, large parts first, as long as the session still differs
    /// and for so many plays at most.
    pub fn shortened(&self, library: &mut Library, mut plays: usize) -> Session {
        let mut session = self.clone();
        let mut part = session.calls.len().div_ceil(2);
        while part > 0 {
            let mut from = 0;
            while from < session.calls.len() && plays > 0 {
                let shorter = session.without(from, part);
                plays -= 1;
                if shorter.play(library).is_err() {
                    session = shorter;
                } else {
                    from += part;
                }
            }
            part /= 2;
        }
        session
    }

    fn without(&self, from: usize, part: usize) -> Session {
        let mut shorter = self.clone();
        let to = (from + part).min(shorter.calls.len());
        shorter.calls.drain(from..to);
        shorter
    }

    /// The session as the session program's lines.
    pub fn lines(&self) -> String {
        let mut text = match &self.start {
            Start::Fresh => format!("n {} {}", self.pages, self.cells),
            Start::Built(counts, seed) => format!(
                "(a store of {} pages and {} cells with {} counts, seed {seed})",
                self.pages,
                self.cells,
                counts.len()
            ),
        };
        for call in &self.calls {
            write!(text, "; {call}").expect("a string takes all");
        }
        text
    }
}

/// One call on all three; a fresh that was not refused empties the plain list.
fn step(
    library: &mut Library,
    bytes: &mut [u8],
    plain: &mut Plain,
    call: Call,
) -> Result<(), String> {
    let mut out = call.output(bytes);
    let done = compare(library, bytes, call)?;
    if let Some(expected) = call.by_plain(plain, &mut out) {
        same_bytes(&done.out, &out, "image of the plain list")?;
        return same_word(done.word, expected, "the plain list");
    }
    if let (Call::Fresh(pages, cells), 0) = (call, done.word) {
        *plain = Plain::fresh(pages.into(), cells.into());
    }
    Ok(())
}
