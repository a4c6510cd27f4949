//! A store's bytes: what makes them sound, and how a store is laid out in them.

use crate::bits::{number, packed, push_number};
use crate::plain::{HOURS_A_PAGE, TOTAL_LIMIT};
use crate::refusal::{Answer, Refusal};
use crate::reserve::cells;
use crate::store::{Page, Store};
use crate::tree::{decode, encode};

const HEADER: usize = 16;
const ENTRY: usize = 6;
const CELL: usize = 32;
const CELL_CODE: usize = 30;

/// Bytes of a store.
pub fn length(pages: usize, cells: usize) -> usize {
    HEADER + ENTRY * pages + CELL * cells
}

fn sizes_allowed(pages: u64, cells: u64) -> bool {
    (1..=1_024).contains(&pages) && (1..=1_800).contains(&cells)
}

/// Whether a buffer of this length may hold a store of P pages and C cells.
pub fn fits(bytes: usize, pages: u64, cells: u64) -> bool {
    sizes_allowed(pages, cells) && bytes == length(pages as usize, cells as usize)
}

/// The numbers of a store's header, once its fixed bytes and limits are right.
pub struct Header {
    pub pages: usize,
    pub cells: usize,
    first_free: usize,
    free_cells: usize,
    pub hours: usize,
}

impl Header {
    pub fn read(bytes: &[u8]) -> Option<Header> {
        if bytes.len() < HEADER {
            return None;
        }
        let two = |at: usize| number(&bytes[at..at + 2]) as usize;
        let header = Header {
            pages: two(2),
            cells: two(4),
            first_free: two(6),
            free_cells: two(8),
            hours: number(&bytes[12..16]) as usize,
        };
        let right = bytes[..2] == [1, 0]
            && bytes[10..12] == [0, 0]
            && fits(bytes.len(), header.pages as u64, header.cells as u64)
            && header.hours <= HOURS_A_PAGE * header.pages;
        right.then_some(header)
    }

    fn cell<'a>(&self, bytes: &'a [u8], cell: usize) -> &'a [u8] {
        &bytes[length(self.pages, cell - 1)..][..CELL]
    }

    /// The cells from `first` on until next 0; `None` for a number above C or
    /// for more cells than there are, which only a circle can give.
    fn chain(&self, bytes: &[u8], first: usize) -> Option<Vec<usize>> {
        let mut chain = Vec::new();
        let mut cell = first;
        while cell != 0 {
            if cell > self.cells || chain.len() == self.cells {
                return None;
            }
            chain.push(cell);
            cell = number(&self.cell(bytes, cell)[..2]) as usize;
        }
        Some(chain)
    }

    fn free_chain(&self, bytes: &[u8]) -> Option<Vec<usize>> {
        let free = self.chain(bytes, self.first_free)?;
        let clear = |&cell: &usize| self.cell(bytes, cell)[2..].iter().all(|&byte| byte == 0);
        (free.len() == self.free_cells && free.iter().all(clear)).then_some(free)
    }

    /// A page whose chain has the length that its sum asks for and whose code
    /// is exactly the code of the counts it says.
    pub fn page(&self, bytes: &[u8], p: usize) -> Option<Page> {
        let entry = &bytes[HEADER + ENTRY * p..][..ENTRY];
        let sum = number(&entry[..4]);
        let chain = self.chain(bytes, number(&entry[4..]) as usize)?;
        if chain.len() as u64 != cells(sum) {
            return None;
        }
        let code: Vec<u8> = chain
            .iter()
            .flat_map(|&cell| &self.cell(bytes, cell)[2..])
            .copied()
            .collect();
        let mut counts = Vec::new();
        if !decode(&code, 0, 6, sum, &mut counts) {
            return None;
        }
        let page = Page { counts, chain };
        (page.code() == code).then_some(page)
    }
}

impl Page {
    /// The 30 bytes of code for each cell of the chain, unused bits zero.
    fn code(&self) -> Vec<u8> {
        let mut bits = Vec::new();
        encode(&self.counts, &mut bits);
        let mut code = packed(&bits);
        code.resize(CELL_CODE * self.chain.len(), 0);
        code
    }
}

impl Store {
    /// The store that bytes say, if they are sound.
    pub fn read(bytes: &[u8]) -> Answer<Store> {
        Store::parse(bytes).ok_or(Refusal::Unsound)
    }

    fn parse(bytes: &[u8]) -> Option<Store> {
        let header = Header::read(bytes)?;
        let free = header.free_chain(bytes)?;
        let mut pages = Vec::new();
        for p in 0..header.pages {
            pages.push(header.page(bytes, p)?);
        }
        let store = Store {
            cells: header.cells,
            hours: header.hours,
            pages,
            free,
        };
        let sound = store.each_cell_once() && store.rest_is_zero() && store.total() <= TOTAL_LIMIT;
        sound.then_some(store)
    }

    fn each_cell_once(&self) -> bool {
        let mut times = vec![0; self.cells + 1];
        let chained = self.pages.iter().flat_map(|page| &page.chain);
        for &cell in chained.chain(&self.free) {
            times[cell] += 1;
        }
        times[1..].iter().all(|&times| times == 1)
    }

    fn rest_is_zero(&self) -> bool {
        self.all_counts().skip(self.hours).all(|count| count == 0)
    }

    /// The store's bytes, all of them.
    pub fn bytes(&self) -> Vec<u8> {
        let mut bytes = vec![1, 0];
        push_number(&mut bytes, 2, self.pages.len() as u64);
        push_number(&mut bytes, 2, self.cells as u64);
        push_number(&mut bytes, 2, first_of(&self.free));
        push_number(&mut bytes, 2, self.free.len() as u64);
        push_number(&mut bytes, 2, 0);
        push_number(&mut bytes, 4, self.hours as u64);
        for page in &self.pages {
            push_number(&mut bytes, 4, page.sum());
            push_number(&mut bytes, 2, first_of(&page.chain));
        }
        for cell in self.cell_contents() {
            bytes.extend(cell);
        }
        bytes
    }

    /// The 32 bytes of each cell, cell 1 first.
    fn cell_contents(&self) -> Vec<[u8; CELL]> {
        let mut contents = vec![[0; CELL]; self.cells];
        let mut lay = |chain: &[usize], code: &[u8]| {
            for (k, &cell) in chain.iter().enumerate() {
                let next = first_of(&chain[k + 1..]) as u16;
                contents[cell - 1][..2].copy_from_slice(&next.to_le_bytes());
                contents[cell - 1][2..].copy_from_slice(&code[CELL_CODE * k..][..CELL_CODE]);
            }
        };
        for page in &self.pages {
            lay(&page.chain, &page.code());
        }
        lay(&self.free, &vec![0; CELL_CODE * self.free.len()]);
        contents
    }
}

/// The number that leads to a chain, 0 if it is empty.
fn first_of(chain: &[usize]) -> u64 {
    chain.first().map_or(0, |&cell| cell as u64)
}
