//! A store that is filled at once: by appends it would take a minute; and stores to
//! repair.

use crate::data::Random;
use rival::{store, Code, Straightforward};

const PAGE: usize = 64;

/// A store of 1,800 cells for every 1,024 pages that is full but for so many
/// hours of its last page: seven pages in ten have two cells, the others one,
/// and a few cells are free. Another one for each seed.
pub fn filled(pages: usize, left: usize, seed: u64) -> Vec<u8> {
    assert!(left <= PAGE);
    begun(pages, PAGE * pages - left, seed)
}

/// The same store when it had so many hours.
pub fn begun(pages: usize, logged: usize, seed: u64) -> Vec<u8> {
    let cells = 1_800 * pages / 1_024;
    let mut bytes = vec![0; 16 + 6 * pages + 32 * cells];
    assert_eq!(store::fresh(&mut bytes, pages as u32, cells as u32), 0);
    let mut random = Random::new(13 + seed);
    let mut next = 1;
    for page in 0..pages {
        let mut counts = [0; PAGE];
        let most = if page % 10 < 7 { 6 } else { 3 };
        let hours = logged.saturating_sub(PAGE * page).min(PAGE);
        counts[..hours].fill_with(|| random.below(most) as u32);
        next = fill_page(&mut bytes, pages, page, &counts, next);
    }
    put(&mut bytes, 6, next as u64, 2);
    put(&mut bytes, 8, (cells + 1 - next) as u64, 2);
    put(&mut bytes, 12, logged as u64, 4);
    assert!(store::free::<Straightforward>(&bytes) > 0, "a sound store");
    bytes
}

/// The header of such a store, and noise behind it.
pub fn noise(pages: usize, seed: u64) -> Vec<u8> {
    let mut bytes = filled(pages, 0, seed);
    let mut random = Random::new(77 + seed);
    bytes[16..].fill_with(|| random.below(256) as u8);
    bytes
}

/// A page of eight cells, and the entry of every other page like its own; but no
/// hour is logged.
pub fn one_chain(pages: usize, seed: u64) -> Vec<u8> {
    let mut bytes = filled(pages, 0, seed);
    let mut random = Random::new(78 + seed);
    let counts = [(); PAGE].map(|()| 60_000_000 + random.below(1_000) as u32);
    assert_eq!(fill_page(&mut bytes, pages, 0, &counts, 1), 9);
    for page in 1..pages {
        bytes.copy_within(16..22, 16 + 6 * page);
    }
    put(&mut bytes, 12, 0, 4);
    bytes
}

/// Lays a page's code into cells from `cell` on; gives the first one behind.
fn fill_page(bytes: &mut [u8], pages: usize, page: usize, counts: &[u32], cell: usize) -> usize {
    let sum = counts.iter().map(|&count| u64::from(count)).sum();
    let mut code = [0; 240];
    Straightforward::write(&mut code, 0, counts, sum);
    let number = Straightforward::reserve(6, sum).div_ceil(240);
    for k in 0..number {
        let at = 16 + 6 * pages + 32 * (cell + k - 1);
        let next = if k + 1 == number { 0 } else { cell + k + 1 };
        put(bytes, at, next as u64, 2);
        bytes[at + 2..at + 32].copy_from_slice(&code[30 * k..][..30]);
    }
    put(bytes, 16 + 6 * page, sum, 4);
    let first = if number == 0 { 0 } else { cell };
    put(bytes, 16 + 6 * page + 4, first as u64, 2);
    cell + number
}

fn put(bytes: &mut [u8], at: usize, value: u64, width: usize) {
    bytes[at..at + width].copy_from_slice(&value.to_le_bytes()[..width]);
}
