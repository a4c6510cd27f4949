//! Bringing a store back to sound: what is kept of it, page by page.

use crate::code::Code;
use crate::fields::{four, put_two, two};
use crate::refused::NOT_REPAIRABLE;
use crate::sound::{
    cells_of, header, is_exact, rest_is_zero, Layout, CELL, CELL_CODE, ENTRY, MOST_CELLS,
    MOST_TOTAL, PAGE_CODE,
};

/// The cells of the pages that are kept.
type Used = [bool; MOST_CELLS + 1];

pub fn repair<C: Code>(bytes: &mut [u8], lost: &mut [u32]) -> i64 {
    let Some(layout) = header(bytes).filter(|layout| lost.len() >= layout.pages) else {
        return NOT_REPAIRABLE;
    };
    let mut used = [false; MOST_CELLS + 1];
    let (mut total, mut listed) = (0, 0);
    for page in 0..layout.pages {
        let sum = four(bytes, layout.entry(page));
        if total + sum <= MOST_TOTAL && is_whole::<C>(bytes, layout, page, sum, &used) {
            total += sum;
            use_chain(bytes, layout, page, &mut used);
        } else {
            lost[listed] = page as u32;
            listed += 1;
        }
    }
    for &page in &lost[..listed] {
        let entry = layout.entry(page as usize);
        bytes[entry..entry + ENTRY].fill(0);
    }
    chain_rest(bytes, layout, &used);
    listed as i64
}

/// Whether a page can be kept beside those that have their cells.
fn is_whole<C: Code>(bytes: &[u8], layout: Layout, page: usize, sum: u64, used: &Used) -> bool {
    gather::<C>(bytes, layout, page, sum, used).is_some_and(|code| {
        let hours = four(bytes, 12) as usize;
        is_exact::<C>(&code, sum) && rest_is_zero::<C>(&code, sum, page, hours)
    })
}

/// Joins the code of a page's chain, which has the length its sum asks for.
fn gather<C: Code>(
    bytes: &[u8],
    layout: Layout,
    page: usize,
    sum: u64,
    used: &Used,
) -> Option<[u8; PAGE_CODE]> {
    let mut code = [0; PAGE_CODE];
    let mut cell = two(bytes, layout.entry(page) + 4);
    for part in code.chunks_exact_mut(CELL_CODE).take(cells_of::<C>(sum)) {
        if cell == 0 || cell > layout.cells || used[cell] {
            return None;
        }
        part.copy_from_slice(layout.code(bytes, cell));
        cell = two(bytes, layout.cell(cell));
    }
    (cell == 0).then_some(code)
}

fn use_chain(bytes: &[u8], layout: Layout, page: usize, used: &mut Used) {
    let mut cell = two(bytes, layout.entry(page) + 4);
    while cell != 0 {
        used[cell] = true;
        cell = two(bytes, layout.cell(cell));
    }
}

/// Clears the cells that no page has, and chains them from the last on.
fn chain_rest(bytes: &mut [u8], layout: Layout, used: &Used) {
    let (mut first, mut free) = (0, 0);
    for cell in (1..=layout.cells).rev().filter(|&cell| !used[cell]) {
        let at = layout.cell(cell);
        bytes[at + 2..at + CELL].fill(0);
        put_two(bytes, at, first);
        first = cell;
        free += 1;
    }
    put_two(bytes, 6, first);
    put_two(bytes, 8, free);
}
