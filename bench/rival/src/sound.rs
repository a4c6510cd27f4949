//! The layout of a live store, and the check that it is sound.

use crate::code::Code;
use crate::fields::{all_zero, four, two};
use crate::refused::UNSOUND;

pub const MOST_PAGES: usize = 1_024;
pub const MOST_CELLS: usize = 1_800;
pub const MOST_TOTAL: u64 = 4_294_967_295;
pub const PAGE: usize = 64;
pub const HEIGHT: u32 = 6;

const HEADER: usize = 16;
pub const ENTRY: usize = 6;
pub const CELL: usize = 32;
pub const CELL_CODE: usize = 30;
/// Eight cells hold the code of any page.
pub const PAGE_CODE: usize = 240;

pub fn length(pages: usize, cells: usize) -> usize {
    HEADER + ENTRY * pages + CELL * cells
}

pub fn sizes_allowed(pages: usize, cells: usize) -> bool {
    (1..=MOST_PAGES).contains(&pages) && (1..=MOST_CELLS).contains(&cells)
}

pub fn cells_of<C: Code>(sum: u64) -> usize {
    C::reserve(HEIGHT, sum).div_ceil(8 * CELL_CODE)
}

/// Where the parts of a store stand, once its length is known to be right.
#[derive(Clone, Copy)]
pub struct Layout {
    pub pages: usize,
    pub cells: usize,
}

impl Layout {
    pub fn entry(self, page: usize) -> usize {
        HEADER + ENTRY * page
    }

    pub fn cell(self, cell: usize) -> usize {
        length(self.pages, cell - 1)
    }

    pub fn code(self, bytes: &[u8], cell: usize) -> &[u8; CELL_CODE] {
        let at = self.cell(cell) + 2;
        bytes[at..at + CELL_CODE].try_into().expect("30 bytes")
    }
}

/// A sound store's layout and figures.
#[derive(Clone, Copy)]
pub struct Sound {
    pub layout: Layout,
    pub hours: usize,
    pub total: u64,
    pub free: usize,
}

/// The soundness check: marks each cell once, pages first, then the free
/// chain, and ends at the first fault.
pub fn sound<C: Code>(bytes: &[u8]) -> Result<Sound, i64> {
    let layout = header(bytes).ok_or(UNSOUND)?;
    let hours = four(bytes, 12) as usize;
    let mut marks = [false; MOST_CELLS + 1];
    let (mut total, mut chained) = (0, 0);
    for page in 0..layout.pages {
        let sum = four(bytes, layout.entry(page));
        let code = gather::<C>(bytes, layout, page, &mut marks).ok_or(UNSOUND)?;
        if !is_exact::<C>(&code, sum) || !rest_is_zero::<C>(&code, sum, page, hours) {
            return Err(UNSOUND);
        }
        total += sum;
        chained += cells_of::<C>(sum);
    }
    let free = free_cells(bytes, layout, &mut marks).ok_or(UNSOUND)?;
    if total > MOST_TOTAL || chained + free != layout.cells {
        return Err(UNSOUND);
    }
    Ok(Sound {
        layout,
        hours,
        total,
        free,
    })
}

pub fn header(bytes: &[u8]) -> Option<Layout> {
    if bytes.len() < HEADER || bytes[..2] != [1, 0] || bytes[10..12] != [0, 0] {
        return None;
    }
    let (pages, cells) = (two(bytes, 2), two(bytes, 4));
    let right = sizes_allowed(pages, cells)
        && bytes.len() == length(pages, cells)
        && four(bytes, 12) <= (PAGE * pages) as u64;
    right.then_some(Layout { pages, cells })
}

/// Marks a cell that is on no chain so far.
#[inline(always)]
fn mark(marks: &mut [bool; MOST_CELLS + 1], cells: usize, cell: usize) -> bool {
    cell != 0 && cell <= cells && !core::mem::replace(&mut marks[cell], true)
}

/// Joins the code of a page's chain, which has the length its sum asks for.
#[inline(always)]
fn gather<C: Code>(
    bytes: &[u8],
    layout: Layout,
    page: usize,
    marks: &mut [bool; MOST_CELLS + 1],
) -> Option<[u8; PAGE_CODE]> {
    let entry = layout.entry(page);
    let mut code = [0; PAGE_CODE];
    let mut cell = two(bytes, entry + 4);
    for part in code
        .chunks_exact_mut(CELL_CODE)
        .take(cells_of::<C>(four(bytes, entry)))
    {
        if !mark(marks, layout.cells, cell) {
            return None;
        }
        part.copy_from_slice(layout.code(bytes, cell));
        cell = two(bytes, layout.cell(cell));
    }
    (cell == 0).then_some(code)
}

#[inline(always)]
pub fn is_exact<C: Code>(code: &[u8; PAGE_CODE], sum: u64) -> bool {
    let used = C::reserve(HEIGHT, sum);
    let end = 8 * CELL_CODE * cells_of::<C>(sum);
    all_zero(code, used, end) && C::is_exact(code, 0, HEIGHT, sum)
}

/// Hours from N on are zero: all that a page has comes before.
#[inline(always)]
pub fn rest_is_zero<C: Code>(code: &[u8; PAGE_CODE], sum: u64, page: usize, hours: usize) -> bool {
    match hours.saturating_sub(PAGE * page) {
        0 => sum == 0,
        logged if logged >= PAGE => true,
        logged => C::walk(code, 0, HEIGHT, sum, logged as u32 - 1)
            .is_some_and(|found| found.before + found.count == sum),
    }
}

/// The length of the free chain, if it is whole, as counted and clear.
fn free_cells(bytes: &[u8], layout: Layout, marks: &mut [bool; MOST_CELLS + 1]) -> Option<usize> {
    let mut cell = two(bytes, 6);
    let mut free = 0;
    while cell != 0 {
        if !mark(marks, layout.cells, cell) || *layout.code(bytes, cell) != [0; CELL_CODE] {
            return None;
        }
        free += 1;
        cell = two(bytes, layout.cell(cell));
    }
    (free == two(bytes, 8)).then_some(free)
}
