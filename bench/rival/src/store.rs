//! The calls of the live store, worked on in its bytes.

use crate::code::Code;
use crate::fields::{four, put_four, put_two, two};
use crate::header::MOST_HOURS;
use crate::image;
use crate::refused::{word, CELLS, FIGURE, FRESH, FULL, HOUR, TOTAL};
use crate::sound::{
    cells_of, length, sizes_allowed, sound, Sound, CELL, CELL_CODE, HEIGHT, MOST_TOTAL, PAGE,
    PAGE_CODE,
};

impl Sound {
    pub(crate) fn sum(&self, bytes: &[u8], page: usize) -> u64 {
        four(bytes, self.layout.entry(page))
    }

    /// The cells of a page's chain, the free chain behind them, up to eight.
    fn joined(&self, bytes: &[u8], page: usize, length: usize) -> [usize; 8] {
        let mut cells = [0; 8];
        let mut cell = two(bytes, self.layout.entry(page) + 4);
        for place in cells.iter_mut().take(length) {
            if cell == 0 {
                cell = two(bytes, 6);
            }
            *place = cell;
            cell = two(bytes, self.layout.cell(cell));
        }
        cells
    }

    /// The code of a page of a store that is known to be sound.
    pub(crate) fn code<C: Code>(&self, bytes: &[u8], page: usize) -> [u8; PAGE_CODE] {
        let mut code = [0; PAGE_CODE];
        let cells = self.joined(bytes, page, cells_of::<C>(self.sum(bytes, page)));
        for (part, &cell) in code.chunks_exact_mut(CELL_CODE).zip(&cells) {
            if cell != 0 {
                part.copy_from_slice(self.layout.code(bytes, cell));
            }
        }
        code
    }

    pub(crate) fn counts<C: Code>(&self, bytes: &[u8], page: usize) -> [u32; PAGE] {
        let mut counts = [0; PAGE];
        let code = self.code::<C>(bytes, page);
        C::read(&code, 0, self.sum(bytes, page), &mut counts);
        counts
    }

    /// The count of an hour below 64P, and the sum before it.
    fn look<C: Code>(&self, bytes: &[u8], hour: usize) -> (u64, u64) {
        let page = hour / PAGE;
        let earlier: u64 = (0..page).map(|p| self.sum(bytes, p)).sum();
        let code = self.code::<C>(bytes, page);
        let j = (hour % PAGE) as u32;
        let found = C::walk(&code, 0, HEIGHT, self.sum(bytes, page), j).expect("a sound page");
        (earlier + found.before, found.count)
    }

    fn reading<C: Code>(&self, bytes: &[u8], hour: u64) -> Result<u64, i64> {
        if hour > self.hours as u64 {
            return Err(HOUR);
        }
        if hour == 0 {
            return Ok(0);
        }
        let (before, count) = self.look::<C>(bytes, hour as usize - 1);
        Ok(before + count)
    }

    /// Gives an hour a new count: the page's code is worked out before a byte
    /// is changed.
    fn change<C: Code>(&self, bytes: &mut [u8], hour: usize, count: u32) -> Result<i64, i64> {
        let (page, j) = (hour / PAGE, hour % PAGE);
        let mut counts = self.counts::<C>(bytes, page);
        let (old, new) = (u64::from(counts[j]), u64::from(count));
        if self.total - old + new > MOST_TOTAL {
            return Err(TOTAL);
        }
        let sum = self.sum(bytes, page);
        let new_sum = sum - old + new;
        let (before, after) = (cells_of::<C>(sum), cells_of::<C>(new_sum));
        if after > before + self.free {
            return Err(CELLS);
        }
        counts[j] = count;
        let mut code = [0; PAGE_CODE];
        C::write(&mut code, 0, &counts, new_sum);
        self.relink(bytes, page, before, after, &code);
        put_four(bytes, self.layout.entry(page), new_sum);
        let (taken, returned) = (after.saturating_sub(before), before.saturating_sub(after));
        Ok((taken + (returned << 16)) as i64)
    }

    /// Moves the line between a page's chain and the free chain behind it,
    /// and fills the cells on both sides of it that are concerned.
    pub(crate) fn relink(
        &self,
        bytes: &mut [u8],
        page: usize,
        before: usize,
        after: usize,
        code: &[u8; PAGE_CODE],
    ) {
        let concerned = before.max(after);
        let cells = self.joined(bytes, page, concerned);
        let rest = match cells[..concerned].last() {
            Some(&last) if after > before => two(bytes, self.layout.cell(last)),
            _ => two(bytes, 6),
        };
        let first_of = |from: usize, else_first: usize| match cells[from..concerned].first() {
            Some(&cell) => cell,
            None => else_first,
        };
        for k in 0..concerned {
            let next = match k + 1 {
                end if end == after => 0,
                end => first_of(end, rest),
            };
            let at = self.layout.cell(cells[k]);
            put_two(bytes, at, next);
            bytes[at + 2..at + CELL].copy_from_slice(&code[CELL_CODE * k..][..CELL_CODE]);
        }
        let first = if after == 0 { 0 } else { cells[0] };
        put_two(bytes, self.layout.entry(page) + 4, first);
        put_two(bytes, 6, first_of(after, rest));
        let free = two(bytes, 8) + before - after;
        put_two(bytes, 8, free);
    }
}

pub fn fresh(bytes: &mut [u8], pages: u32, cells: u32) -> i64 {
    let (pages, cells) = (pages as usize, cells as usize);
    if !sizes_allowed(pages, cells) || bytes.len() != length(pages, cells) {
        return FRESH;
    }
    bytes.fill(0);
    bytes[0] = 1;
    put_two(bytes, 2, pages);
    put_two(bytes, 4, cells);
    put_two(bytes, 6, 1);
    put_two(bytes, 8, cells);
    for cell in 1..cells {
        put_two(bytes, length(pages, cell - 1), cell + 1);
    }
    0
}

pub fn append<C: Code>(bytes: &mut [u8], count: u32) -> i64 {
    word(sound::<C>(bytes).and_then(|store| {
        if store.hours == PAGE * store.layout.pages {
            return Err(FULL);
        }
        let moved = match count {
            0 => 0,
            _ => store.change::<C>(bytes, store.hours, count)?,
        };
        put_four(bytes, 12, store.hours as u64 + 1);
        Ok(moved)
    }))
}

pub fn set<C: Code>(bytes: &mut [u8], hour: u32, count: u32) -> i64 {
    word(sound::<C>(bytes).and_then(|store| {
        if hour as usize >= store.hours {
            return Err(HOUR);
        }
        store.change::<C>(bytes, hour as usize, count)
    }))
}

pub fn count<C: Code>(bytes: &[u8], hour: u32) -> i64 {
    word(sound::<C>(bytes).and_then(|store| {
        if hour as usize >= store.hours {
            return Err(HOUR);
        }
        Ok(store.look::<C>(bytes, hour as usize).1 as i64)
    }))
}

pub fn reading<C: Code>(bytes: &[u8], hour: u32) -> i64 {
    word(sound::<C>(bytes).and_then(|store| {
        let reading = store.reading::<C>(bytes, hour.into())?;
        Ok(reading as i64)
    }))
}

pub fn day<C: Code>(bytes: &[u8], day: u32) -> i64 {
    word(sound::<C>(bytes).and_then(|store| {
        let end = 24 * u64::from(day) + 24;
        let last = store.reading::<C>(bytes, end)?;
        Ok((last - store.reading::<C>(bytes, end - 24)?) as i64)
    }))
}

pub fn reach<C: Code>(bytes: &[u8], figure: u32) -> i64 {
    word(sound::<C>(bytes).and_then(|store| {
        let mut left = u64::from(figure);
        if left > store.total {
            return Err(FIGURE);
        }
        if left == 0 {
            return Ok(0);
        }
        let mut page = 0;
        while left > store.sum(bytes, page) {
            left -= store.sum(bytes, page);
            page += 1;
        }
        let code = store.code::<C>(bytes, page);
        let sum = store.sum(bytes, page);
        let j = C::seek(&code, 0, HEIGHT, sum, left).expect("a sound page");
        Ok((PAGE * page + j as usize + 1) as i64)
    }))
}

pub fn free<C: Code>(bytes: &[u8]) -> i64 {
    word(sound::<C>(bytes).map(|store| store.free as i64))
}

pub fn freeze<C: Code>(bytes: &[u8], e: u32, out: &mut [u8]) -> i64 {
    word(sound::<C>(bytes).map(|store| {
        let mut counts = [0; MOST_HOURS];
        for (page, part) in counts.chunks_exact_mut(PAGE).enumerate() {
            if page * PAGE < store.hours {
                part.copy_from_slice(&store.counts::<C>(bytes, page));
            }
        }
        image::write::<C>(&counts[..store.hours], e, out)
    }))
}
