//! Runs of hours of an accepted image: a window is moved along it, each of its
//! ends with a page of its own.

use crate::code::Code;
use crate::cursor::Cursor;
use crate::image::accepted;
use crate::refused::{word, EMPTY_BAG, STRETCH};

/// The run of so many hours with the largest sum, the earliest on a tie.
pub fn busiest<C: Code>(bytes: &[u8], hours: u32) -> i64 {
    word(accepted::<C>(bytes).and_then(|image| {
        let hours = hours as usize;
        if hours == 0 || hours > image.hours {
            return Err(STRETCH);
        }
        let (mut ahead, mut behind) = (Cursor::<C>::new(&image), Cursor::<C>::new(&image));
        let mut sum: u64 = (0..hours).map(|_| ahead.next()).sum();
        let (mut best, mut first) = (sum, 0);
        for k in 1..=image.hours - hours {
            sum = sum + ahead.next() - behind.next_behind(&ahead);
            if sum > best {
                (best, first) = (sum, k);
            }
        }
        Ok(best as i64 + ((first as i64) << 40))
    }))
}

/// The first run with this sum, of the fewest hours; 0 if there is none.
pub fn matched<C: Code>(bytes: &[u8], figure: u64) -> i64 {
    word(accepted::<C>(bytes).and_then(|image| {
        if figure == 0 {
            return Err(EMPTY_BAG);
        }
        let (mut ahead, mut behind) = (Cursor::<C>::new(&image), Cursor::<C>::new(&image));
        let (mut first, mut end, mut sum) = (0, 0, 0);
        loop {
            while sum < figure {
                if end == image.hours {
                    return Ok(0);
                }
                sum += ahead.next();
                end += 1;
            }
            if sum == figure {
                return Ok((first + ((end - first) << 32)) as i64);
            }
            sum -= behind.next();
            first += 1;
        }
    }))
}

/// Places of marks.
const MARKS: usize = 2_048;

/// The same without jumps that the data decides: with a sum before each hour, a
/// run has the figure's sum where the sum behind it is the one before it plus
/// the figure. The sums of a page are marked by their low bits, and each first
/// hour's target is looked up there; where it is marked, the page is searched.
pub fn matched_by_marks<C: Code>(bytes: &[u8], figure: u64) -> i64 {
    word(accepted::<C>(bytes).and_then(|image| {
        if figure == 0 {
            return Err(EMPTY_BAG);
        }
        let (mut ahead, mut behind) = (Cursor::<C>::new(&image), Cursor::<C>::new(&image));
        let mut marks = [0; MARKS];
        let (mut first, mut target, mut start) = (0, u128::from(figure), 0);
        let mut end = 0;
        for stamp in (1..=255u8).cycle() {
            if end == image.hours {
                return Ok(0);
            }
            let page = ahead.page();
            let mut sum = start;
            for &count in page {
                sum += u64::from(count);
                marks[sum as usize % MARKS] = stamp;
            }
            while target <= u128::from(sum) {
                if marks[target as usize % MARKS] == stamp {
                    if let Some(hours) = hours_to(page, target as u64 - start) {
                        return Ok((first + ((end + hours - first) << 32)) as i64);
                    }
                }
                target += u128::from(behind.next());
                first += 1;
            }
            start = sum;
            end += page.len();
        }
        unreachable!("the stamps have no end")
    }))
}

/// How many counts have exactly this sum, the fewest.
fn hours_to(page: &[u32], sum: u64) -> Option<usize> {
    let mut left = sum;
    for (hours, &count) in page.iter().enumerate() {
        left = left.checked_sub(count.into())?;
        if left == 0 {
            return Some(hours + 1);
        }
    }
    None
}
