//! Books in packed decimal, two bytes an hour, to an image and back; page by
//! page, without a list.

use crate::code::Code;
use crate::cursor::Cursor;
use crate::header::page_size_allowed;
use crate::image::{accepted, write_from, Source, LARGEST_PAGE};
use crate::refused::{word, BUFFER, NOT_DECIMAL, NO_BOOK_COUNT, PAGE_SIZE};

const MOST: u64 = 9_999;

/// A book that is decimal.
struct Book<'a>(&'a [u8]);

fn is_decimal(book: &[u8]) -> bool {
    book.len() % 2 == 0 && book.iter().all(|&byte| byte >> 4 <= 9 && byte & 15 <= 9)
}

fn count_of(hour: &[u8]) -> u32 {
    let two = |byte: u8| u32::from(byte >> 4) * 10 + u32::from(byte & 15);
    100 * two(hour[0]) + two(hour[1])
}

impl Source for Book<'_> {
    fn hours(&self) -> usize {
        self.0.len() / 2
    }

    fn total(&self) -> u64 {
        self.0
            .chunks_exact(2)
            .map(|hour| u64::from(count_of(hour)))
            .sum()
    }

    fn each_page(&self, e: u32, mut each: impl FnMut(&[u32])) {
        for page in self.0.chunks(2 << e) {
            let mut counts = [0; LARGEST_PAGE];
            for (count, hour) in counts.iter_mut().zip(page.chunks_exact(2)) {
                *count = count_of(hour);
            }
            each(&counts[..1 << e]);
        }
    }
}

pub fn to_image<C: Code>(book: &[u8], e: u32, image: &mut [u8]) -> i64 {
    if !page_size_allowed(e) {
        return PAGE_SIZE;
    }
    if !is_decimal(book) {
        return NOT_DECIMAL;
    }
    write_from::<C>(&Book(book), e, image)
}

pub fn from_image<C: Code>(bytes: &[u8], book: &mut [u8]) -> i64 {
    word(accepted::<C>(bytes).and_then(|image| {
        let mut counts = Cursor::<C>::new(&image);
        if (0..image.hours).any(|_| counts.next() > MOST) {
            return Err(NO_BOOK_COUNT);
        }
        let length = 2 * image.hours;
        let book = book.get_mut(..length).ok_or(BUFFER)?;
        let mut counts = Cursor::<C>::new(&image);
        for hour in book.chunks_exact_mut(2) {
            put_count(counts.next() as u16, hour);
        }
        Ok(length as i64)
    }))
}

/// Four digits, high digit first, in 16 bits: the compiler takes several at a time.
#[inline(always)]
fn put_count(count: u16, hour: &mut [u8]) {
    let packed = |two: u16| (two + two / 10 * 6) as u8;
    let high = count / 100;
    (hour[0], hour[1]) = (packed(high), packed(count - 100 * high));
}

/// The same, page by page, and a page with no more coins than one hour may have
/// is not looked at.
pub fn from_image_by_pages<C: Code>(bytes: &[u8], book: &mut [u8]) -> i64 {
    word(accepted::<C>(bytes).and_then(|image| {
        let mut counts = [0; LARGEST_PAGE];
        for hour in (0..image.hours).step_by(image.page_hours()) {
            if image.page_sum::<C>(hour) > MOST {
                let hours = image.read_page::<C>(hour, &mut counts);
                if counts[..hours].iter().any(|&count| u64::from(count) > MOST) {
                    return Err(NO_BOOK_COUNT);
                }
            }
        }
        let length = 2 * image.hours;
        let book = book.get_mut(..length).ok_or(BUFFER)?;
        for (page, hours) in book.chunks_mut(2 * image.page_hours()).enumerate() {
            image.read_page::<C>(page * image.page_hours(), &mut counts);
            for (hour, &count) in hours.chunks_exact_mut(2).zip(&counts) {
                put_count(count as u16, hour);
            }
        }
        Ok(length as i64)
    }))
}
