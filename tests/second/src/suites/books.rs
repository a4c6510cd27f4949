//! Old credit books turned into images and back.

use crate::book::{book_of, counts, image_of_book};
use crate::book_calls::{compare_from_book, compare_to_book};
use crate::image::{self, image_of};
use crate::image_calls::compare_output;
use crate::plain::TOTAL_LIMIT;
use crate::random::{Random, Size};
use crate::run::{Outcome, Run};
use crate::store_calls::{same_bytes, same_word};

const FIRST_SEED: u64 = 8_400_000;
const LISTS: u64 = 300;
const LONG: u64 = 40;
const MOST: usize = 65_536;
const MOST_BYTES: usize = 2 * MOST;

pub fn play(run: &mut Run) -> Outcome {
    let result = by_document_02(run);
    run.note("books by document 02", result)?;
    for e in [0, 1, 9, 258, u32::MAX] {
        let result = wrong_page_size(run, e);
        run.note(format!("books, e = {e}"), result)?;
    }
    for e in run.page_sizes() {
        let result = page_borders(run, e)
            .and_then(|()| longest(run, e))
            .and_then(|()| one_count_above(run, e));
        run.note(format!("books, e = {e}"), result)?;
    }
    let result = digits(run).and_then(|()| counts_above(run));
    run.note("books, digits and counts", result)?;
    run.each_seed(FIRST_SEED, LISTS, random_book)?;
    run.each_seed(FIRST_SEED + 100_000, LONG, one_hour_of_a_long_book)
}

/// Ten coins are 00 10; and each refusal before the next.
fn by_document_02(run: &mut Run) -> Result<(), String> {
    let image = image_of(&[10], 2);
    let (ten, bytes) = ([0x00, 0x10], image.len());
    reads(run, &ten, (2, 99), bytes as i64)?;
    reads(run, &[0x0A, 0x10, 0], (9, 0), -1)?;
    reads(run, &[0x0A, 0x10], (2, 0), -14)?;
    reads(run, &ten[..1], (2, 0), -14)?;
    reads(run, &vec![0xF0; MOST_BYTES + 2], (2, 0), -14)?;
    reads(run, &vec![0; MOST_BYTES + 1], (2, 0), -14)?;
    reads(run, &vec![0; MOST_BYTES + 2], (2, 0), -2)?;
    reads(run, &ten, (2, bytes - 1), -4)?;
    let mut book = [0x5A; 3];
    let mut lent = image.clone();
    let answer = run.library.image_to_book(&mut lent, &mut book);
    same_word(answer, 2, "document 02")?;
    same_bytes(&book, &[0x00, 0x10, 0x5A], "book of ten coins")?;
    let answer = run.library.image_to_book(&mut lent, &mut book[..1]);
    same_word(answer, -4, "document 02")?;
    same_bytes(&book, &[0x00, 0x10, 0x5A], "book of ten coins")?;
    let mut large = image_of(&[10_000], 2);
    let answer = run.library.image_to_book(&mut large, &mut []);
    same_word(answer, -15, "document 02")
}

/// A book read with an e into so much room.
fn reads(run: &mut Run, book: &[u8], (e, room): (u32, usize), expected: i64) -> Result<(), String> {
    let (mut lent, mut answer) = (book.to_vec(), 0);
    compare_output(&image_of_book(book, e), room, "image of the book", |out| {
        answer = run.library.image_from_book(&mut lent, e, out);
        answer
    })?;
    same_bytes(&lent, book, "lent book")?;
    same_word(answer, expected, "document 02")
}

/// Good books, books that are not decimal and one that is too long: all 1.
fn wrong_page_size(run: &mut Run, e: u32) -> Result<(), String> {
    for book in [
        vec![],
        vec![0, 16],
        vec![1],
        vec![0xAA; 2],
        vec![0; MOST_BYTES + 2],
    ] {
        compare_from_book(&mut run.library, &book, e)?;
    }
    Ok(())
}

/// A list over and back from either side, by the library's own bytes.
fn round_trip(run: &mut Run, list: &[u64], e: u32) -> Result<(), String> {
    let book = book_of(list);
    let image = compare_from_book(&mut run.library, &book, e)?.ok_or("no image")?;
    same_bytes(&image, &image_of(list, e), "image of the list")?;
    compare_to_book(&mut run.library, &image, &Ok(list.to_vec()))?;
    let mut back = vec![0x5A; book.len()];
    run.library.image_to_book(&mut image.clone(), &mut back);
    same_bytes(&back, &book, "book, over and back")?;
    let mut again = vec![0x5A; image.len()];
    run.library
        .image_from_book(&mut back, image[1].into(), &mut again);
    same_bytes(&again, &image, "image, over and back")
}

fn page_borders(run: &mut Run, e: u32) -> Result<(), String> {
    let page = 1 << e;
    let mut random = Random::new(e.into());
    for length in [0, 1, page - 1, page, page + 1, 3 * page - 1] {
        for size in Size::ALL {
            round_trip(run, &counts(&mut random, length, size), e)?;
        }
    }
    Ok(())
}

/// The most hours, an hour more and a byte more, and a fault in their last byte.
fn longest(run: &mut Run, e: u32) -> Result<(), String> {
    round_trip(run, &counts(&mut Random::new(7), MOST, Size::Usual), e)?;
    round_trip(run, &vec![9_999; MOST], e)?;
    for length in [MOST_BYTES, MOST_BYTES + 1, MOST_BYTES + 2, MOST_BYTES + 3] {
        let mut book = vec![0x99; length];
        compare_from_book(&mut run.library, &book, e)?;
        book[length - 1] = 0x9A;
        compare_from_book(&mut run.library, &book, e)?;
    }
    Ok(())
}

/// Every value of every digit of every hour, one at a time, and every length.
fn digits(run: &mut Run) -> Result<(), String> {
    let good = book_of(&[1_234, 0, 9_999, 10]);
    for place in 0..2 * good.len() {
        for digit in 0..16 {
            let mut book = good.clone();
            let kept = if place % 2 == 0 { 0x0F } else { 0xF0 };
            book[place / 2] = book[place / 2] & kept | digit << (4 - place % 2 * 4);
            compare_from_book(&mut run.library, &book, 2)?;
        }
    }
    for length in 0..good.len() {
        compare_from_book(&mut run.library, &good[..length], 2)?;
    }
    Ok(())
}

/// Counts at the edge of four digits and far above it, in the first hour and in
/// the last; the same with damage, for 6 comes before 15.
fn counts_above(run: &mut Run) -> Result<(), String> {
    for count in [9_998, 9_999, 10_000, 10_001, 65_536 + 5, TOTAL_LIMIT - 3] {
        for list in [vec![count], vec![count, 0, 3], vec![3, 0, 0, 0, count]] {
            for e in run.page_sizes() {
                let image = image_of(&list, e);
                let mut damaged = image.clone();
                damaged[8] ^= 1;
                for bytes in [image, damaged] {
                    let verdict = image::list(&bytes);
                    compare_to_book(&mut run.library, &bytes, &verdict)?;
                }
            }
        }
    }
    Ok(())
}

/// The most hours, of which one alone has too many coins: late, the last, and on
/// either side of page borders.
fn one_count_above(run: &mut Run, e: u32) -> Result<(), String> {
    let page = 1 << e;
    let border = MOST / 2;
    for hour in [border - 1, border, MOST - page - 1, MOST - page, MOST - 1] {
        let mut list = vec![7; MOST];
        list[hour] = 10_000;
        compare_to_book(&mut run.library, &image_of(&list, e), &Ok(list))
            .map_err(|difference| format!("10,000 coins in hour {hour}: {difference}"))?;
    }
    Ok(())
}

/// A long book in which one hour alone, wherever it is, is not decimal, and an
/// image in which it has too many coins.
fn one_hour_of_a_long_book(run: &mut Run, seed: u64) -> Result<(), String> {
    let mut random = Random::new(seed);
    let (e, length) = (random.between(2, 8) as u32, random.between(1_000, 65_536));
    let mut list = counts(&mut random, length as usize, Size::Usual);
    let hour = random.below(length) as usize;
    let mut book = book_of(&list);
    book[2 * hour + random.below(2) as usize] |= random.pick(&[0x0A, 0xA0]);
    compare_from_book(&mut run.library, &book, e)?;
    list[hour] = random.between(10_000, 70_000);
    compare_to_book(&mut run.library, &image_of(&list, e), &Ok(list))
}

/// A good book, and the same one with a byte that may not be decimal.
fn random_book(run: &mut Run, seed: u64) -> Result<(), String> {
    let mut random = Random::new(seed);
    let (e, length) = (random.between(2, 8) as u32, random.below(300) as usize);
    let size = random.pick(&Size::ALL);
    let list = counts(&mut random, length, size);
    round_trip(run, &list, e)?;
    let mut book = book_of(&list);
    if !book.is_empty() {
        let at = random.below(book.len() as u64) as usize;
        book[at] = random.next() as u8;
        compare_from_book(&mut run.library, &book, e)?;
    }
    let length = random.below(40) as usize;
    compare_from_book(&mut run.library, &random.bytes(length), e)?;
    Ok(())
}
