//! Old credit books (document 02, note 3): packed decimal, two bytes an hour,
//! four digits, high digit first.

use crate::image::{self, image_of, page_size_allowed};
use crate::random::{Random, Size};
use crate::refusal::{refuse_if, Answer, Refusal};

pub const MOST: u64 = 9_999;

/// The image of what a book says.
pub fn image_of_book(book: &[u8], e: u32) -> Answer<Vec<u8>> {
    refuse_if(!page_size_allowed(e), Refusal::PageSize)?;
    image::image(&counts_of(book)?, e)
}

/// The book of an image of which the full check says this.
pub fn book_of_image(list: &Answer<Vec<u64>>) -> Answer<Vec<u8>> {
    let counts = list.as_ref().map_err(|&refusal| refusal)?;
    refuse_if(
        counts.iter().any(|&count| count > MOST),
        Refusal::NoBookCount,
    )?;
    Ok(book_of(counts))
}

/// What a book says, hour by hour.
fn counts_of(book: &[u8]) -> Answer<Vec<u64>> {
    let digits: Vec<u64> = book
        .iter()
        .flat_map(|&byte| [u64::from(byte / 16), u64::from(byte % 16)])
        .collect();
    let decimal = digits.iter().all(|&digit| digit <= 9);
    refuse_if(book.len() % 2 == 1 || !decimal, Refusal::NotDecimal)?;
    let number = |four: &[u64]| four.iter().fold(0, |value, digit| 10 * value + digit);
    Ok(digits.chunks(4).map(number).collect())
}

/// The book of counts up to 9999.
pub fn book_of(counts: &[u64]) -> Vec<u8> {
    let mut book = Vec::new();
    for count in counts {
        for two in [count / 100, count % 100] {
            book.push((two / 10 * 16 + two % 10) as u8);
        }
    }
    book
}

/// Counts that a book can hold.
pub fn counts(random: &mut Random, length: usize, size: Size) -> Vec<u64> {
    let mut count = || u64::from(crate::random::count(random, size)) % (MOST + 1);
    (0..length).map(|_| count()).collect()
}

pub fn self_test() {
    assert_eq!(book_of(&[10]), [0x00, 0x10], "document 02's ten coins");
    assert_eq!(book_of(&[1_234, 9_999, 0]), [0x12, 0x34, 0x99, 0x99, 0, 0]);
    assert_eq!(counts_of(&[0x12, 0x34, 0x00, 0x10]), Ok(vec![1_234, 10]));
    for bad in [&[0xA0, 0][..], &[0x0A, 0], &[0, 0xA0], &[0, 0x0A], &[0; 3]] {
        assert_eq!(counts_of(bad), Err(Refusal::NotDecimal));
        assert_eq!(image_of_book(bad, 9), Err(Refusal::PageSize), "1 before 14");
    }
    let long = |last| [vec![0; 2 * 65_536], vec![0, last]].concat();
    assert_eq!(image_of_book(&long(0), 2), Err(Refusal::List));
    assert_eq!(
        image_of_book(&long(0x0A), 2),
        Err(Refusal::NotDecimal),
        "14 before 2"
    );
    assert_eq!(image_of_book(&[], 2), Ok(image_of(&[], 2)));
    assert_eq!(
        book_of_image(&Ok(vec![0, 10_000])),
        Err(Refusal::NoBookCount)
    );
    assert_eq!(book_of_image(&Err(Refusal::Body)), Err(Refusal::Body));
    for count in 0..=MOST {
        assert_eq!(counts_of(&book_of(&[count])), Ok(vec![count]));
    }
    let mut random = Random::new(3);
    for e in 2..=8 {
        let list = counts(&mut random, 300, Size::Mixed);
        let book = book_of(&list);
        let image = image_of_book(&book, e).expect("decimal");
        assert_eq!(book_of_image(&image::list(&image)), Ok(book.clone()));
        assert_eq!(image, image_of(&list, e));
    }
}
