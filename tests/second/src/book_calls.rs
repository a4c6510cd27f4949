//! Comparison of the calls between books and images.

use crate::book::{book_of_image, image_of_book};
use crate::ffi::Library;
use crate::image_calls::{compare_output, rooms};
use crate::refusal::Answer;
use crate::store_calls::same_bytes;

/// The image of a book, into buffers of every room; gives it, if there is one.
pub fn compare_from_book(
    library: &mut Library,
    book: &[u8],
    e: u32,
) -> Result<Option<Vec<u8>>, String> {
    let image = image_of_book(book, e);
    let mut lent = book.to_vec();
    for room in rooms(&image) {
        compare_output(&image, room, "image of the book", |out| {
            library.image_from_book(&mut lent, e, out)
        })?;
        same_bytes(&lent, book, "lent book")?;
    }
    Ok(image.ok())
}

/// The book of any bytes, of which the full check says this.
pub fn compare_to_book(
    library: &mut Library,
    bytes: &[u8],
    list: &Answer<Vec<u64>>,
) -> Result<(), String> {
    let book = book_of_image(list);
    let mut lent = bytes.to_vec();
    for room in rooms(&book) {
        compare_output(&book, room, "book", |out| {
            library.image_to_book(&mut lent, out)
        })
        .map_err(|difference| format!("to a book: {difference}"))?;
        same_bytes(&lent, bytes, "lent image")?;
    }
    Ok(())
}
