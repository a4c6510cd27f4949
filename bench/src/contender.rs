//! The three that are measured, behind one set of functions. They are called
//! through pointers, so that none can be inlined into the timing loop: the
//! library cannot be.

use rival::{books, image, merge, moves, repair, runs, store, Code, Fast, Straightforward};

// Not every call is measured.
#[allow(dead_code)]
#[path = "../../tests/exported.rs"]
mod exported;

use exported as c;

pub struct Contender {
    pub name: &'static str,
    pub length: fn(&[u32], u32) -> i64,
    pub write: fn(&[u32], u32, &mut [u8]) -> i64,
    pub check: fn(&[u8]) -> i64,
    pub count: fn(&[u8], u32) -> i64,
    pub reading: fn(&[u8], u32) -> i64,
    pub reach: fn(&[u8], u64) -> i64,
    pub append: fn(&mut [u8], u32) -> i64,
    pub freeze: fn(&[u8], u32, &mut [u8]) -> i64,
    pub busiest: fn(&[u8], u32) -> i64,
    pub matched: fn(&[u8], u64) -> i64,
    pub from_book: fn(&[u8], u32, &mut [u8]) -> i64,
    pub to_book: fn(&[u8], &mut [u8]) -> i64,
    pub merge: fn(&[u8], &[u8], u32, &mut [u8]) -> i64,
    pub free: fn(&[u8]) -> i64,
    pub repair: fn(&mut [u8], &mut [u32]) -> i64,
    pub insert: fn(&mut [u8], u32, u32) -> i64,
    pub strike: fn(&mut [u8], u32) -> i64,
}

pub fn all() -> [Contender; 3] {
    [
        library(),
        rival::<Straightforward>("straightforward"),
        fast(),
    ]
}

/// The tuned one, with calls that are more than the tree code's.
fn fast() -> Contender {
    Contender {
        matched: runs::matched_by_marks::<Fast>,
        to_book: books::from_image_by_pages::<Fast>,
        ..rival::<Fast>("fast")
    }
}

fn rival<C: Code>(name: &'static str) -> Contender {
    Contender {
        name,
        length: image::length::<C>,
        write: image::write::<C>,
        check: image::check::<C>,
        count: image::count::<C>,
        reading: image::reading::<C>,
        reach: image::reach::<C>,
        append: store::append::<C>,
        freeze: store::freeze::<C>,
        busiest: runs::busiest::<C>,
        matched: runs::matched::<C>,
        from_book: books::to_image::<C>,
        to_book: books::from_image::<C>,
        merge: merge::merge::<C>,
        free: store::free::<C>,
        repair: repair::repair::<C>,
        insert: moves::insert::<C>,
        strike: moves::strike::<C>,
    }
}

fn library() -> Contender {
    Contender {
        name: "library",
        length: |counts, e| unsafe { c::hourlog_image_length(counts.as_ptr(), counts.len(), e) },
        write: |counts, e, out| unsafe {
            let (image, room) = (out.as_mut_ptr(), out.len());
            c::hourlog_image_write(counts.as_ptr(), counts.len(), e, image, room)
        },
        check: |image| unsafe { c::hourlog_image_check(image.as_ptr(), image.len()) },
        count: |image, hour| unsafe { c::hourlog_image_count(image.as_ptr(), image.len(), hour) },
        reading: |image, hour| unsafe {
            c::hourlog_image_reading(image.as_ptr(), image.len(), hour)
        },
        reach: |image, figure| unsafe {
            c::hourlog_image_reach(image.as_ptr(), image.len(), figure)
        },
        append: |store, count| unsafe { c::hourlog_append(store.as_mut_ptr(), store.len(), count) },
        freeze: |store, e, out| unsafe {
            let (image, room) = (out.as_mut_ptr(), out.len());
            c::hourlog_freeze(store.as_ptr(), store.len(), e, image, room)
        },
        busiest: |image, hours| unsafe {
            c::hourlog_image_busiest(image.as_ptr(), image.len(), hours)
        },
        matched: |image, figure| unsafe {
            c::hourlog_image_match(image.as_ptr(), image.len(), figure)
        },
        from_book: |book, e, out| unsafe {
            let (image, room) = (out.as_mut_ptr(), out.len());
            c::hourlog_image_from_bcd(book.as_ptr(), book.len(), e, image, room)
        },
        to_book: |image, out| unsafe {
            let (book, room) = (out.as_mut_ptr(), out.len());
            c::hourlog_image_to_bcd(image.as_ptr(), image.len(), book, room)
        },
        merge: |a, b, e, out| unsafe {
            let (image, room) = (out.as_mut_ptr(), out.len());
            c::hourlog_image_merge(a.as_ptr(), a.len(), b.as_ptr(), b.len(), e, image, room)
        },
        free: |store| unsafe { c::hourlog_free(store.as_ptr(), store.len()) },
        repair: |store, lost| unsafe {
            let (list, n) = (lost.as_mut_ptr(), lost.len());
            c::hourlog_repair(store.as_mut_ptr(), store.len(), list, n)
        },
        insert: |store, hour, count| unsafe {
            c::hourlog_insert(store.as_mut_ptr(), store.len(), hour, count)
        },
        strike: |store, hour| unsafe { c::hourlog_strike(store.as_mut_ptr(), store.len(), hour) },
    }
}
