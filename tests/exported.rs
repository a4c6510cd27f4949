//! What include/hourlog.h declares, for the comparison and the benchmark. What
//! it is still to declare for document 02 stands behind a feature for each request.

extern "C" {
    pub fn hourlog_fresh(store: *mut u8, len: usize, pages: u32, cells: u32) -> i64;
    pub fn hourlog_append(store: *mut u8, len: usize, count: u32) -> i64;
    pub fn hourlog_set(store: *mut u8, len: usize, hour: u32, count: u32) -> i64;
    pub fn hourlog_insert(store: *mut u8, len: usize, hour: u32, count: u32) -> i64;
    pub fn hourlog_strike(store: *mut u8, len: usize, hour: u32) -> i64;
    pub fn hourlog_count(store: *const u8, len: usize, hour: u32) -> i64;
    pub fn hourlog_reading(store: *const u8, len: usize, hour: u32) -> i64;
    pub fn hourlog_reach(store: *const u8, len: usize, figure: u32) -> i64;
    pub fn hourlog_day(
        store: *const u8,
        len: usize,
        day: u32,
        changes: *const u32,
        n: usize,
    ) -> i64;
    pub fn hourlog_free(store: *const u8, len: usize) -> i64;
    pub fn hourlog_freeze(
        store: *const u8,
        len: usize,
        e: u32,
        image: *mut u8,
        image_len: usize,
    ) -> i64;
    pub fn hourlog_repair(store: *mut u8, len: usize, lost: *mut u32, n: usize) -> i64;
    pub fn hourlog_image_length(counts: *const u32, n: usize, e: u32) -> i64;
    pub fn hourlog_image_write(
        counts: *const u32,
        n: usize,
        e: u32,
        image: *mut u8,
        image_len: usize,
    ) -> i64;
    pub fn hourlog_image_check(image: *const u8, len: usize) -> i64;
    pub fn hourlog_image_count(image: *const u8, len: usize, hour: u32) -> i64;
    pub fn hourlog_image_reading(image: *const u8, len: usize, hour: u32) -> i64;
    pub fn hourlog_image_reach(image: *const u8, len: usize, figure: u64) -> i64;
    pub fn hourlog_image_busiest(image: *const u8, len: usize, hours: u32) -> i64;
    pub fn hourlog_image_match(image: *const u8, len: usize, figure: u64) -> i64;
    pub fn hourlog_image_from_bcd(
        book: *const u8,
        book_len: usize,
        e: u32,
        image: *mut u8,
        image_len: usize,
    ) -> i64;
    pub fn hourlog_image_to_bcd(
        image: *const u8,
        len: usize,
        book: *mut u8,
        book_len: usize,
    ) -> i64;
    pub fn hourlog_image_merge(
        first: *const u8,
        first_len: usize,
        second: *const u8,
        second_len: usize,
        e: u32,
        image: *mut u8,
        image_len: usize,
    ) -> i64;
}
