//! The refusals as words of the C interface.

pub const PAGE_SIZE: i64 = -1;
pub const LIST: i64 = -2;
pub const TOTAL: i64 = -3;
pub const BUFFER: i64 = -4;
pub const HEADER: i64 = -5;
pub const BODY: i64 = -6;
pub const HOUR: i64 = -7;
pub const FIGURE: i64 = -8;
pub const FRESH: i64 = -9;
pub const UNSOUND: i64 = -10;
pub const FULL: i64 = -11;
pub const CELLS: i64 = -12;
pub const STRETCH: i64 = -13;
pub const NOT_DECIMAL: i64 = -14;
pub const NO_BOOK_COUNT: i64 = -15;
pub const EMPTY_BAG: i64 = -17;
pub const NOT_REPAIRABLE: i64 = -18;

/// The word of a call that may be refused on its way.
pub fn word(answer: Result<i64, i64>) -> i64 {
    answer.unwrap_or_else(|refusal| refusal)
}
