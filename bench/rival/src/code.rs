//! What image and store need of the tree code.

/// No count is larger, whatever sum a tree has.
pub const MOST_COUNT: u64 = u32::MAX as u64;

/// A walk's end: the sum before a count, and the count.
pub struct Found {
    pub before: u64,
    pub count: u64,
}

/// A tree of 2^h counts, h from 2 to 8, with sum `s` stands at bit `at` and
/// owns R(2^h, s) bits, which the caller knows to lie within `bytes`.
pub trait Code {
    /// R(2^h, s) in bits.
    fn reserve(h: u32, s: u64) -> usize;

    /// Writes the tree of counts whose sum is `s` where all bits are zero.
    fn write(bytes: &mut [u8], at: usize, counts: &[u32], s: u64);

    /// Whether exactly the code of some counts stands there.
    fn is_exact(bytes: &[u8], at: usize, h: u32, s: u64) -> bool;

    /// Takes all 2^h counts out of a tree that is exact.
    fn read(bytes: &[u8], at: usize, s: u64, counts: &mut [u32]);

    /// Walks to count `j`; `None` at a left sum above its node.
    fn walk(bytes: &[u8], at: usize, h: u32, s: u64, j: u32) -> Option<Found>;

    /// The smallest j for which counts 0 to j sum to `figure` or more, which
    /// is from 1 to `s`; `None` at a left sum above its node.
    fn seek(bytes: &[u8], at: usize, h: u32, s: u64, figure: u64) -> Option<u32>;

    /// The first page whose root is the figure or more, given that the last
    /// one's is; a root that is refused ends the search.
    fn page_of(
        pages: usize,
        total: u64,
        figure: u64,
        root: impl Fn(usize) -> Result<u64, i64>,
    ) -> Result<usize, i64>;
}

/// Binary digits of `s`, 0 for 0.
#[inline(always)]
pub const fn digits(s: u64) -> u32 {
    64 - s.leading_zeros()
}

/// The first page of a range whose root is the figure or more, given that the
/// last one's is: by halving.
#[inline(always)]
pub fn halved(
    mut low: usize,
    mut high: usize,
    figure: u64,
    root: impl Fn(usize) -> Result<u64, i64>,
) -> Result<usize, i64> {
    while low < high {
        let middle = (low + high) / 2;
        if root(middle)? < figure {
            low = middle + 1;
        } else {
            high = middle;
        }
    }
    Ok(low)
}
