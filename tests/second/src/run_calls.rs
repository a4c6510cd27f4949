//! Comparison of the image calls that look for a run of hours.

use crate::bag::matched;
use crate::busiest::busiest;
use crate::ffi::Library;
use crate::image::Reached;
use crate::image_calls::ask_each;
use crate::refusal::{Answer, Packed};

/// The busiest run of each of these numbers of hours, over any bytes of which
/// the full check says this.
pub fn compare_busiest(
    library: &mut Library,
    bytes: &[u8],
    list: &Answer<Vec<u64>>,
    stretches: &[u32],
) -> Result<(), String> {
    ask_each("busiest", bytes, stretches, |lent, hours| {
        let expected = exactly(busiest(list, hours.into()));
        (library.image_busiest(lent, hours), expected)
    })
}

/// The run that matches each of these bags.
pub fn compare_match(
    library: &mut Library,
    bytes: &[u8],
    list: &Answer<Vec<u64>>,
    bags: &[u64],
) -> Result<(), String> {
    ask_each("match", bytes, bags, |lent, figure| {
        let expected = exactly(matched(list, figure));
        (library.image_match(lent, figure), expected)
    })
}

fn exactly<T: Packed>(answer: Answer<T>) -> Reached {
    Reached::Exactly(answer.map(Packed::packed))
}
