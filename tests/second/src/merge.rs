//! Two coin doors (document 02, note 9): the image of the hour-by-hour sums of
//! two images.

use crate::image::{self, image_of, page_size_allowed, COUNT_LIMIT, MOST_COINS};
use crate::plain::readings;
use crate::random::{counts, Random, Size};
use crate::refusal::{refuse_if, Answer, Refusal};

/// The image with this e of the sums of two images, of which the full check
/// says these.
pub fn merged(first: &Answer<Vec<u64>>, second: &Answer<Vec<u64>>, e: u32) -> Answer<Vec<u8>> {
    refuse_if(!page_size_allowed(e), Refusal::PageSize)?;
    let first = first.as_ref().map_err(|&refusal| refusal)?;
    let second = second.as_ref().map_err(|&refusal| refusal)?;
    let sums = sums(first, second);
    refuse_if(
        sums.iter().any(|&count| count > COUNT_LIMIT),
        Refusal::Total,
    )?;
    image::image(&sums, e)
}

/// 'the hour-by-hour sums, the shorter log taken as zero beyond its end'
pub fn sums(first: &[u64], second: &[u64]) -> Vec<u64> {
    let hours = first.len().max(second.len());
    let count = |list: &[u64], hour: usize| list.get(hour).copied().unwrap_or(0);
    (0..hours)
        .map(|hour| count(first, hour) + count(second, hour))
        .collect()
}

pub fn self_test() {
    assert_eq!(sums(&[1, 0, 2], &[3, 4]), [4, 4, 2]);
    assert_eq!(sums(&[], &[7, 0]), [7, 0], "an hour of 0 is an hour");
    let of = |first: &[u64], second: &[u64], e| merged(&Ok(first.into()), &Ok(second.into()), e);
    let full = vec![COUNT_LIMIT; 256];
    assert_eq!(
        of(&[1, 0, 2, 0, 5], &[], 2),
        Ok(image_of(&[1, 0, 2, 0, 5], 2))
    );
    assert_eq!(of(&[COUNT_LIMIT], &[1], 2), Err(Refusal::Total), "a count");
    assert_eq!(
        of(&full, &[vec![0; 256], vec![256]].concat(), 2),
        Err(Refusal::Total)
    );
    let most = of(&full, &[vec![0; 256], vec![255]].concat(), 2).expect("the greatest total");
    assert_eq!(
        image::check(&image::list(&most)),
        Ok(MOST_COINS + (257 << 40))
    );
    let (good, header, body) = (Ok(vec![1]), Err(Refusal::Header), Err(Refusal::Body));
    assert_eq!(
        merged(&header, &good, 9),
        Err(Refusal::PageSize),
        "1 before 5"
    );
    assert_eq!(
        merged(&body, &header, 2),
        Err(Refusal::Body),
        "the first's 6"
    );
    assert_eq!(merged(&good, &header, 2), Err(Refusal::Header));
    held_readings();
}

/// 'The reading at every hour is the sum of the two readings, each held at its
/// own total beyond its end'.
fn held_readings() {
    let mut random = Random::new(9);
    for _ in 0..300 {
        let [first, second] = [Size::Few, Size::Many].map(|size| {
            let length = random.below(40) as usize;
            counts(&mut random, length, size)
        });
        let held = |list: &[u64], hour: usize| readings(list)[hour.min(list.len())];
        for (hour, reading) in readings(&sums(&first, &second)).into_iter().enumerate() {
            assert_eq!(reading, held(&first, hour) + held(&second, hour));
        }
    }
}
