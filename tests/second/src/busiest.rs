//! The busiest stretch (document 02, note 1): the run of exactly k successive
//! hours with the largest sum, the earliest one on a tie.

use crate::plain::readings;
use crate::random::{counts, Random, Size};
use crate::refusal::{refuse_if, word, Answer, Packed, Refusal};

#[derive(Clone, Copy, Debug, PartialEq, Eq)]
pub struct Stretch {
    pub first: u64,
    pub sum: u64,
}

impl Packed for Stretch {
    fn packed(self) -> u64 {
        self.sum + (self.first << 40)
    }
}

/// The answer for an image of which the full check says this.
pub fn busiest(list: &Answer<Vec<u64>>, hours: u64) -> Answer<Stretch> {
    let counts = list.as_ref().map_err(|&refusal| refusal)?;
    let possible = (1..=counts.len() as u64).contains(&hours);
    refuse_if(!possible, Refusal::Stretch)?;
    Ok(by_readings(counts, hours as usize))
}

/// A run's sum is the difference of two readings.
fn by_readings(counts: &[u64], hours: usize) -> Stretch {
    let readings = readings(counts);
    earliest_largest((0..=counts.len() - hours).map(|k| readings[k + hours] - readings[k]))
}

/// Each run added up by itself.
fn by_all_runs(counts: &[u64], hours: usize) -> Stretch {
    earliest_largest(counts.windows(hours).map(|run| run.iter().sum()))
}

fn earliest_largest(sums: impl Iterator<Item = u64>) -> Stretch {
    let mut best = None;
    for (first, sum) in (0..).zip(sums) {
        if best.is_none_or(|best: Stretch| sum > best.sum) {
            best = Some(Stretch { first, sum });
        }
    }
    best.expect("one run at least")
}

pub fn self_test() {
    let answers = |list: &[u64], hours| busiest(&Ok(list.to_vec()), hours);
    let stretch = |first, sum| Ok(Stretch { first, sum });
    assert_eq!(answers(&[1, 0, 2, 0, 5], 1), stretch(4, 5));
    assert_eq!(answers(&[3, 1, 2, 0, 3], 2), stretch(0, 4));
    assert_eq!(answers(&[1, 3, 0, 3, 1], 2), stretch(0, 4), "the earliest");
    assert_eq!(answers(&[0, 0, 0], 2), stretch(0, 0));
    assert_eq!(answers(&[4, 5, 6], 3), stretch(0, 15), "k = N is one run");
    assert_eq!(word(answers(&[0, 7, 9], 2)), 16 + (1 << 40));
    for hours in [0, 4, u64::from(u32::MAX)] {
        assert_eq!(answers(&[1, 2, 3], hours), Err(Refusal::Stretch));
        assert_eq!(answers(&[], hours), Err(Refusal::Stretch));
        assert_eq!(busiest(&Err(Refusal::Body), hours), Err(Refusal::Body));
    }
    let mut random = Random::new(1);
    for _ in 0..300 {
        let length = random.between(1, 40) as usize;
        let size = random.pick(&Size::ALL);
        let list = counts(&mut random, length, size);
        for hours in 1..=length {
            assert_eq!(by_readings(&list, hours), by_all_runs(&list, hours));
        }
    }
}
