//! Match the bag (document 02, note 7): a run of successive hours, one at
//! least, with a sum of exactly q; the earliest first hour, then the fewest
//! hours; or none.

use crate::plain::readings;
use crate::random::{counts, Random, Size};
use crate::refusal::{refuse_if, word, Answer, Packed, Refusal};

#[derive(Clone, Copy, Debug, PartialEq, Eq)]
pub struct Found {
    pub first: u64,
    pub hours: u64,
}

impl Packed for Option<Found> {
    fn packed(self) -> u64 {
        self.map_or(0, |found| found.first + (found.hours << 32))
    }
}

/// The answer for an image of which the full check says this.
pub fn matched(list: &Answer<Vec<u64>>, figure: u64) -> Answer<Option<Found>> {
    let counts = list.as_ref().map_err(|&refusal| refusal)?;
    refuse_if(figure == 0, Refusal::EmptyBag)?;
    Ok(by_readings(counts, figure))
}

/// Readings do not fall: from each first hour on, the first reading that is
/// high enough either has the sum or no run from there has it.
fn by_readings(counts: &[u64], figure: u64) -> Option<Found> {
    let readings = readings(counts);
    for first in 0..counts.len() {
        let wanted = readings[first].checked_add(figure)?;
        let end = readings.partition_point(|&reading| reading < wanted);
        if readings.get(end) == Some(&wanted) {
            return Some(found(first, end - first));
        }
    }
    None
}

/// Every run, in the order of preference.
fn by_all_runs(counts: &[u64], figure: u64) -> Option<Found> {
    for first in 0..counts.len() {
        for hours in 1..=counts.len() - first {
            if counts[first..first + hours].iter().sum::<u64>() == figure {
                return Some(found(first, hours));
            }
        }
    }
    None
}

fn found(first: usize, hours: usize) -> Found {
    Found {
        first: first as u64,
        hours: hours as u64,
    }
}

pub fn self_test() {
    let answers = |list: &[u64], figure| matched(&Ok(list.to_vec()), figure);
    assert_eq!(answers(&[0, 0, 5], 5), Ok(Some(found(0, 3))));
    assert_eq!(answers(&[5, 0, 0], 5), Ok(Some(found(0, 1))));
    assert_eq!(answers(&[1, 0, 2, 0, 5], 7), Ok(Some(found(1, 4))));
    assert_eq!(answers(&[2, 3, 4, 1], 5), Ok(Some(found(0, 2))));
    assert_eq!(answers(&[3, 3], 4), Ok(None));
    assert_eq!(answers(&[3, 3], 7), Ok(None), "above the total");
    assert_eq!(answers(&[3, 3], u64::MAX), Ok(None));
    assert_eq!(answers(&[0, 0], 1), Ok(None));
    assert_eq!(answers(&[], 1), Ok(None));
    assert_eq!(answers(&[0, 0], 0), Err(Refusal::EmptyBag));
    assert_eq!(matched(&Err(Refusal::Header), 0), Err(Refusal::Header));
    assert_eq!(word(answers(&[3, 3], 4)), 0);
    assert_eq!(word(answers(&[9, 0, 5], 5)), 1 + (2 << 32));
    let mut random = Random::new(2);
    for _ in 0..300 {
        let length = random.below(30) as usize;
        let size = random.pick(&[Size::Zero, Size::Few, Size::Usual]);
        let list = counts(&mut random, length, size);
        for figure in 1..=list.iter().sum::<u64>() + 1 {
            assert_eq!(by_readings(&list, figure), by_all_runs(&list, figure));
        }
    }
}
