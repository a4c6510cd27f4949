//! Busiest stretches of images of every page size.

use crate::image::image_of;
use crate::random::{counts, Random, Size};
use crate::run::{Outcome, Run};
use crate::run_calls::compare_busiest;
use crate::store_calls::{same_bytes, same_word};

const FIRST_SEED: u64 = 8_000_000;
const LISTS: u64 = 300;

/// Numbers of hours that no image has, or only the largest.
const WILD: [u32; 5] = [0, 65_535, 65_536, 65_537, u32::MAX];

pub fn play(run: &mut Run) -> Outcome {
    let result = by_document_02(run);
    run.note("busiest by document 02", result)?;
    for e in run.page_sizes() {
        let result = ties_and_borders(run, e).and_then(|()| longest(run, e));
        run.note(format!("busiest, e = {e}"), result)?;
    }
    run.each_seed(FIRST_SEED, LISTS, random_list)
}

/// Counts, k and the word: the sum, and the first hour from 2^40 on.
const WORDS: [(&[u64], u32, i64); 10] = [
    (&[1, 0, 2, 0, 5], 1, 5 + (4 << 40)),
    (&[1, 0, 2, 0, 5], 5, 8),
    (&[1, 3, 0, 3, 1], 2, 4),
    (&[0, 0, 0, 3, 3, 0], 2, 6 + (3 << 40)),
    (&[0, 0, 0], 2, 0),
    (&[4_294_967_295], 1, 4_294_967_295),
    (&[1, 2, 3], 0, -13),
    (&[1, 2, 3], 4, -13),
    (&[], 1, -13),
    (&[], 0, -13),
];

fn by_document_02(run: &mut Run) -> Result<(), String> {
    for (list, hours, expected) in WORDS {
        gives(run, &image_of(list, 2), hours, expected)?;
    }
    // 6 before 13, and 5 before both.
    let mut damaged = image_of(WORDS[0].0, 2);
    damaged[8] ^= 1;
    gives(run, &damaged, 0, -6)?;
    damaged[0] = 9;
    gives(run, &damaged, 0, -5)
}

fn gives(run: &mut Run, image: &[u8], hours: u32, expected: i64) -> Result<(), String> {
    let mut lent = image.to_vec();
    let answer = run.library.image_busiest(&mut lent, hours);
    same_word(answer, expected, "document 02")?;
    same_bytes(&lent, image, "image")
}

fn compare(run: &mut Run, list: &[u64], e: u32, stretches: &[u32]) -> Result<(), String> {
    let image = image_of(list, e);
    let accepted = Ok(list.to_vec());
    compare_busiest(&mut run.library, &image, &accepted, stretches)
        .map_err(|difference| format!("e = {e}, N = {}: {difference}", list.len()))
}

/// Every k over two pages and an hour: zeros, ties everywhere, and coins on
/// both sides of the border.
fn ties_and_borders(run: &mut Run, e: u32) -> Result<(), String> {
    let page = 1usize << e;
    let every: Vec<u32> = (0..=2 * page as u32 + 2).chain(WILD).collect();
    let mut list = vec![0; 2 * page + 1];
    compare(run, &list, e, &every)?;
    (list[page - 1], list[page]) = (7, 8);
    compare(run, &list, e, &every)?;
    (list[0], list[2 * page]) = (15, 15);
    compare(run, &list, e, &every)?;
    compare(run, &vec![3; 2 * page + 1], e, &every)
}

/// The most hours, with the busiest run first, last and everywhere.
fn longest(run: &mut Run, e: u32) -> Result<(), String> {
    let mut list = vec![1; 65_536];
    let some: Vec<u32> = [1, 2, 63, 64, 257, 40_000]
        .into_iter()
        .chain(WILD)
        .collect();
    compare(run, &list, e, &some)?;
    list[65_535] = 2;
    compare(run, &list, e, &some)?;
    list[0] = 3;
    compare(run, &list, e, &some)?;
    compare(run, &vec![0; 65_536], e, &WILD)
}

fn random_list(run: &mut Run, seed: u64) -> Result<(), String> {
    let mut random = Random::new(seed);
    let (e, length) = (random.between(2, 8) as u32, random.below(300) as usize);
    let size = random.pick(&Size::ALL);
    let list = counts(&mut random, length, size);
    let stretches: Vec<u32> = (0..=length as u32 + 1).chain(WILD).collect();
    compare(run, &list, e, &stretches)
}
