//! Images that are damaged: verdict and every query must agree.

use crate::bits::{number, push_number, turn};
use crate::image::image_of;
use crate::image_calls::{compare_looking, Questions};
use crate::random::{counts, Random, Size};
use crate::run::{Outcome, Run};
use crate::suites::tickets::drawn;

const FIRST_SEED: u64 = 4_000_000;
const EACH_BIT: u64 = 60;
const RANDOM: u64 = 4_000;
const GARBAGE: u64 = 4_000;
const LONGER: u64 = 60;

pub fn play(run: &mut Run) -> Outcome {
    run.each_seed(FIRST_SEED, EACH_BIT, |run, seed| {
        each_bit_and_length(run, seed, small_image)
    })?;
    run.each_seed(FIRST_SEED + 100_000, RANDOM, |run, seed| {
        random_damage(run, seed, small_image)
    })?;
    run.each_seed(FIRST_SEED + 200_000, GARBAGE, |run, seed| {
        garbage_body(run, seed, false)
    })?;
    run.each_seed(FIRST_SEED + 300_000, LONGER, longer_image)?;
    run.each_seed(FIRST_SEED + 400_000, EACH_BIT, |run, seed| {
        each_bit_and_length(run, seed, small_wide_image)
    })?;
    run.each_seed(FIRST_SEED + 500_000, RANDOM, |run, seed| {
        random_damage(run, seed, small_wide_image)
    })?;
    run.each_seed(FIRST_SEED + 600_000, GARBAGE, |run, seed| {
        garbage_body(run, seed, true)
    })?;
    for e in run.page_sizes() {
        let result = last_page_of_the_longest(run, e);
        run.note(format!("the longest image, damaged, e = {e}"), result)?;
    }
    Ok(())
}

/// An image of a few dozen hours, so that several pages and all parts of a
/// page come under few bits.
fn small_image(random: &mut Random) -> Vec<u8> {
    let e = random.pick(&[2, 2, 3, 3, 4, 6, 8]);
    let length = random.between(0, 30) as usize;
    let size = random.pick(&Size::ALL);
    image_of(&counts(random, length, size), e)
}

/// The same, of a total around or above the least of edition 2.
fn small_wide_image(random: &mut Random) -> Vec<u8> {
    let e = random.pick(&[2, 2, 3, 3, 4, 6]);
    image_of(&drawn(random, 20), e)
}

fn look(run: &mut Run, bytes: &[u8], random: &mut Random) -> Result<(), String> {
    let questions = Questions::of(bytes, random, 40);
    compare_looking(&mut run.library, bytes, &questions)
}

/// The image as it is, with each bit turned, at each shorter length and at
/// some longer ones.
fn each_bit_and_length(
    run: &mut Run,
    seed: u64,
    image: fn(&mut Random) -> Vec<u8>,
) -> Result<(), String> {
    let mut random = Random::new(seed);
    let image = image(&mut random);
    look(run, &image, &mut random)?;
    for bit in 0..8 * image.len() {
        let mut damaged = image.clone();
        turn(&mut damaged, bit);
        look(run, &damaged, &mut random).map_err(|text| format!("bit {bit}: {text}"))?;
    }
    for length in (0..image.len()).chain(image.len() + 1..image.len() + 10) {
        let mut cut = image.clone();
        cut.resize(length, 0);
        look(run, &cut, &mut random).map_err(|text| format!("length {length}: {text}"))?;
    }
    Ok(())
}

/// An image of many pages with single bits turned here and there.
fn longer_image(run: &mut Run, seed: u64) -> Result<(), String> {
    let mut random = Random::new(seed);
    let e = random.between(2, 8) as u32;
    let length = random.between(100, 3_000) as usize;
    let size = random.pick(&Size::ALL);
    let image = image_of(&counts(&mut random, length, size), e);
    for _ in 0..8 {
        let mut damaged = image.clone();
        let bit = random.below(8 * image.len() as u64) as usize;
        turn(&mut damaged, bit);
        let questions = Questions::of(&damaged, &mut random, 300);
        compare_looking(&mut run.library, &damaged, &questions)
            .map_err(|text| format!("bit {bit}: {text}"))?;
    }
    Ok(())
}

/// The longest image with one bit turned that belongs to its last page: of its
/// start, its root and its tree, the last of the code and the last of all.
fn last_page_of_the_longest(run: &mut Run, e: u32) -> Result<(), String> {
    let image = image_of(&counts(&mut Random::new(e.into()), 65_536, Size::Few), e);
    let code = 16 + 4 * (65_536 >> e);
    let start = number(&image[code - 4..code]) as usize;
    let code_bits = number(&image[12..16]) as usize;
    let questions = Questions {
        hours: vec![0, 65_535, 65_536],
        figures: vec![0, 1],
        stretches: vec![1],
        bags: vec![1],
    };
    for bit in [
        8 * (code - 4) + 7,
        8 * code + start,
        8 * code + start + (code_bits - start) / 2,
        8 * code + code_bits - 1,
        8 * image.len() - 1,
    ] {
        let mut damaged = image.clone();
        turn(&mut damaged, bit);
        compare_looking(&mut run.library, &damaged, &questions)
            .map_err(|text| format!("bit {bit}: {text}"))?;
    }
    Ok(())
}

/// Several changes at once, of kinds that single bits do not give.
fn random_damage(
    run: &mut Run,
    seed: u64,
    image: fn(&mut Random) -> Vec<u8>,
) -> Result<(), String> {
    let mut random = Random::new(seed);
    let mut image = image(&mut random);
    for _ in 0..random.between(1, 3) {
        damage(&mut image, &mut random);
    }
    look(run, &image, &mut random)
}

fn damage(image: &mut [u8], random: &mut Random) {
    let any = random.below(image.len() as u64) as usize;
    let header = if image[0] == 2 { 24 } else { 16 };
    let body = image.len().saturating_sub(header) as u64;
    match random.below(5) {
        0 => image[any] = random.next() as u8,
        1 => image[any] = random.pick(&[0, 1, 127, 128, 255]),
        2 if body > 0 => image[header + random.below(body) as usize] = random.next() as u8,
        3 => nudge(
            image,
            4 + 4 * random.below(header as u64 / 4 - 1) as usize,
            random,
        ),
        _ => nudge(image, header, random),
    }
}

/// Moves a number of four bytes a little up or down: N, S, L or a start; of
/// edition 2 also the high half of S, or its zero bytes.
fn nudge(image: &mut [u8], at: usize, random: &mut Random) {
    let Some(four) = image.get(at..at + 4) else {
        return;
    };
    let value = u32::from_le_bytes(four.try_into().expect("four bytes"));
    let moved = value.wrapping_add(random.below(17) as u32).wrapping_sub(8);
    image[at..at + 4].copy_from_slice(&moved.to_le_bytes());
}

/// A good header, of edition 2 if wide, over a body of random bytes, starts
/// within or near L: the queries get past their first tests and meet every
/// later one.
fn garbage_body(run: &mut Run, seed: u64, wide: bool) -> Result<(), String> {
    let mut random = Random::new(seed);
    let e = random.pick(&[2, 3, 4, 5, 6, 8]) as u32;
    let hours = random.between(0, 3 << e) as u32;
    let code_bits = random.between(0, 700) as u32;
    let drawn = random.next();
    let mut image = vec![1, e as u8, 0, 0];
    push_number(&mut image, 4, hours.into());
    if wide {
        image[0] = 2;
        let digits = random.between(33, 40);
        push_number(&mut image, 8, 1 << (digits - 1) | drawn >> (64 - digits));
        push_number(&mut image, 4, code_bits.into());
        push_number(&mut image, 4, 0);
    } else {
        let total = drawn as u32 >> random.below(32);
        push_number(&mut image, 4, total.into());
        push_number(&mut image, 4, code_bits.into());
    }
    for _ in 0..hours.div_ceil(1 << e) {
        let start = random.below(u64::from(code_bits) + 3);
        push_number(&mut image, 4, start);
    }
    let thin = random.one_in(2);
    for byte in random.bytes(code_bits.div_ceil(8) as usize) {
        image.push(if thin {
            byte & random.next() as u8
        } else {
            byte
        });
    }
    look(run, &image, &mut random)
}
