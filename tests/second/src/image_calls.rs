//! Comparison of the image calls.

use crate::bits::number;
use crate::book_calls::compare_to_book;
use crate::ffi::Library;
use crate::image::{self, Reached, MOST_COINS};
use crate::random::Random;
use crate::refusal::{word, Answer};
use crate::run_calls::{compare_busiest, compare_match};
use crate::store_calls::{same_bytes, same_word, SECOND};
use std::fmt;

/// Length and write of a list: into a buffer of the image's length, a longer
/// one, one that is a byte short and none. Gives the image, if there is one.
pub fn compare_writing(
    library: &mut Library,
    counts: &[u64],
    e: u32,
) -> Result<Option<Vec<u8>>, String> {
    let mut lent: Vec<u32> = counts.iter().map(|&count| count as u32).collect();
    let before = lent.clone();
    let image = image::image(counts, e);
    let length = image.as_ref().map(|image| image.len() as u64);
    let answer = library.image_length(&mut lent, e);
    same_word(answer, word(length.map_err(|&refusal| refusal)), SECOND)?;
    for room in rooms(&image) {
        compare_output(&image, room, "image", |out| {
            library.image_write(&mut lent, e, out)
        })?;
        if lent != before {
            return Err("the lent counts were changed".into());
        }
    }
    Ok(image.ok())
}

/// Rooms for what a call is to write: more than it takes, a byte less, none,
/// and just enough.
pub fn rooms(made: &Answer<Vec<u8>>) -> [usize; 4] {
    let exact = made.as_ref().map_or(40, Vec::len);
    [exact + 13, exact.saturating_sub(1), 0, exact]
}

/// A call that writes into a buffer: its word, what it wrote, and the bytes
/// beyond.
pub fn compare_output(
    made: &Answer<Vec<u8>>,
    room: usize,
    name: &str,
    call: impl FnOnce(&mut [u8]) -> i64,
) -> Result<(), String> {
    let mut out = vec![0x5A; room];
    let mut second_out = out.clone();
    let expected = match made {
        Ok(made) => image::place(made, &mut second_out),
        Err(refusal) => Err(*refusal),
    };
    let answer = call(&mut out);
    same_word(answer, word(expected), SECOND)?;
    same_bytes(&out, &second_out, name)
}

/// What an image is asked.
pub struct Questions {
    pub hours: Vec<u32>,
    pub figures: Vec<u64>,
    /// Numbers of hours whose busiest run is asked for.
    pub stretches: Vec<u32>,
    /// Sums of which a run is asked for.
    pub bags: Vec<u64>,
}

/// Hours and figures whose low bits alone would be good ones, and the ends of
/// their types.
const WILD_HOURS: [u32; 4] = [65_536, 65_537, 1 << 31, u32::MAX];
const WILD_FIGURES: [u64; 5] = [1 << 32, (1 << 32) + 1, 1 << 40, 1 << 63, u64::MAX];

/// How many runs of hours are asked for: each question has the full check.
const RUNS: u64 = 6;

impl Questions {
    /// Every hour and figure of a small image, some of a large one; the
    /// header's N and S count as they stand, damaged or not, but for an S so
    /// large that no edition has it.
    pub fn of(bytes: &[u8], random: &mut Random, most: u64) -> Questions {
        let at = |from: usize, width: usize| bytes.get(from..from + width).map_or(0, number);
        let hours = at(4, 4);
        let total = match bytes.first() {
            Some(2) => at(8, 8).min(2 * MOST_COINS),
            _ => at(8, 4),
        };
        let mut questions = Questions {
            hours: some_to(hours + 1, most, random)
                .map(|hour| hour as u32)
                .collect(),
            figures: some_to(total + 1, most, random).collect(),
            stretches: some_to(hours + 1, RUNS, random)
                .map(|hours| hours as u32)
                .collect(),
            bags: some_to(total + 1, RUNS, random).collect(),
        };
        questions.hours.extend(WILD_HOURS);
        questions.stretches.extend(WILD_HOURS);
        questions.figures.extend(WILD_FIGURES);
        questions.bags.extend(WILD_FIGURES);
        questions
    }

    /// Adds the readings of a list and their neighbours, at which reach turns.
    pub fn add_readings(&mut self, counts: &[u64], every: usize) {
        let mut reading = 0;
        for (k, count) in counts.iter().enumerate() {
            reading += count;
            if k % every == 0 {
                self.figures
                    .extend([reading.saturating_sub(1), reading, reading + 1]);
            }
        }
    }
}

/// All numbers from 0 to `last`, or about `most` of them with both ends.
fn some_to(last: u64, most: u64, random: &mut Random) -> impl Iterator<Item = u64> {
    let numbers: Vec<u64> = if last <= most {
        (0..=last).collect()
    } else {
        let drawn = (0..most).map(|_| random.between(0, last));
        drawn.chain([0, 1, last - 2, last - 1, last]).collect()
    };
    numbers.into_iter()
}

/// Check and all queries on any bytes; no call may change one of them.
pub fn compare_looking(
    library: &mut Library,
    bytes: &[u8],
    questions: &Questions,
) -> Result<(), String> {
    let mut lent = bytes.to_vec();
    let list = image::list(bytes);
    let answer = library.image_check(&mut lent);
    let expected = Reached::Exactly(image::check(&list));
    agree(format_args!("check"), answer, &expected, &lent, bytes)?;
    let (hours, figures) = (&questions.hours, &questions.figures);
    ask_each("count", bytes, hours, |lent, hour| {
        let expected = Reached::Exactly(image::count(bytes, hour.into()));
        (library.image_count(lent, hour), expected)
    })?;
    ask_each("reading", bytes, hours, |lent, hour| {
        let expected = Reached::Exactly(image::reading(bytes, hour.into()));
        (library.image_reading(lent, hour), expected)
    })?;
    ask_each("reach", bytes, figures, |lent, figure| {
        let expected = image::reach(bytes, &list, figure);
        (library.image_reach(lent, figure), expected)
    })?;
    compare_busiest(library, bytes, &list, &questions.stretches)?;
    compare_match(library, bytes, &list, &questions.bags)?;
    compare_to_book(library, bytes, &list)
}

/// Asks one call every question; gives the library's word and what it may be.
pub fn ask_each<Q: Copy + fmt::Display>(
    name: &str,
    bytes: &[u8],
    questions: &[Q],
    mut ask: impl FnMut(&mut [u8], Q) -> (i64, Reached),
) -> Result<(), String> {
    let mut lent = bytes.to_vec();
    for &question in questions {
        let (answer, expected) = ask(&mut lent, question);
        let call = format_args!("{name} {question}");
        agree(call, answer, &expected, &lent, bytes)?;
    }
    Ok(())
}

/// Whether a call gave a word that it may give, and left all bytes alone.
fn agree(
    call: fmt::Arguments,
    answer: i64,
    expected: &Reached,
    lent: &[u8],
    bytes: &[u8],
) -> Result<(), String> {
    if !allowed(expected, answer) {
        return Err(format!(
            "{call}: the library gives {answer}, {SECOND} {expected:?}"
        ));
    }
    same_bytes(lent, bytes, "image").map_err(|difference| format!("{call}: {difference}"))
}

/// Whether reach may give this word: exactly one, but for the latitude that
/// document 01 leaves on an image that is not accepted.
pub fn allowed(expected: &Reached, answer: i64) -> bool {
    match *expected {
        Reached::Exactly(exact) => answer == word(exact),
        Reached::BodyOrIndexTo(hours) => answer == -6 || (0..=hours as i64).contains(&answer),
    }
}
