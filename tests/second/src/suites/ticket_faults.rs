//! The faults that an image of edition 2 can have (document 02, note 8), by
//! name and with the document's words; every byte of its header with every
//! value; and counts that no list has.

use crate::image::{image_of, COUNT_LIMIT, MOST_COINS};
use crate::image_calls::{compare_looking, Questions};
use crate::random::Random;
use crate::run::{Outcome, Run};
use crate::suites::image_faults::Ask::{Check, Count, Reach, Reading};
use crate::suites::image_faults::{compare_faults, five, Ask, Fault};

/// Two pages of four hours, the second with one; 4,294,967,310 coins.
const COUNTS: [u64; 5] = [3, COUNT_LIMIT, 0, 7, 5];
const E: u32 = 2;
const SUM: u64 = (1 << 32) + 14;
const HEADER: usize = 24;

pub fn play(run: &mut Run) -> Outcome {
    compare_faults(run, header_faults().into_iter().chain(total_faults()))?;
    compare_faults(run, no_hours().into_iter().chain(still_accepted()))?;
    for at in 0..HEADER {
        let result = each_value(run, at);
        run.note(format!("edition 2, byte {at}"), result)?;
    }
    for e in run.page_sizes() {
        compare_faults(run, counts_above(e).into_iter())?;
    }
    Ok(())
}

/// The sample with something done to it.
fn fault(name: &'static str, make: impl Fn(&mut Vec<u8>), words: Vec<(Ask, i64)>) -> Fault {
    let mut image = image_of(&COUNTS, E);
    make(&mut image);
    Fault { name, image, words }
}

fn put_total(image: &mut [u8], total: u64) {
    image[8..16].copy_from_slice(&total.to_le_bytes());
}

fn header_faults() -> Vec<Fault> {
    let other = |counts: &[u64], e| image_of(counts, e);
    vec![
        fault("edition 1 over it", |b| b[0] = 1, five()),
        fault("edition 3", |b| b[0] = 3, five()),
        fault("e = 1", |b| *b = other(&COUNTS, 1), five()),
        fault("e = 9", |b| *b = other(&COUNTS, 9), five()),
        fault("byte 2 set", |b| b[2] = 1, five()),
        fault("byte 3 set", |b| b[3] = 128, five()),
        fault("N = 65,537", |b| *b = other(&[65_536; 65_537], 8), five()),
        fault("N in one page less", |b| b[4] = 4, five()),
        fault("byte 20 set", |b| b[20] = 1, five()),
        fault("byte 21 set", |b| b[21] = 1, five()),
        fault("byte 22 set", |b| b[22] = 1, five()),
        fault("byte 23 set", |b| b[23] = 128, five()),
        fault("L in one byte less", |b| b[16] -= 8, five()),
        fault("L in one byte more", |b| b[16] += 8, five()),
        fault("a byte more", |b| b.push(0), five()),
        fault("a byte less", |b| b.truncate(b.len() - 1), five()),
        fault("23 bytes", |b| b.truncate(23), five()),
        fault("16 bytes", |b| b.truncate(16), five()),
        fault("one byte", |b| b.truncate(1), five()),
    ]
}

/// 'S not from 2^32 to 2^40 - 1' is 5; another S within that is 6 for check.
fn total_faults() -> Vec<Fault> {
    vec![
        fault("S without its high bytes", |b| b[12] = 0, five()),
        fault("S = 2^32 - 1", |b| put_total(b, COUNT_LIMIT), five()),
        fault("S = 2^40", |b| put_total(b, MOST_COINS + 1), five()),
        fault("S = 2^40 and the sum", |b| b[13] = 1, five()),
        fault("S with its highest bit", |b| b[15] = 128, five()),
        fault("S = 2^64 - 1", |b| put_total(b, u64::MAX), five()),
        Fault {
            name: "edition 2 with a total of edition 1, all else right",
            image: of_edition_2(&image_of(&[1, 0, 2, 0, 5], 2)),
            words: five(),
        },
        fault(
            "S one more",
            |b| put_total(b, SUM + 1),
            vec![
                (Check, -6),
                (Count(1), COUNT_LIMIT as i64),
                (Reading(5), SUM as i64),
                (Reach(SUM + 2), -8),
            ],
        ),
        fault(
            "S one less",
            |b| put_total(b, SUM - 1),
            vec![(Check, -6), (Count(4), -6), (Count(3), 7), (Reach(SUM), -8)],
        ),
        fault(
            "S = 2^40 - 1",
            |b| put_total(b, MOST_COINS),
            vec![(Check, -6), (Reading(0), 0), (Reach(1 << 40), -8)],
        ),
    ]
}

/// An image of edition 1 with the header of edition 2 in place of its own.
fn of_edition_2(image: &[u8]) -> Vec<u8> {
    let mut other = image[..12].to_vec();
    other[0] = 2;
    other.extend([0; 4]);
    other.extend(&image[12..16]);
    other.extend([0; 4]);
    other.extend(&image[16..]);
    other
}

/// A header alone: 5 below 24 bytes; with all of them no hour is there, and
/// no list has such a total.
fn no_hours() -> Vec<Fault> {
    let mut header = of_edition_2(&image_of(&[], 2));
    put_total(&mut header, 1 << 32);
    let cut = |length: usize| Fault {
        name: "edition 2 below 24 bytes",
        image: header[..length].to_vec(),
        words: five(),
    };
    let mut faults: Vec<Fault> = (0..HEADER).map(cut).collect();
    faults.push(Fault {
        name: "edition 2 without an hour",
        image: header.clone(),
        words: vec![
            (Check, -6),
            (Count(0), -7),
            (Reading(0), 0),
            (Reading(1), -7),
            (Reach((1 << 32) + 1), -8),
        ],
    });
    faults
}

fn still_accepted() -> Vec<Fault> {
    let checked = |hours: i64| (Check, SUM as i64 + (hours << 40));
    vec![
        fault("nothing", |_| (), vec![checked(5), (Reach(SUM), 5)]),
        fault("an hour more, of zero", |b| b[4] = 6, vec![checked(6)]),
    ]
}

/// A byte of the header with each value that it can have.
fn each_value(run: &mut Run, at: usize) -> Result<(), String> {
    let mut image = image_of(&COUNTS, E);
    for value in 0..=255 {
        image[at] = value;
        let questions = Questions::of(&image, &mut Random::new(0), 10);
        compare_looking(&mut run.library, &image, &questions)
            .map_err(|text| format!("value {value}: {text}"))?;
    }
    Ok(())
}

/// A tree that ends, in one hour of two pages, at a count that no list has: its
/// count and the reading behind it are 6, every other hour is answered.
fn counts_above(e: u32) -> Vec<Fault> {
    let mut faults = Vec::new();
    let page = 1 << e;
    for hour in [0, 1, page / 2, page - 1, page, 2 * page - 2, 2 * page - 1] {
        for count in [
            COUNT_LIMIT + 1,
            COUNT_LIMIT + 2,
            MOST_COINS - 6 * page as u64,
        ] {
            let mut list = vec![3; 2 * page];
            list[hour] = count;
            let mut words = vec![(Check, -6)];
            let mut reading = 0;
            for (k, &count) in (0..).zip(&list) {
                reading += count as i64;
                let walked = |answer| if k == hour as u32 { -6 } else { answer };
                words.push((Count(k), walked(count as i64)));
                words.push((Reading(k + 1), walked(reading)));
            }
            faults.push(Fault {
                name: "a count above 4,294,967,295",
                image: image_of(&list, e),
                words,
            });
        }
    }
    faults
}
