//! The faults that an image can have, one by one and by name, with the words
//! that document 01 gives for them. The second implementation's word is not
//! enough here. (Those of edition 2 alone are in `ticket_faults`.)

use crate::ffi::Library;
use crate::image::image_of;
use crate::image_calls::{compare_looking, Questions};
use crate::random::Random;
use crate::run::{Outcome, Run};
use crate::store_calls::{same_bytes, same_word};

/// Three pages of four hours, the last one short of an hour. The code's bits:
///
/// | page | root  | tree                            |
/// |------|-------|---------------------------------|
/// | 0    | 0-3   | 4-8, sum 3                      |
/// | 1    | 9-12  | 13-20, sum 6: 13-15 left sum 5, |
/// |      |       | 16-18 its own left sum, 20 over |
/// | 2    | 21-24 | 25-29, sum 3                    |
const COUNTS: [u64; 11] = [1, 0, 2, 0, 5, 0, 0, 1, 2, 0, 1];
const E: u32 = 2;
const CODE: usize = 16 + 3 * 4;
const SUM: i64 = 12;

pub enum Ask {
    Check,
    Count(u32),
    Reading(u32),
    Reach(u64),
}
use Ask::{Check, Count, Reach, Reading};

pub struct Fault {
    pub name: &'static str,
    pub image: Vec<u8>,
    pub words: Vec<(Ask, i64)>,
}

pub fn play(run: &mut Run) -> Outcome {
    let all = [
        header_faults(),
        length_faults(),
        figure_faults(),
        root_faults(),
        tree_faults(),
        spare_bit_faults(),
        empty_faults(),
        still_accepted(),
    ];
    let hours = run.page_sizes().flat_map(hours_from_n_on);
    compare_faults(run, all.into_iter().flatten().chain(hours))
}

pub fn compare_faults(run: &mut Run, faults: impl Iterator<Item = Fault>) -> Outcome {
    for fault in faults {
        let result = compare_fault(&mut run.library, &fault);
        run.note(fault.name, result)?;
    }
    Ok(())
}

fn compare_fault(library: &mut Library, fault: &Fault) -> Result<(), String> {
    let mut lent = fault.image.clone();
    for (ask, expected) in &fault.words {
        let answer = match *ask {
            Check => library.image_check(&mut lent),
            Count(hour) => library.image_count(&mut lent, hour),
            Reading(hour) => library.image_reading(&mut lent, hour),
            Reach(figure) => library.image_reach(&mut lent, figure),
        };
        same_word(answer, *expected, "the document")?;
    }
    same_bytes(&lent, &fault.image, "image")?;
    let questions = Questions::of(&fault.image, &mut Random::new(0), 40);
    compare_looking(library, &fault.image, &questions)
}

/// The sample with something done to it.
fn fault(name: &'static str, make: impl Fn(&mut Vec<u8>), words: Vec<(Ask, i64)>) -> Fault {
    let mut image = image_of(&COUNTS, E);
    make(&mut image);
    Fault { name, image, words }
}

/// Puts a number into bits of the code.
fn put_bits(image: &mut [u8], at: usize, width: usize, value: u64) {
    for k in 0..width {
        let (byte, mask) = (CODE + (at + k) / 8, 128 >> ((at + k) % 8));
        image[byte] &= !mask;
        if value >> (width - 1 - k) & 1 == 1 {
            image[byte] |= mask;
        }
    }
}

/// All calls refused 5, those with a wrong hour or figure too.
pub fn five() -> Vec<(Ask, i64)> {
    let mut words = vec![(Check, -5), (Count(0), -5), (Count(99), -5)];
    words.extend([(Reading(0), -5), (Reach(0), -5), (Reach(u64::MAX), -5)]);
    words
}

fn header_faults() -> Vec<Fault> {
    let other = |counts: &[u64], e| image_of(counts, e);
    vec![
        fault("edition 0", |b| b[0] = 0, five()),
        fault("edition 2 over edition 1's header", |b| b[0] = 2, five()),
        fault("edition 3", |b| b[0] = 3, five()),
        fault("byte 2 set", |b| b[2] = 1, five()),
        fault("byte 3 set", |b| b[3] = 128, five()),
        fault("e = 0", |b| *b = other(&COUNTS, 0), five()),
        fault("e = 1", |b| *b = other(&COUNTS, 1), five()),
        fault("e = 9", |b| *b = other(&COUNTS, 9), five()),
        fault("N = 65,537", |b| *b = other(&[0; 65_537], 2), five()),
        fault(
            "N = 65,540 with coins",
            |b| *b = other(&[1; 65_540], 8),
            five(),
        ),
        fault("N in one page less", |b| b[4] = 8, five()),
        fault("N in one page more", |b| b[4] = 13, five()),
        fault("a byte more", |b| b.push(0), five()),
        fault("a byte less", |b| b.truncate(b.len() - 1), five()),
        fault("15 bytes", |b| b.truncate(15), five()),
        fault("L in one byte less", |b| b[12] = 24, five()),
        fault("L in one byte more", |b| b[12] = 33, five()),
        fault("L with its high bit set", |b| b[15] = 128, five()),
        fault("no bytes", Vec::clear, five()),
    ]
}

/// An L that leaves the byte length alone: refusal 5 does not see it.
fn length_faults() -> Vec<Fault> {
    vec![
        fault(
            "L one less in the same byte",
            |b| b[12] -= 1,
            vec![
                (Check, -6),
                (Count(7), 1),
                (Count(8), -6),
                (Count(11), -7),
                (Reading(0), 0),
                (Reading(8), 9),
                (Reading(11), -6),
                (Reading(12), -7),
            ],
        ),
        fault(
            "L one more in the same byte",
            |b| b[12] += 1,
            vec![(Check, -6), (Count(8), 2), (Reading(11), SUM)],
        ),
    ]
}

/// S and N as refusal 5 does not look at them.
fn figure_faults() -> Vec<Fault> {
    vec![
        fault(
            "S one more",
            |b| b[8] += 1,
            vec![(Check, -6), (Reading(11), SUM), (Reach(14), -8)],
        ),
        fault(
            "S one less",
            |b| b[8] -= 1,
            vec![
                (Check, -6),
                (Count(8), -6),
                (Reading(8), 9),
                (Reach(12), -8),
            ],
        ),
        fault(
            "S of another width",
            |b| b[9] = 1,
            vec![(Check, -6), (Reading(0), 0), (Reach(1 << 32), -8)],
        ),
        fault(
            "N below an hour with coins",
            |b| b[4] = 10,
            vec![
                (Check, -6),
                (Count(9), 0),
                (Count(10), -7),
                (Reading(10), 11),
            ],
        ),
    ]
}

/// Roots that are damaged: every query sees it whose page it is, or the page
/// before it.
fn root_faults() -> Vec<Fault> {
    vec![
        fault(
            "a root above S",
            |b| put_bits(b, 0, 4, 14),
            vec![(Check, -6), (Count(0), -6), (Count(4), -6), (Count(8), 2)],
        ),
        fault(
            "a root below the one before",
            |b| put_bits(b, 9, 4, 2),
            vec![(Check, -6), (Count(0), 1), (Count(4), -6), (Reading(4), 3)],
        ),
        fault(
            "a root that passes L",
            |b| b[16 + 4] = 28,
            vec![(Check, -6), (Count(3), 0), (Count(4), -6), (Count(8), -6)],
        ),
        fault(
            "a start far above L",
            |b| b[16 + 7] = 255,
            vec![(Check, -6), (Count(3), 0), (Count(4), -6), (Count(8), -6)],
        ),
    ]
}

/// Trees that are damaged, seen exactly by the queries whose path it lies on.
fn tree_faults() -> Vec<Fault> {
    vec![
        fault(
            "a tree that passes L, the root before being too small",
            |b| put_bits(b, 9, 4, 5),
            vec![
                (Check, -6),
                (Reading(4), 3),
                (Count(8), -6),
                (Reading(9), -6),
            ],
        ),
        fault(
            "the left sum at a page's root above its node",
            |b| put_bits(b, 13, 3, 7),
            vec![
                (Check, -6),
                (Count(4), -6),
                (Count(7), -6),
                (Reading(8), -6),
            ],
        ),
        fault(
            "a left sum above its node beside the path",
            |b| put_bits(b, 16, 3, 6),
            vec![
                (Check, -6),
                (Count(4), -6),
                (Count(5), -6),
                (Count(6), 0),
                (Count(7), 1),
                (Reading(5), -6),
                (Reading(8), 9),
            ],
        ),
    ]
}

/// Bits that no count needs: check alone looks at them.
fn spare_bit_faults() -> Vec<Fault> {
    vec![
        fault(
            "the last byte's filling is set",
            |b| *b.last_mut().expect("it has bytes") |= 1,
            vec![(Check, -6), (Count(10), 1), (Reading(11), SUM)],
        ),
        fault(
            "a bit left over is set",
            |b| put_bits(b, 20, 1, 1),
            vec![(Check, -6), (Count(4), 5), (Count(7), 1), (Reading(8), 9)],
        ),
    ]
}

/// Images without an hour or without a coin.
fn empty_faults() -> Vec<Fault> {
    vec![
        fault(
            "a total without an hour",
            |b| {
                *b = image_of(&[], 2);
                b[8] = 1;
            },
            vec![(Check, -6), (Count(0), -7), (Reading(0), 0), (Reach(2), -8)],
        ),
        fault(
            "code without an hour",
            |b| {
                *b = image_of(&[], 2);
                b[12] = 8;
                b.push(0);
            },
            vec![(Check, -6), (Count(0), -7), (Reading(0), 0), (Reach(1), -8)],
        ),
        Fault {
            name: "a start above L in an image without coins",
            image: [image_of(&[0; 5], 2)[..20].to_vec(), vec![1, 0, 0, 0]].concat(),
            words: vec![
                (Check, -6),
                (Count(0), 0),
                (Count(4), -6),
                (Reading(0), 0),
                (Reading(4), 0),
                (Reading(5), -6),
                (Reach(1), -8),
            ],
        },
    ]
}

/// Changes that give another list's image.
fn still_accepted() -> Vec<Fault> {
    let checked = |hours: i64| (Check, SUM + (hours << 40));
    vec![
        fault("nothing", |_| (), vec![checked(11), (Reach(12), 11)]),
        fault("an hour more, of zero", |b| b[4] = 12, vec![checked(12)]),
        Fault {
            name: "no hours",
            image: image_of(&[], 8),
            words: vec![
                (Check, 0),
                (Count(0), -7),
                (Reading(0), 0),
                (Reading(1), -7),
                (Reach(0), 0),
                (Reach(1), -8),
            ],
        },
    ]
}

/// Coins in one hour of the last page alone: accepted exactly if that hour is
/// below N, and refused 5 if N no longer reaches into the page.
fn hours_from_n_on(e: u32) -> Vec<Fault> {
    let mut faults = Vec::new();
    let page = 1 << e;
    for hour in page..2 * page {
        let mut list = vec![0; hour + 1];
        list[hour] = 3;
        let mut image = image_of(&list, e);
        faults.push(Fault {
            name: "N just above an hour with coins",
            image: image.clone(),
            words: vec![(Check, 3 + ((hour as i64 + 1) << 40))],
        });
        image[4..8].copy_from_slice(&(hour as u32).to_le_bytes());
        faults.push(Fault {
            name: "N at an hour with coins",
            image,
            words: vec![(Check, if hour == page { -5 } else { -6 })],
        });
    }
    faults
}
