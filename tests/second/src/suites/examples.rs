//! The examples that document 01 prints.

use crate::bits::{number, push_field};
use crate::days::Changes;
use crate::ffi::Library;
use crate::image_calls::{compare_looking, compare_writing, Questions};
use crate::random::Random;
use crate::reserve::reserve;
use crate::run::{Outcome, Run};
use crate::store_bytes;
use crate::store_calls::{compare, same_bytes, same_word, Call};
use crate::tree::encode;

type Example = (&'static str, fn(&mut Library) -> Result<(), String>);

pub fn play(run: &mut Run) -> Outcome {
    let examples: [Example; 6] = [
        ("reserves", reserves),
        ("cells of a page", cells_of_a_page),
        ("counts 1,0,2,0", small_tree),
        ("the printed image", printed_image),
        ("the printed session", printed_session),
        ("every call once", every_call),
    ];
    for (name, example) in examples {
        let result = example(&mut run.library);
        run.note(name, result)?;
    }
    Ok(())
}

/// h, s and R(2^h, s).
const RESERVES: [(u32, u64, usize); 11] = [
    (1, 1, 1),
    (1, 2, 2),
    (2, 3, 5),
    (2, 6, 8),
    (3, 5, 12),
    (6, 1, 6),
    (6, 31, 117),
    (6, 32, 120),
    (6, 122, 240),
    (6, 123, 241),
    (6, 4_294_967_295, 1820),
];

/// The library shows a reserve in an image of one page: L is the root's
/// digits and the reserve.
fn reserves(library: &mut Library) -> Result<(), String> {
    for (h, s, expected) in RESERVES {
        if reserve(h, s) != expected {
            return Err(format!("the second implementation's R(2^{h}, {s})"));
        }
        if h < 2 {
            continue;
        }
        let mut counts = vec![0; 1 << h];
        counts[0] = s;
        let image = compare_writing(library, &counts, h)?.ok_or("no image")?;
        let code_bits = number(&image[12..16]) as i64;
        let digits = i64::from(64 - s.leading_zeros());
        same_word(code_bits, digits + expected as i64, "document 01")?;
    }
    Ok(())
}

fn cells_of_a_page(library: &mut Library) -> Result<(), String> {
    for (count, cells) in [(0, 0), (122, 1), (123, 2), (4_294_967_295, 8)] {
        let mut bytes = vec![0; store_bytes::length(1, 8)];
        answers(library, &mut bytes, Call::Fresh(1, 8), 0)?;
        answers(library, &mut bytes, Call::Append(count), cells)?;
        answers(library, &mut bytes, Call::Free, 8 - cells)?;
        answers(library, &mut bytes, Call::Set(0, 0), cells * 65_536)?;
    }
    Ok(())
}

fn small_tree(library: &mut Library) -> Result<(), String> {
    let counts = [1, 0, 2, 0];
    let mut code = Vec::new();
    encode(&counts, &mut code);
    let mut printed = Vec::new();
    push_field(&mut printed, 5, 0b01110);
    if code != printed {
        return Err("the second implementation codes 1,0,2,0 in another way".into());
    }
    let image = compare_writing(library, &counts, 2)?.ok_or("no image")?;
    same_bytes(
        &image[20..],
        &[0b1101_1100],
        "code of 1,0,2,0 after its root",
    )
}

const PRINTED_IMAGE: [u8; 27] = [
    0x01, 0x02, 0x00, 0x00, 0x05, 0x00, 0x00, 0x00, 0x08, 0x00, 0x00, 0x00, 0x14, 0x00, 0x00, 0x00,
    0x00, 0x00, 0x00, 0x00, 0x09, 0x00, 0x00, 0x00, 0x37, 0x45, 0xA0,
];

fn printed_image(library: &mut Library) -> Result<(), String> {
    let mut lent = vec![1, 0, 2, 0, 5];
    let mut out = [0; 27];
    same_word(
        library.image_write(&mut lent, 2, &mut out),
        27,
        "document 01",
    )?;
    same_bytes(&out, &PRINTED_IMAGE, "printed image")?;
    for (figure, expected) in [(3, 3), (4, 5), (0, 0), (9, -8)] {
        let answer = library.image_reach(&mut out, figure);
        same_word(answer, expected, "document 01")?;
    }
    same_bytes(&out, &PRINTED_IMAGE, "printed image")?;
    let questions = Questions::of(&out, &mut Random::new(0), 100);
    compare_looking(library, &out, &questions)
}

fn printed_session(library: &mut Library) -> Result<(), String> {
    let mut bytes = vec![0xFF; store_bytes::length(1, 2)];
    let session = [
        (Call::Fresh(1, 2), 0),
        (Call::Append(122), 1),
        (Call::Free, 1),
        (Call::Set(0, 123), 1),
        (Call::Free, 0),
        (Call::Append(5), 0),
        (Call::Reading(2), 128),
        (Call::Reach(124), 2),
        (Call::Reach(129), -8),
        (Call::Set(1, 4_294_967_295), -3),
        (Call::Set(0, 100_000), -12),
    ];
    for (call, expected) in session {
        answers(library, &mut bytes, call, expected)?;
    }
    Ok(())
}

/// A short list in which each call of the interface answers something.
fn every_call(library: &mut Library) -> Result<(), String> {
    let mut bytes = vec![0x11; store_bytes::length(2, 9)];
    answers(library, &mut bytes, Call::Fresh(2, 9), 0)?;
    for hour in 0..48 {
        compare(library, &mut bytes, Call::Append(hour))?;
    }
    answers(library, &mut bytes, Call::Count(47), 47)?;
    answers(library, &mut bytes, Call::Day(0, Changes::NONE), 23 * 12)?;
    answers(
        library,
        &mut bytes,
        Call::Day(1, Changes::NONE),
        24 * 24 + 23 * 12,
    )?;
    answers(library, &mut bytes, Call::Day(2, Changes::NONE), -7)?;
    let frozen = compare(library, &mut bytes, Call::Freeze(5, 3))?;
    let image = &frozen.out[..frozen.word as usize];
    let questions = Questions::of(image, &mut Random::new(0), 50);
    compare_looking(library, image, &questions)
}

/// One call that must give this word, by document 01 as well as by the second
/// implementation.
fn answers(
    library: &mut Library,
    bytes: &mut [u8],
    call: Call,
    expected: i64,
) -> Result<(), String> {
    compare(library, bytes, call)
        .and_then(|done| same_word(done.word, expected, "document 01"))
        .map_err(|difference| format!("{call}: {difference}"))
}
