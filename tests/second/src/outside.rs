//! Whether a step outside a lent buffer is seen: every buffer of every call is
//! lent without its first or its last bytes, in a process of its own, and the
//! guard of that side must end the process.

use crate::book;
use crate::fence::STEPPED_OUTSIDE;
use crate::ffi::Library;
use crate::function::Function;
use crate::image;
use crate::lent::{Short, Side};
use crate::store;
use std::process::{Command, Stdio};

const COUNTS: [u32; 5] = [1, 0, 2, 0, 5];
const E: u32 = 2;

/// All calls with one of their buffers too short, and, to show that nothing
/// else ends them, with none.
pub fn play() -> bool {
    let (mut steps, mut unseen) = (0, 0);
    for function in Function::all() {
        assert_eq!(
            status_of(function, None),
            0,
            "{function:?} within its buffers"
        );
        for short in shorts_of(function) {
            steps += 1;
            if status_of(function, Some(short)) != STEPPED_OUTSIDE {
                println!("UNSEEN: {function:?}, {short:?}");
                unseen += 1;
            }
        }
    }
    println!("self-test: {steps} steps outside a lent buffer, {unseen} unseen");
    unseen == 0
}

/// Each side of each buffer, short by one element.
fn shorts_of(function: Function) -> Vec<Short> {
    let elements: &[usize] = match function {
        Function::Freeze | Function::ImageFromBook | Function::ImageToBook => &[1, 1],
        Function::Day | Function::Repair => &[1, 4],
        Function::ImageLength => &[4],
        Function::ImageWrite => &[4, 1],
        Function::ImageMerge => &[1, 1, 1],
        _ => &[1],
    };
    let buffers = elements.iter().enumerate();
    buffers
        .flat_map(|(buffer, &bytes)| {
            [Side::Before, Side::Behind].map(|side| Short {
                buffer,
                side,
                bytes,
            })
        })
        .collect()
}

/// How a process ends that makes one such call.
fn status_of(function: Function, short: Option<Short>) -> i32 {
    let program = std::env::current_exe().expect("this program");
    let sanitizer = format!("detect_leaks=0:exitcode={STEPPED_OUTSIDE}");
    let mut command = Command::new(program);
    command.args(["step", &(function as usize).to_string()]);
    if let Some(Short {
        buffer,
        side,
        bytes,
    }) = short
    {
        command.args([buffer, side as usize, bytes].map(|number| number.to_string()));
    }
    let child = command.env("ASAN_OPTIONS", sanitizer).stderr(Stdio::null());
    let status = child.status().expect("this program, started once more");
    status.code().unwrap_or(-1)
}

/// What the started process does; the numbers are those of `status_of`.
pub fn step(numbers: &[&str]) -> bool {
    let numbers: Vec<usize> = numbers
        .iter()
        .map(|word| word.parse().expect("a number"))
        .collect();
    let mut library = Library::default();
    if let [_, buffer, side, bytes] = numbers[..] {
        let side = [Side::Before, Side::Behind][side];
        library.lender.short = Some(Short {
            buffer,
            side,
            bytes,
        });
    }
    make(&mut library, Function::ALL[numbers[0]]);
    true
}

/// A call that reads or writes the first and the last byte of each buffer. The
/// live calls do so by their soundness check, repair by losing the one page and
/// clearing both cells, an image's queries by asking for its last hour or by the
/// full check.
fn make(library: &mut Library, function: Function) -> i64 {
    let counts = COUNTS.map(u64::from);
    let mut image = image::image(&counts, E).expect("a good list");
    let mut book = book::book_of(&counts);
    let mut store = vec![0; 16 + 6 + 2 * 32];
    store::fresh(&mut store, 1, 2).expect("a good size");
    for count in counts {
        store::append(&mut store, count).expect("cells enough");
    }
    match function {
        Function::Fresh => library.fresh(&mut store, 1, 2),
        Function::Append => library.append(&mut store, 1),
        Function::Set => library.set(&mut store, 0, 9),
        Function::Insert => library.insert(&mut store, 0, 1),
        Function::Strike => library.strike(&mut store, 0),
        Function::Count => library.count(&mut store, 0),
        Function::Reading => library.reading(&mut store, 1),
        Function::Reach => library.reach(&mut store, 1),
        Function::Day => library.day(&mut store, 0, &[3, 23, 4, 25]),
        Function::Free => library.free(&mut store),
        Function::Freeze => library.freeze(&mut store, E, &mut image),
        Function::Repair => {
            store[16] = 0;
            library.repair(&mut store, &mut [0])
        }
        Function::ImageLength => library.image_length(&mut COUNTS.clone(), E),
        Function::ImageWrite => library.image_write(&mut COUNTS.clone(), E, &mut image),
        Function::ImageCheck => library.image_check(&mut image),
        Function::ImageCount => library.image_count(&mut image, 4),
        Function::ImageReading => library.image_reading(&mut image, 5),
        Function::ImageReach => library.image_reach(&mut image, 8),
        Function::ImageBusiest => library.image_busiest(&mut image, 2),
        Function::ImageMatch => library.image_match(&mut image, 8),
        Function::ImageFromBook => library.image_from_book(&mut book, E, &mut image),
        Function::ImageToBook => library.image_to_book(&mut image, &mut book),
        Function::ImageMerge => {
            let mut sums = image::image(&counts.map(|count| 2 * count), E).expect("a good list");
            library.image_merge(&mut image.clone(), &mut image, E, &mut sums)
        }
    }
}
