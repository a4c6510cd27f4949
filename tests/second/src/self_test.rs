//! Whether the comparison can fail: one answer or one byte of the library is
//! spoilt, for each function in each suite, and each time it must be noticed.
//! And whether what it compares with is what document 02 asks for.

use crate::ffi::{Fault, Spoilt};
use crate::function::Function;
use crate::image::Reached;
use crate::image_calls::allowed;
use crate::refusal::Refusal;
use crate::run::Run;
use crate::suites::{self, Suite};
use crate::{bag, book, busiest, days, forgotten, merge, repair};

pub fn play() -> bool {
    check_latitude();
    check_requests();
    let mut unnoticed = 0;
    let mut spoilt = 0;
    for suite in suites::all() {
        for fault in faults_of(suite) {
            spoilt += 1;
            if !notices(suite, fault) {
                println!("UNNOTICED: {:?} of {:?}", fault.spoilt, fault.function);
                unnoticed += 1;
            }
        }
        println!("{}: done", suite.name);
    }
    println!("self-test: {spoilt} calls spoilt, {unnoticed} unnoticed");
    unnoticed == 0
}

/// What can be spoilt in a suite: the functions that a clean run calls.
fn faults_of(suite: &Suite) -> Vec<Fault> {
    let mut clean = Run::self_test(None);
    let outcome = (suite.play)(&mut clean);
    assert!(outcome.is_ok(), "{}: a clean run differs", suite.name);
    let called = |function: &Function| clean.library.calls_of(*function) > 0;
    let mut faults = Vec::new();
    for function in Function::all().filter(called) {
        for &spoilt in spoilt_of(function) {
            faults.push(Fault { function, spoilt });
        }
    }
    faults
}

/// Length is lent no bytes to write, and repair alone a list.
fn spoilt_of(function: Function) -> &'static [Spoilt] {
    match function {
        Function::ImageLength => &[Spoilt::Answer],
        Function::Repair => &[Spoilt::Answer, Spoilt::Byte, Spoilt::Entry],
        _ => &[Spoilt::Answer, Spoilt::Byte],
    }
}

fn notices(suite: &Suite, fault: Fault) -> bool {
    let mut run = Run::self_test(Some(fault));
    (suite.play)(&mut run).is_err()
}

/// Document 02's examples and what follows from its sentences, by the second
/// implementation alone.
fn check_requests() {
    busiest::self_test();
    book::self_test();
    days::self_test();
    forgotten::self_test();
    bag::self_test();
    merge::self_test();
    repair::self_test();
}

/// Reach on an image that is not accepted has exactly document 01's latitude.
fn check_latitude() {
    let free = Reached::BodyOrIndexTo(5);
    assert!([-6, 0, 3, 5].iter().all(|&word| allowed(&free, word)));
    assert!(![-8, -7, -5, -1, 6, 7]
        .iter()
        .any(|&word| allowed(&free, word)));
    let bound = Reached::Exactly(Err(Refusal::Figure));
    assert!(allowed(&bound, -8) && !allowed(&bound, -6) && !allowed(&bound, 0));
}
