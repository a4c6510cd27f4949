//! Compares the hour log's library with a plain second implementation and with
//! the plain list of document 01. Requests of document 02 that the library does
//! not have yet are cargo features that are off.
//!
//! `second` runs the comparison; `second self-test` spoils the library's
//! answers and bytes and sees that the comparison notices; `second outside`
//! lends it buffers that are too short and sees that each step outside is
//! seen; `second program PATH` compares the session program, `second answers`
//! prints what it must print for the input. HOURLOG_ROUNDS makes the run so
//! many times as long, HOURLOG_SHARE=n plays one seed in n, HOURLOG_SEED one
//! seed alone.

mod bag;
mod bits;
mod book;
mod book_calls;
mod busiest;
mod days;
mod draw;
mod fence;
mod ffi;
mod forgotten;
mod function;
mod image;
mod image_calls;
mod lent;
mod merge;
mod merge_calls;
mod outside;
mod plain;
mod program;
mod random;
mod refusal;
mod repair;
mod repair_calls;
mod reserve;
mod run;
mod run_calls;
mod self_test;
mod session;
mod store;
mod store_bytes;
mod store_calls;
mod suites;
mod tree;

use ffi::Library;
use function::Function;
use run::Run;
use std::process::ExitCode;
use std::time::Instant;

fn main() -> ExitCode {
    let arguments: Vec<String> = std::env::args().skip(1).collect();
    fence::watch();
    let good = match arguments.iter().map(String::as_str).collect::<Vec<_>>()[..] {
        [] => compare_all(),
        ["self-test"] => self_test::play(),
        ["outside"] => outside::play(),
        ["step", ref numbers @ ..] => outside::step(numbers),
        ["program", path] => program::play(path),
        ["answers"] => program::print_answers(),
        _ => {
            eprintln!("usage: second [self-test | outside | program PATH | answers]");
            false
        }
    };
    if good {
        ExitCode::SUCCESS
    } else {
        ExitCode::FAILURE
    }
}

fn compare_all() -> bool {
    let mut run = Run::new();
    for suite in suites::all() {
        let (start, before) = (Instant::now(), run.library.calls());
        let outcome = (suite.play)(&mut run);
        let calls = run.library.calls() - before;
        let seconds = start.elapsed().as_secs_f32();
        println!("{}: {calls} calls, {seconds:.1} s", suite.name);
        if outcome.is_err() {
            break;
        }
    }
    let unmet = if run.whole() { unmet(&run.library) } else { 0 };
    println!(
        "second implementation: {} calls compared, {} differences",
        run.library.calls(),
        run.differences
    );
    run.differences == 0 && unmet == 0
}

/// Prints what each function answered; gives how many of them have not met
/// all that documents 01 and 02 let them answer.
fn unmet(library: &Library) -> usize {
    let mut unmet = 0;
    for function in Function::all() {
        let seen = &library.seen[function as usize];
        let refusals = function.refusals();
        let met: Vec<String> = refusals
            .iter()
            .map(|&number| format!("refused {number}: {}", seen[number]))
            .collect();
        println!("  {function:?}: answered {}, {}", seen[0], met.join(", "));
        if seen[0] == 0 || refusals.iter().any(|&number| seen[number] == 0) {
            println!("MISSING: {function:?} has not met all its outcomes");
            unmet += 1;
        }
    }
    unmet
}
