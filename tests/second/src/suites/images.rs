//! Images of lists: written, checked and asked everything.

use crate::image_calls::{compare_looking, compare_writing, Questions};
use crate::plain::TOTAL_LIMIT;
use crate::random::{counts, Random, Size};
use crate::run::{Outcome, Run};

const FIRST_SEED: u64 = 3_000_000;
const LISTS: u64 = 300;
const LARGE_SEED: u64 = FIRST_SEED + 100_000;
const LARGE_LISTS: u64 = 3;

pub fn play(run: &mut Run) -> Outcome {
    for e in run.page_sizes() {
        page_boundaries(run, e)?;
        totals(run, e)?;
        lengths(run, e)?;
    }
    for e in [0, 1, 9, 10, 255, 258, 65_538, u32::MAX] {
        let result = refusals_by_page_size(run, e);
        run.note(format!("e = {e}"), result)?;
    }
    run.each_seed(FIRST_SEED, LISTS, random_list)?;
    run.each_seed(LARGE_SEED, LARGE_LISTS, large_list)
}

/// Writes a list, then asks its image everything and compares the list too.
fn write_and_look(run: &mut Run, list: &[u64], e: u32, most: u64, case: &str) -> Outcome {
    let result = written_and_looked(run, list, e, most);
    run.note(format!("{case}, e = {e}, N = {}", list.len()), result)
}

pub fn written_and_looked(run: &mut Run, list: &[u64], e: u32, most: u64) -> Result<(), String> {
    let Some(image) = compare_writing(&mut run.library, list, e)? else {
        return Ok(());
    };
    if crate::image::list(&image).as_deref() != Ok(list) {
        return Err("the second implementation reads another list than it wrote".into());
    }
    let mut questions = Questions::of(&image, &mut Random::new(0), most);
    questions.add_readings(list, list.len() / most as usize + 1);
    compare_looking(&mut run.library, &image, &questions)
}

/// No hour, none below a page, one page and one hour more or less.
fn page_boundaries(run: &mut Run, e: u32) -> Outcome {
    let page = 1 << e;
    let mut random = Random::new(e.into());
    for length in [0, 1, page - 1, page, page + 1, 2 * page, 3 * page - 1] {
        for size in Size::ALL {
            let list = counts(&mut random, length, size);
            write_and_look(run, &list, e, 600, "page boundaries")?;
        }
    }
    Ok(())
}

/// Totals at the limit of edition 1 and one above it, in one hour and in
/// several, and one that no image has.
fn totals(run: &mut Run, e: u32) -> Outcome {
    let half = TOTAL_LIMIT / 2;
    for list in [
        vec![TOTAL_LIMIT],
        vec![0, TOTAL_LIMIT, 0],
        vec![TOTAL_LIMIT, 1],
        vec![half, 0, half, 1],
        vec![half, 0, half, 2],
        vec![1; 500],
        vec![TOTAL_LIMIT; 300],
    ] {
        write_and_look(run, &list, e, 100, "totals")?;
    }
    Ok(())
}

/// The longest list, in either edition, and one that is too long, whose total
/// may be too large as well.
fn lengths(run: &mut Run, e: u32) -> Outcome {
    for list in [
        vec![0; 65_536],
        vec![1; 65_536],
        vec![65_535; 65_536],
        vec![65_536; 65_536],
        vec![0; 65_537],
        vec![16_777_216; 65_537],
    ] {
        write_and_look(run, &list, e, 60, "lengths")?;
    }
    Ok(())
}

/// Refusal 1 comes before 2, 3 and 4.
fn refusals_by_page_size(run: &mut Run, e: u32) -> Result<(), String> {
    let too_dear = vec![TOTAL_LIMIT; 300];
    for list in [vec![], vec![1, 2, 3], vec![0; 65_537], too_dear] {
        compare_writing(&mut run.library, &list, e)?;
    }
    Ok(())
}

fn random_list(run: &mut Run, seed: u64) -> Result<(), String> {
    let mut random = Random::new(seed);
    let (e, length) = (random.between(2, 8) as u32, random.below(400) as usize);
    let size = random.pick(&Size::ALL);
    let list = counts(&mut random, length, size);
    written_and_looked(run, &list, e, 300)
}

/// A list of nearly the greatest length, at every page size.
fn large_list(run: &mut Run, seed: u64) -> Result<(), String> {
    let mut random = Random::new(seed);
    let size = random.pick(&[Size::Few, Size::Usual]);
    let length = random.between(60_000, 65_536) as usize;
    let list = counts(&mut random, length, size);
    for e in run.page_sizes() {
        written_and_looked(run, &list, e, 1_000)
            .map_err(|difference| format!("e = {e}: {difference}"))?;
    }
    Ok(())
}
