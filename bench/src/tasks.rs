//! What is timed.

use crate::contender::Contender;
use crate::data::{counts, in_order, questions, Kind, INPUTS};
use crate::filled::{begun, filled, noise, one_chain};

const E: u32 = 6;
const QUESTIONS: usize = 8_192;
const APPENDS: usize = 2;
const PAGE: usize = 64;
/// Stretches that are asked for, in hours.
const DAY: u32 = 24;
const YEAR: u32 = 8_760;

pub type Work = Box<dyn Fn(&Contender, &mut [u8]) -> i64>;

/// What is worked on.
pub struct Input {
    /// Bytes that each round starts from; they are put back untimed.
    pub start: Vec<u8>,
    /// Works on the bytes; the number stands for all its answers.
    pub work: Work,
}

/// A piece of work that a contender does on inputs of a kind.
pub struct Task {
    pub name: &'static str,
    pub unit: &'static str,
    /// Nanoseconds of the whole, divided by this, are the unit.
    pub divisor: f64,
    pub rounds: usize,
    pub inputs: Vec<Input>,
    /// The task on the same inputs whose time is to be set beside its own.
    pub beside: Option<&'static str>,
}

impl Task {
    fn beside(self, other: &'static str) -> Task {
        Task {
            beside: Some(other),
            ..self
        }
    }
}

/// A list and its image.
struct Log {
    seed: u64,
    counts: Vec<u32>,
    image: Vec<u8>,
}

impl Log {
    fn new(seed: u64, counts: Vec<u32>) -> Log {
        let image = image_of(&counts, E);
        Log {
            seed,
            counts,
            image,
        }
    }

    fn total(&self) -> u64 {
        self.counts.iter().map(|&count| u64::from(count)).sum()
    }

    /// Contenders that all refuse an image agree, and would be timed at that.
    fn assert_accepted(&self, edition: u8) {
        let accepted = self.total() | (self.counts.len() as u64) << 40;
        let checked = rival::image::check::<rival::Straightforward>(&self.image);
        assert_eq!((self.image[0], checked), (edition, accepted as i64));
    }

    /// Bytes to write to that are not clear.
    fn no_image(&self) -> Vec<u8> {
        vec![0xFF; self.image.len()]
    }

    fn book(&self) -> Vec<u8> {
        let mut book = vec![0; 2 * self.counts.len()];
        rival::books::from_image::<rival::Fast>(&self.image, &mut book);
        book
    }
}

fn image_of(counts: &[u32], e: u32) -> Vec<u8> {
    let mut image = vec![0; rival::image::length::<rival::Fast>(counts, e) as usize];
    rival::image::write::<rival::Fast>(counts, e, &mut image);
    image
}

fn logs(kind: Kind, change: impl Fn(&mut Vec<u32>)) -> Vec<Log> {
    (0..INPUTS)
        .map(|seed| {
            let mut counts = counts(kind, seed);
            change(&mut counts);
            let log = Log::new(seed, counts);
            log.assert_accepted(kind.edition());
            log
        })
        .collect()
}

/// Each image call over images of a kind, of edition 1.
pub fn over_coins(kind: Kind) -> Vec<Task> {
    let mut tasks = over_images(kind);
    tasks.extend(books(kind));
    tasks
}

/// A merge of images whose pages have not the same size, nor that of the new one.
pub fn over_two_sizes(kind: Kind) -> Task {
    merging("merge of e = 4, 8", &logs(kind, |_| ()), 4, 8)
}

/// The same of edition 2, which no book's image has.
pub fn over_tickets() -> Vec<Task> {
    over_images(Kind::Tickets)
}

/// The calls that look at one hour's count, where a page's sum has more than 32
/// bits.
pub fn over_rich_pages() -> Vec<Task> {
    let logs = logs(Kind::Rich, |_| ());
    vec![
        asking("count", &logs, at_random, count),
        asking("reading", &logs, at_random, reading),
    ]
}

fn over_images(kind: Kind) -> Vec<Task> {
    let logs = logs(kind, |_| ());
    let mut tasks = vec![
        asking("count", &logs, at_random, count),
        asking("reading", &logs, at_random, reading),
        asking("count in order", &logs, ordered, count),
        asking("reading in order", &logs, ordered, reading),
        asking("reach", &logs, figures, reach),
        measuring("length", &logs),
        writing("write", &logs),
        whole("check", &logs, check),
        whole("busiest day", &logs, busiest_day).beside("check"),
        whole("busiest year", &logs, |by, bytes| (by.busiest)(bytes, YEAR)).beside("check"),
    ];
    tasks.extend(matches(kind));
    tasks.push(merging("merge", &logs, E, E));
    tasks
}

fn at_random(log: &Log) -> Vec<u64> {
    questions(log.counts.len() as u64, QUESTIONS, log.seed)
}

fn ordered(log: &Log) -> Vec<u64> {
    in_order(log.counts.len(), QUESTIONS)
}

fn figures(log: &Log) -> Vec<u64> {
    questions(log.total() + 1, QUESTIONS, log.seed)
}

fn count(by: &Contender, bytes: &mut [u8], hour: u64) -> i64 {
    (by.count)(bytes, hour as u32)
}

fn reading(by: &Contender, bytes: &mut [u8], hour: u64) -> i64 {
    (by.reading)(bytes, hour as u32)
}

fn reach(by: &Contender, bytes: &mut [u8], figure: u64) -> i64 {
    (by.reach)(bytes, figure)
}

fn check(by: &Contender, bytes: &mut [u8]) -> i64 {
    (by.check)(bytes)
}

fn busiest_day(by: &Contender, bytes: &mut [u8]) -> i64 {
    (by.busiest)(bytes, DAY)
}

/// The last count alone is odd: a bag of as many coins is found there and
/// nowhere else, an odd one of less coins nowhere. Nor is a tenth of all coins,
/// made odd: a bag of many hours.
fn matches(kind: Kind) -> Vec<Task> {
    let logs = logs(kind, |counts| {
        counts.iter_mut().for_each(|count| *count &= !1);
        *counts.last_mut().expect("hours") = 1_001;
    });
    let matching = |name, figure: fn(&Log) -> u64| {
        let inputs = logs.iter().map(|log| {
            let figure = figure(log);
            Input {
                start: log.image.clone(),
                work: Box::new(move |by, bytes| (by.matched)(bytes, figure)),
            }
        });
        over_hours(name, &logs, inputs.collect()).beside("check of bags")
    };
    vec![
        whole("check of bags", &logs, check),
        matching("match at end", |_| 1_001),
        matching("match none", |_| 999),
        matching("match none of many", |log| {
            let mut figure = (log.total() / 10 | 1) - 2;
            while ends_with(&log.counts, figure) {
                figure -= 2;
            }
            figure
        }),
    ]
}

/// Whether the last hours, of which the last alone is odd, have so many coins.
fn ends_with(counts: &[u32], figure: u64) -> bool {
    let mut sum = 0;
    counts.iter().rev().any(|&count| {
        sum += u64::from(count);
        sum == figure
    })
}

/// A book of the counts, as far as four digits hold them, over and back.
fn books(kind: Kind) -> Vec<Task> {
    let logs = logs(kind, |counts| {
        counts.iter_mut().for_each(|count| *count %= 10_000);
    });
    let over = logs.iter().map(|log| {
        let book = log.book();
        Input {
            start: log.no_image(),
            work: Box::new(move |by, bytes| (by.from_book)(&book, E, bytes)),
        }
    });
    let back = logs.iter().map(|log| {
        let image = log.image.clone();
        Input {
            start: vec![0xFF; 2 * log.counts.len()],
            work: Box::new(move |by, bytes| (by.to_book)(&image, bytes)),
        }
    });
    vec![
        writing("write of books", &logs),
        over_hours("from book", &logs, over.collect()).beside("write of books"),
        whole("check of books", &logs, check),
        over_hours("to book", &logs, back.collect()).beside("check of books"),
    ]
}

/// Appends to a store of which most pages hold data, each with its full check.
pub fn append(pages: usize) -> Task {
    over_stores("append", APPENDS, |seed| {
        appending(filled(pages, PAGE, seed))
    })
}

fn appending(start: Vec<u8>) -> Input {
    Input {
        start,
        work: Box::new(|by, bytes| {
            let counts: Vec<u64> = (1..=APPENDS as u64).collect();
            all_answers(&counts, |count| (by.append)(bytes, count as u32))
        }),
    }
}

/// Calls on a log that is fresh and on one that is a tenth full: the check looks
/// at each free cell, and most cells are.
pub fn mostly_free(pages: usize) -> Vec<Task> {
    let tenth = PAGE * pages / 10;
    vec![
        over_stores("append, fresh", APPENDS, |seed| {
            appending(begun(pages, 0, seed))
        }),
        over_stores("append, a tenth full", APPENDS, |seed| {
            appending(begun(pages, tenth, seed))
        }),
        over_stores("free, fresh", 1, |seed| checking(begun(pages, 0, seed))),
        over_stores("free, a tenth full", 1, |seed| {
            checking(begun(pages, tenth, seed))
        }),
    ]
}

/// Free takes the soundness check, hardly more.
fn checking(start: Vec<u8>) -> Input {
    Input {
        start,
        work: Box::new(|by, bytes| (by.free)(bytes)),
    }
}

/// The image of a full store's list, at pages of 4, 8 and 64 counts.
pub fn freezes(pages: usize) -> Vec<Task> {
    [
        (2, "freeze e = 2"),
        (3, "freeze e = 3"),
        (6, "freeze e = 6"),
    ]
    .map(|(e, name)| over_stores(name, 1, |seed| freeze(filled(pages, 0, seed), pages, e)))
    .into()
}

fn freeze(store: Vec<u8>, pages: usize, e: u32) -> Input {
    let mut room = vec![0xFF; 16 * PAGE * pages];
    let length = rival::store::freeze::<rival::Fast>(&store, e, &mut room);
    room.truncate(length as usize);
    room.fill(0xFF);
    Input {
        start: room,
        work: Box::new(move |by, bytes| (by.freeze)(&store, e, bytes)),
    }
}

/// An hour more before all others, and the first one struck: in a full log,
/// or one that lacks an hour, every page is rewritten.
pub fn moves(pages: usize) -> Vec<Task> {
    vec![
        over_stores("insert", 1, |seed| Input {
            start: filled(pages, 1, seed),
            work: Box::new(|by, bytes| (by.insert)(bytes, 0, 5)),
        }),
        over_stores("strike", 1, |seed| Input {
            start: filled(pages, 0, seed),
            work: Box::new(|by, bytes| (by.strike)(bytes, 0)),
        }),
    ]
}

/// Repairs of a sound store, of noise behind a header that is right, and of the
/// worst there is: all pages over one chain of eight cells, which is whole, so that
/// each is judged to the last clause, and none is kept.
pub fn repairs(pages: usize) -> Vec<Task> {
    let repair = |name, start: fn(usize, u64) -> Vec<u8>| {
        let task = over_stores(name, 1, |seed| repairing(start(pages, seed)));
        task.beside("soundness check")
    };
    vec![
        over_stores("soundness check", 1, |seed| {
            checking(filled(pages, 0, seed))
        }),
        repair("repair, sound store", |pages, seed| filled(pages, 0, seed)),
        repair("repair, noise", noise),
        repair("repair, one chain", one_chain),
    ]
}

/// The numbers of the pages that are listed are part of the answer.
fn repairing(start: Vec<u8>) -> Input {
    Input {
        start,
        work: Box::new(|by, bytes| {
            let mut lost = [0; 1_024];
            let answer = (by.repair)(bytes, &mut lost);
            let listed: u64 = lost.iter().map(|&page| u64::from(page)).sum();
            answer + 2_048 * listed as i64
        }),
    }
}

fn over_stores(name: &'static str, calls: usize, input: impl Fn(u64) -> Input) -> Task {
    Task {
        name,
        unit: "us",
        divisor: 1_000.0 * calls as f64,
        rounds: 40,
        inputs: (0..INPUTS).map(input).collect(),
        beside: None,
    }
}

/// One number that stands for all answers in their order.
fn all_answers(questions: &[u64], mut ask: impl FnMut(u64) -> i64) -> i64 {
    questions.iter().fold(0, |all: i64, &question| {
        all.wrapping_mul(31).wrapping_add(ask(question))
    })
}

/// Each image is asked its own questions.
fn asking(
    name: &'static str,
    logs: &[Log],
    questions: impl Fn(&Log) -> Vec<u64>,
    ask: fn(&Contender, &mut [u8], u64) -> i64,
) -> Task {
    let inputs = logs.iter().map(|log| {
        let questions = questions(log);
        Input {
            start: log.image.clone(),
            work: Box::new(move |by, bytes| {
                all_answers(&questions, |question| ask(by, bytes, question))
            }),
        }
    });
    Task {
        name,
        unit: "ns",
        divisor: QUESTIONS as f64,
        rounds: 20,
        inputs: inputs.collect(),
        beside: None,
    }
}

/// The length of each list's image.
fn measuring(name: &'static str, logs: &[Log]) -> Task {
    let inputs = logs.iter().map(|log| {
        let counts = log.counts.clone();
        Input {
            start: Vec::new(),
            work: Box::new(move |by, _| (by.length)(&counts, E)),
        }
    });
    over_hours(name, logs, inputs.collect())
}

/// Each list into a buffer that is not clear.
fn writing(name: &'static str, logs: &[Log]) -> Task {
    let inputs = logs.iter().map(|log| {
        let counts = log.counts.clone();
        Input {
            start: log.no_image(),
            work: Box::new(move |by, bytes| (by.write)(&counts, E, bytes)),
        }
    });
    over_hours(name, logs, inputs.collect())
}

/// Each log and the next one, at these page sizes, into a buffer that is not clear.
fn merging(name: &'static str, logs: &[Log], first_e: u32, second_e: u32) -> Task {
    let nexts = logs.iter().cycle().skip(1);
    let inputs = logs.iter().zip(nexts).map(|(log, next)| {
        let counts = log.counts.iter().zip(&next.counts);
        let sums: Vec<u32> = counts.map(|(count, more)| count + more).collect();
        let first = image_of(&log.counts, first_e);
        let second = image_of(&next.counts, second_e);
        merge(first, second, image_of(&sums, E))
    });
    over_hours(name, logs, inputs.collect())
}

fn merge(first: Vec<u8>, second: Vec<u8>, merged: Vec<u8>) -> Input {
    let mut room = vec![0xFF; merged.len()];
    rival::merge::merge::<rival::Straightforward>(&first, &second, E, &mut room);
    assert!(room == merged, "the image of the sums");
    room.fill(0xFF);
    Input {
        start: room,
        work: Box::new(move |by, bytes| (by.merge)(&first, &second, E, bytes)),
    }
}

fn whole(name: &'static str, logs: &[Log], work: fn(&Contender, &mut [u8]) -> i64) -> Task {
    let inputs = logs.iter().map(|log| Input {
        start: log.image.clone(),
        work: Box::new(work),
    });
    over_hours(name, logs, inputs.collect())
}

/// The logs have as many hours each.
fn over_hours(name: &'static str, logs: &[Log], inputs: Vec<Input>) -> Task {
    Task {
        name,
        unit: "ns a count",
        divisor: logs[0].counts.len() as f64,
        rounds: 20,
        inputs,
        beside: None,
    }
}
