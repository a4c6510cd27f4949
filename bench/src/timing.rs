//! Timing in turns, the best of many.

use crate::contender::Contender;
use crate::tasks::Task;
use std::hint::black_box;
use std::time::Instant;

/// The time of each contender in the task's unit: for each input the best of
/// many, of these the mean. Before that their answers and bytes are compared.
pub fn best_of_many(contenders: &[Contender; 3], task: &Task) -> [f64; 3] {
    compare(contenders, task);
    let mut bytes = Vec::new();
    let mut best = vec![[f64::INFINITY; 3]; task.inputs.len()];
    for _ in 0..task.rounds {
        for (input, best) in task.inputs.iter().zip(&mut best) {
            for (by, best) in contenders.iter().zip(best) {
                bytes.clone_from(&input.start);
                let start = Instant::now();
                black_box((input.work)(by, black_box(&mut bytes)));
                *best = best.min(start.elapsed().as_nanos() as f64);
            }
        }
    }
    [0, 1, 2].map(|by| {
        let all: f64 = best.iter().map(|best| best[by]).sum();
        all / task.inputs.len() as f64 / task.divisor
    })
}

fn compare(contenders: &[Contender; 3], task: &Task) {
    for input in &task.inputs {
        let done = |by: &Contender| {
            let mut bytes = input.start.clone();
            let answers = (input.work)(by, &mut bytes);
            (answers, bytes)
        };
        let first = done(&contenders[0]);
        for by in &contenders[1..] {
            assert!(
                done(by) == first,
                "{}: {} and {} differ",
                task.name,
                contenders[0].name,
                by.name
            );
        }
    }
}
