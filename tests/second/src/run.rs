//! One run of the comparison: the library, how much to do, what was found.

use crate::fence;
use crate::ffi::{Fault, Library};
use std::fmt::Display;
use std::iter::StepBy;
use std::ops::Range;
use std::str::FromStr;

/// Enough was found to end the run.
pub struct Stopped;

pub type Outcome = Result<(), Stopped>;

/// Differences after which a run ends.
const MOST_DIFFERENCES: u64 = 20;

pub struct Run {
    pub library: Library,
    pub differences: u64,
    amount: Amount,
}

enum Amount {
    /// The default run so many times over, of which one seed in `share` is
    /// played, or one alone.
    Rounds {
        rounds: u64,
        share: usize,
        only: Option<u64>,
    },
    /// A hundredth of the default run, ended in silence by a difference.
    SelfTest,
}

impl Run {
    /// A run as long as HOURLOG_ROUNDS and HOURLOG_SHARE say, or of the seed
    /// HOURLOG_SEED alone.
    pub fn new() -> Run {
        Run {
            library: Library::default(),
            differences: 0,
            amount: Amount::Rounds {
                rounds: number_from("HOURLOG_ROUNDS").unwrap_or(1),
                share: number_from("HOURLOG_SHARE").unwrap_or(1),
                only: number_from("HOURLOG_SEED"),
            },
        }
    }

    pub fn self_test(fault: Option<Fault>) -> Run {
        Run {
            library: Library {
                fault,
                ..Library::default()
            },
            differences: 0,
            amount: Amount::SelfTest,
        }
    }

    pub fn is_self_test(&self) -> bool {
        matches!(self.amount, Amount::SelfTest)
    }

    /// Whether every suite runs.
    pub fn whole(&self) -> bool {
        matches!(self.amount, Amount::Rounds { only: None, .. })
    }

    /// Plays a case for each of a suite's seeds; `first` sets suites apart.
    pub fn each_seed(
        &mut self,
        first: u64,
        cases: u64,
        case: fn(&mut Run, u64) -> Result<(), String>,
    ) -> Outcome {
        for seed in self.seeds(first, cases) {
            fence::playing(seed);
            let result = case(self, seed);
            self.note(format!("seed {seed}"), result)?;
        }
        Ok(())
    }

    fn seeds(&self, first: u64, cases: u64) -> StepBy<Range<u64>> {
        match self.amount {
            Amount::Rounds {
                rounds,
                share,
                only,
            } => {
                let all = first..first + cases * rounds;
                match only {
                    None => all.step_by(share),
                    Some(seed) if all.contains(&seed) => (seed..seed + 1).step_by(1),
                    Some(_) => (0..0).step_by(1),
                }
            }
            Amount::SelfTest => (first..first + cases.div_ceil(100)).step_by(1),
        }
    }

    /// The page sizes that a suite goes through.
    pub fn page_sizes(&self) -> Range<u32> {
        match self.amount {
            Amount::Rounds { .. } => 2..9,
            Amount::SelfTest => 2..3,
        }
    }

    /// Takes a case's result; a difference is printed and counted.
    pub fn note(&mut self, case: impl Display, result: Result<(), String>) -> Outcome {
        let Err(difference) = result else {
            return Ok(());
        };
        self.differences += 1;
        let enough = match self.amount {
            Amount::SelfTest => 1,
            Amount::Rounds { .. } => {
                println!("DIFFERENCE, {case}: {difference}");
                MOST_DIFFERENCES
            }
        };
        if self.differences < enough {
            Ok(())
        } else {
            Err(Stopped)
        }
    }
}

fn number_from<T: FromStr>(variable: &str) -> Option<T> {
    let text = std::env::var(variable).ok()?;
    Some(
        text.parse()
            .unwrap_or_else(|_| panic!("{variable} is no number: {text}")),
    )
}
