//! Times the compared versions in turn, round after round, so that what else the computer does meets all of
//! them. The shortest time counts.

use crate::keep::{Keep, Row};
use crate::side::{Side, Timed};
use std::time::{Duration, Instant};

/// How long one row of a table may be measured, and which machines are.
#[derive(Clone, Copy, Debug)]
pub struct Effort {
    pub row: Duration,
    pub most_rounds: usize,
    /// Only machines of so many CPUs and tasks.
    pub only: Option<(usize, usize)>,
}

impl Effort {
    pub const FULL: Effort = Effort {
        row: Duration::from_millis(400),
        most_rounds: 5000,
        only: None,
    };
    pub const QUICK: Effort = Effort {
        row: Duration::from_millis(30),
        most_rounds: 500,
        only: None,
    };
    pub const ONCE: Effort = Effort {
        row: Duration::ZERO,
        most_rounds: 1,
        only: None,
    };

    /// Whether any of a section's machines is measured.
    pub fn wants(&self, has: fn((usize, usize)) -> bool) -> bool {
        self.only.is_none_or(has)
    }
}

/// A run of the benchmark.
pub struct Run {
    pub effort: Effort,
    /// How the names of the cases begin that are timed, where cases can be chosen.
    pub case: String,
    pub keep: Keep,
}

impl Run {
    /// Whether the case of this name is timed.
    pub fn wants(&self, case: &str) -> bool {
        case.starts_with(&self.case)
    }

    /// Times one row. The key names it among all rows.
    pub fn row<W: Timed>(&mut self, key: String, sides: &mut [Box<dyn Side<W>>], work: &W) -> Row {
        let times = time(sides, work, self.effort);
        self.keep.row(key, Row::new(times))
    }
}

/// After a side has used this part of a row's time, the others go on without it.
const SHARE: u32 = 3;
const FEWEST_ROUNDS: usize = 3;

/// One side's shortest time for each part of the work, and what it has spent.
struct Watch {
    best: Vec<Duration>,
    spent: Duration,
}

/// The time of one call, in nanoseconds, for each side.
///
/// # Panics
/// If two sides differ in their answers or in the tables that they leave.
fn time<W: Timed>(sides: &mut [Box<dyn Side<W>>], work: &W, effort: Effort) -> Vec<f64> {
    same(sides, work);
    let parts = work.parts();
    let fresh = || Watch {
        best: vec![Duration::MAX; parts.len()],
        spent: Duration::ZERO,
    };
    let mut watches: Vec<Watch> = sides.iter().map(|_| fresh()).collect();
    for round in 0..effort.most_rounds {
        for (side, watch) in sides.iter_mut().zip(&mut watches) {
            if round < FEWEST_ROUNDS || watch.spent < effort.row / SHARE {
                watch.round(side.as_mut(), &parts);
            }
        }
    }
    let calls = work.calls() as f64;
    watches
        .iter()
        .map(|watch| watch.best.iter().sum::<Duration>().as_nanos() as f64 / calls)
        .collect()
}

impl Watch {
    fn round<W>(&mut self, side: &mut dyn Side<W>, parts: &[W]) {
        side.restart();
        for (part, best) in parts.iter().zip(&mut self.best) {
            let from = Instant::now();
            side.run(part);
            let took = from.elapsed();
            self.spent += took;
            *best = took.min(*best);
        }
    }
}

/// Runs the work once on each side and compares.
fn same<W>(sides: &mut [Box<dyn Side<W>>], work: &W) {
    let ends: Vec<_> = sides
        .iter_mut()
        .map(|side| {
            side.restart();
            (side.run(work), side.tables())
        })
        .collect();
    assert!(
        ends.windows(2).all(|pair| pair[0] == pair[1]),
        "the compared versions differ"
    );
}
