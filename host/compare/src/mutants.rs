//! Mode mutants: the reference with one known error must differ from our library, or the tests are too weak.

use crate::case::Failure;
use crate::counters::Counters;
use crate::vectors::{nights, wrong, Side};
use crate::{damaged, random, recordings, sweep};
use reference::Mutant;

/// How an error was found.
pub struct Hunt {
    pub mutant: Mutant,
    /// Marked examples that the mutant gets wrong.
    pub examples: Vec<String>,
    /// The first difference in mode random, and in mode damaged.
    pub random: Option<Failure>,
    pub damaged: Option<Failure>,
    /// In the sweep, which is asked only if both find nothing.
    pub sweep: Option<Failure>,
}

impl Hunt {
    pub fn found(&self) -> bool {
        self.random.is_some() || self.damaged.is_some() || self.sweep.is_some()
    }
}

/// Looks for one error with at most so many calls in each random mode. What damaged tables show, well-formed ones are asked
/// for more briefly: many errors show on damaged ones alone.
pub fn hunt(mutant: Mutant, seed: u64, calls: u64) -> Hunt {
    let damaged = damaged::run(seed, calls, mutant, &mut Counters::default());
    let fewer = if damaged.is_some() { calls / 8 } else { calls };
    let mut hunt = Hunt {
        mutant,
        examples: wrong(Side::Theirs(mutant)),
        random: random::run(seed, fewer, mutant, &mut Counters::default()),
        damaged,
        sweep: None,
    };
    if !hunt.found() {
        hunt.sweep = sweep::run(1, mutant, &mut Counters::default());
    }
    hunt
}

/// How an error that only a replay shows was found.
pub struct ReplayHunt {
    pub mutant: Mutant,
    pub examples: Vec<String>,
    /// The first difference in mode replay.
    pub failure: Option<recordings::case::Failure>,
}

/// Looks for such an error in the recordings that leave nothing to chance, though not in all of them, and in so many random
/// ones.
pub fn hunt_in_replay(mutant: Mutant, seed: u64, many: u64) -> ReplayHunt {
    let counters = &mut recordings::counters::Counters::default();
    let extent = recordings::sweep::Extent {
        events: 80,
        cut_step: 7,
        step: 64,
    };
    let failure = recordings::sweep::run(extent, mutant, counters)
        .or_else(|| recordings::limits::run(1, mutant, counters))
        .or_else(|| recordings::run(seed, many, mutant, counters));
    ReplayHunt {
        mutant,
        examples: nights::wrong(Side::Theirs(mutant)),
        failure,
    }
}

/// Whether no mode finds the error with so many calls; in a replay, with a hundredth of it in recordings.
pub fn survives(mutant: Mutant, seed: u64, calls: u64) -> bool {
    if Mutant::REPLAY.contains(&mutant) {
        return hunt_in_replay(mutant, seed, calls / 100).failure.is_none();
    }
    damaged::run(seed, calls, mutant, &mut Counters::default()).is_none()
        && random::run(seed, calls, mutant, &mut Counters::default()).is_none()
        && sweep::run(1, mutant, &mut Counters::default()).is_none()
}

/// All errors but those that only a replay shows.
pub fn hunt_all(seed: u64, calls: u64) -> Vec<Hunt> {
    let elsewhere = |mutant: &&Mutant| !Mutant::REPLAY.contains(mutant);
    let each = |&mutant: &Mutant| hunt(mutant, seed, calls);
    Mutant::ALL.iter().filter(elsewhere).map(each).collect()
}

/// Those that only a replay shows.
pub fn hunt_all_in_replay(seed: u64, many: u64) -> Vec<ReplayHunt> {
    let each = |&mutant: &Mutant| hunt_in_replay(mutant, seed, many);
    Mutant::REPLAY.iter().map(each).collect()
}
