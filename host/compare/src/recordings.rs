//! Mode replay: recordings, whole and cut, good and bad, replayed by the library and by the reference.

pub mod case;
pub mod counters;
pub mod generate;
pub mod limits;
pub mod sweep;
pub mod ways;
pub mod write;

use crate::case::Origin;
use crate::rng::Rng;
use case::{Case, Failure, Held};
use counters::Counters;
use reference::Mutant;

pub(crate) fn origin(from: Option<(u64, u64)>, mutant: Mutant) -> Origin {
    Origin {
        mode: "replay",
        from,
        mutant,
    }
}

/// One random recording: the failure, if it differs.
pub fn run_case(
    seed: u64,
    number: u64,
    mutant: Mutant,
    counters: &mut Counters,
) -> Option<Failure> {
    let mut rng = Rng::for_case(seed ^ 0x4e16_0700, number);
    let case = Case {
        bytes: generate::recording(&mut rng),
        held: rng.pick(&Held::ALL),
        resized: Vec::new(),
    };
    case.run_counted(origin(Some((seed, number)), mutant), counters)
}

/// So many random recordings.
pub fn run(seed: u64, recordings: u64, mutant: Mutant, counters: &mut Counters) -> Option<Failure> {
    (0..recordings).find_map(|number| run_case(seed, number, mutant, counters))
}
