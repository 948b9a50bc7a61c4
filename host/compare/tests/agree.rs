//! Small runs of the modes: our library and the reference agree.

use compare::counters::{Counters, CHECK, EVENT, FIND, MAKE_FRESH, REFUSALS};
use compare::recordings::sweep::Extent;
use compare::vectors::{wrong, Side};
use compare::{damaged, exhaustive, random, recordings, sweep};
use reference::Mutant;

fn none(failure: Option<compare::case::Failure>) {
    if let Some(failure) = failure {
        panic!("{}", failure.cut_down());
    }
}

#[test]
fn the_library_gives_the_marked_examples() {
    assert_eq!(wrong(Side::Ours), Vec::<String>::new());
}

#[test]
fn the_reference_gives_the_marked_examples() {
    assert_eq!(wrong(Side::Theirs(Mutant::None)), Vec::<String>::new());
}

#[test]
fn random_machines() {
    let mut counters = Counters::default();
    none(random::run(2, 10_000, Mutant::None, &mut counters));
    assert_eq!(counters.most_moves(), 63);
    assert!((1..=11).all(|kind| counters.accepted[kind] > 0));
    assert!(counters.hotplug.iter().all(|&times| times > 0));
    assert!(counters.finder.iter().all(|&times| times > 0));
    assert!(counters.among_equals.iter().all(|&times| times > 50));
    assert!(counters.refilled.iter().all(|&times| times > 20));
    assert!(counters.added_other > 100);
    assert!(counters.settled > 1000 && counters.inner > counters.settled);
    assert!(counters.settled_moves[1] > 0 && counters.settled_moves[63] > 0);
}

#[test]
fn damaged_tables() {
    let mut counters = Counters::default();
    none(damaged::run(2, 10_000, Mutant::None, &mut counters));
    assert!((1..=12).all(|number| counters.answers[EVENT][number] > 0));
    for entry in [MAKE_FRESH, CHECK, EVENT] {
        assert!(counters.slice_alone[entry] > 20);
    }
}

#[test]
fn every_length_place_and_number() {
    let mut counters = Counters::default();
    none(sweep::run(1, Mutant::None, &mut counters));
    // All refusals but the finder's, whose questions are those of `finder_questions`.
    for (entry, number) in REFUSALS.into_iter().filter(|&(entry, _)| entry != FIND) {
        assert!(counters.answers[entry][number] > 0);
    }
    // By each entry that is handed a full slice, every N with each of the 14 that are out of range.
    for entry in [MAKE_FRESH, CHECK, EVENT] {
        assert!(counters.slice_alone[entry] >= 64 * 14);
    }
}

#[test]
fn small_machines() {
    let mut counters = Counters::default();
    for size in exhaustive::ALL_QUICK {
        let machines = exhaustive::all(size, Mutant::None, &mut counters);
        machines.unwrap_or_else(|failure| panic!("{}", failure.cut_down()));
    }
    for size in exhaustive::RUN_QUICK {
        let reached = exhaustive::run_on(size, 1_000_000, Mutant::None, &mut counters);
        let reached = reached.unwrap_or_else(|failure| panic!("{}", failure.cut_down()));
        assert!(reached.whole);
    }
}

#[test]
fn finder_questions() {
    let mut counters = Counters::default();
    none(exhaustive::finder(Mutant::None, &mut counters));
    assert!(counters.found > 0 && counters.found_none > 0);
    assert!(counters.finder.iter().all(|&times| times > 1000));
    assert!(counters.answers[FIND][7] > 0 && counters.answers[FIND][8] > 0);
}

fn none_of_recordings(failure: Option<recordings::case::Failure>) {
    if let Some(failure) = failure {
        panic!("{}", failure.cut_down());
    }
}

#[test]
fn recordings_about_all_limits() {
    let mut counters = recordings::counters::Counters::default();
    let extent = Extent {
        events: 80,
        cut_step: 1,
        step: 16,
    };
    none_of_recordings(recordings::sweep::run(extent, Mutant::None, &mut counters));
    assert!(counters.lengths.iter().all(|&times| times > 0));
    assert!(counters.cpus[1..].iter().all(|&times| times > 0));
    assert!(counters.accepted[1..].iter().all(|&times| times > 0));
}

#[test]
fn the_longest_recordings() {
    let mut counters = recordings::counters::Counters::default();
    let all = recordings::limits::ALL;
    none_of_recordings(recordings::limits::run(all, Mutant::None, &mut counters));
    assert_eq!(counters.recordings, all as u64);
    assert!(counters.events > 65_000 * all as u64);
}

#[test]
fn random_recordings() {
    let mut counters = recordings::counters::Counters::default();
    none_of_recordings(recordings::run(2, 120, Mutant::None, &mut counters));
    assert!(counters.accepted[1..].iter().all(|&times| times > 10));
    assert!(counters.refused[4..].iter().all(|&times| times > 0));
    assert!(counters.events > 5000);
}
