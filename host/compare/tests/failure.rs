//! A failure is cut down, can be had again, and says how; and the program's answers to the shell.

use compare::case::Failure;
use compare::counters::Counters;
use compare::{random, recordings};
use reference::Mutant;
use std::process::Command;

fn fails(mutant: Mutant) -> Failure {
    random::run(1, 20_000, mutant, &mut Counters::default()).expect("a difference")
}

#[test]
fn a_failure_comes_again_and_gets_small() {
    let failure = fails(Mutant::LowestMoverFirst);
    let (seed, case) = failure.origin.from.expect("a seed and a case");
    let again = random::run_case(seed, case, failure.origin.mutant, &mut Counters::default());
    assert_eq!(again.expect("again").difference, failure.difference);
    let small = failure.cut_down();
    assert!(small.case.run(Mutant::LowestMoverFirst).is_some());
    assert!(small.case.run(Mutant::None).is_none());
    let words = small.to_string();
    assert!(small.case.calls.len() <= 2, "{words}");
    assert!(small.case.plan.tasks.len() <= 5, "{words}");
    let command = format!("compare --seed {seed} --case {case} --mutant LowestMoverFirst random");
    assert!(words.contains(&command), "{words}");
}

#[test]
fn a_recording_comes_again_and_gets_small() {
    let mutant = Mutant::TimesByTasks;
    let counters = &mut recordings::counters::Counters::default();
    let failure = recordings::run(1, 100, mutant, counters).expect("a difference");
    let (seed, case) = failure.origin.from.expect("a seed and a case");
    let again = recordings::run_case(seed, case, mutant, counters).expect("again");
    assert_eq!(again.difference, failure.difference);
    let small = failure.cut_down();
    assert!(small.case.run(mutant).is_err());
    assert!(small.case.run(Mutant::None).is_ok());
    let words = small.to_string();
    // Two tasks are added and wake in one row, and an event follows; others may bring that about.
    assert!(small.case.bytes.len() < 200, "{words}");
    let command = format!("compare --seed {seed} --case {case} --mutant TimesByTasks replay");
    assert!(words.contains(&command), "{words}");
}

/// Of the longest recording too little could be left out, each time after a run of all of it.
#[test]
fn the_longest_recording_is_not_cut_down_for_long() {
    let counters = &mut recordings::counters::Counters::default();
    let failure = recordings::limits::run(1, Mutant::RecordsOneMore, counters);
    let words = failure.expect("a difference").cut_down().to_string();
    assert!(words.contains("and 65497 more"), "{words}");
}

#[test]
fn too_few_refusals_are_told() {
    let mut counters = Counters::default();
    assert!(random::run(1, 5_000, Mutant::None, &mut counters).is_none());
    let says = counters.reached(1).expect_err("no damaged tables yet");
    assert_eq!(says, "make_fresh refused with 1 only 0 times");
}

fn status(words: &[&str]) -> Option<i32> {
    let program = env!("CARGO_BIN_EXE_compare");
    let output = Command::new(program).args(words).output().expect("runs");
    output.status.code()
}

#[test]
fn the_program_ends_with_its_status() {
    assert_eq!(status(&["--help"]), Some(0));
    assert_eq!(status(&["vectors"]), Some(0));
    assert_eq!(status(&["--calls", "500", "random"]), Some(0));
    assert_eq!(status(&["--case", "7", "damaged"]), Some(0));
    assert_eq!(status(&["--case", "7", "replay"]), Some(0));
    let few = ["--quick", "--step", "50", "--recordings", "9", "replay"];
    assert_eq!(status(&few), Some(0));
    assert_eq!(
        status(&["--mutant", "LogSwapped", "--calls", "500", "random"]),
        Some(1)
    );
    assert_eq!(status(&["--mutant", "EqualOutranks", "vectors"]), Some(1));
    assert_eq!(status(&["--mutant", "EmptyWhole", "vectors"]), Some(1));
    assert_eq!(status(&["--mutant", "EmptyWhole", "replay"]), Some(1));
    assert_eq!(status(&["sometimes"]), Some(2));
    assert_eq!(status(&["--seed"]), Some(2));
    assert_eq!(status(&["--calls", "many", "random"]), Some(2));
    assert_eq!(status(&["--recordings", "many", "replay"]), Some(2));
    assert_eq!(status(&["--case", "7", "vectors"]), Some(2));
}
