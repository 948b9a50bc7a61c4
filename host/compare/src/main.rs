//! The program: runs the modes, prints what was done, and ends with 0 if everything agreed.

mod options;

use compare::call::Call;
use compare::case::Failure;
use compare::counters::Counters;
use compare::universe::Size;
use compare::vectors::Side;
use compare::{damaged, exhaustive, mutants, random, recordings, sweep, vectors};
use options::{parse, Options, HELP};
use std::fmt::Display;
use std::process::ExitCode;
use std::time::Instant;

/// The least number of times that each refusal, each kind of event, each way of a new priority among equals, each way with CPUs
/// offline, each way of the finder, ticks that refill with each of some full slices, and the inner event must have come up in all
/// modes together.
const LEAST: u64 = 1000;

/// The same of each kind of event and each refusal of one in recordings.
const LEAST_RECORDED: u64 = 300;

/// Calls of mode random in a quick run, and random recordings of mode replay.
const QUICK: u64 = 100_000;
const QUICK_RECORDINGS: u64 = 500;

/// Prints the failure, cut down.
fn report(failure: Option<Failure>) -> bool {
    agreed(failure.map(Failure::cut_down))
}

/// Prints what differs, if anything does.
fn agreed(failure: Option<impl Display>) -> bool {
    if let Some(failure) = &failure {
        println!("{failure}");
    }
    failure.is_none()
}

fn run_vectors(options: &Options) -> bool {
    let mut good = true;
    for (side, name) in [
        (Side::Ours, "the library"),
        (Side::Theirs(options.mutant), "the reference"),
    ] {
        for says in vectors::wrong(side) {
            println!("DIFFERENCE in mode vectors: {name}, {says}");
            good = false;
        }
    }
    println!(
        "vectors: K1 to K12 and the cases of requests L1, L3, L4, L7 and L8 on the library and on the reference"
    );
    good
}

fn run_random(options: &Options, counters: &mut Counters) -> bool {
    let calls = options
        .calls
        .unwrap_or(if options.quick { QUICK } else { 1_000_000 });
    report(match options.case {
        Some(case) => random::run_case(options.seed, case, options.mutant, counters),
        None => random::run(options.seed, calls, options.mutant, counters),
    })
}

fn run_damaged(options: &Options, counters: &mut Counters) -> bool {
    let calls = options
        .calls
        .unwrap_or(if options.quick { 60_000 } else { 300_000 });
    report(match options.case {
        Some(case) => damaged::run_case(options.seed, case, options.mutant, counters),
        None => sweep::run(options.step, options.mutant, counters)
            .or_else(|| damaged::run(options.seed, calls, options.mutant, counters)),
    })
}

fn size_words(size: &Size) -> String {
    let Size {
        n,
        tasks,
        prios,
        policies,
        full_slice,
        crowded,
        hotplug,
    } = size;
    let crowded = if *crowded { ", all runnable" } else { "" };
    let hotplug = if *hotplug { ", CPUs go offline" } else { "" };
    format!("N={n} tasks={tasks} prios={prios:?} policies={policies:?} full slice {full_slice} all masks{crowded}{hotplug}")
}

/// The sizes of the run: the quick ones, and in a full run the others too.
fn sizes(options: &Options, quick: &[Size], full: &[Size]) -> Vec<Size> {
    match options.quick {
        true => quick.to_vec(),
        false => [quick, full].concat(),
    }
}

fn run_exhaustive(options: &Options, counters: &mut Counters) -> bool {
    use exhaustive::*;
    let limit = options.calls.unwrap_or(u64::MAX / 2);
    let m = options.mutant;
    for size in &sizes(options, ALL_QUICK, ALL_FULL) {
        match all(size, m, counters) {
            Err(failure) => return report(Some(*failure)),
            Ok(machines) => println!("  all {machines} machines: {}", size_words(size)),
        }
    }
    for size in &sizes(options, REACH_QUICK, REACH_FULL) {
        match reach(size, limit, m, counters) {
            Err(failure) => return report(Some(*failure)),
            Ok(reached) => println!("  every event {reached}: {}", size_words(size)),
        }
    }
    for size in &sizes(options, RUN_QUICK, RUN_FULL) {
        match run_on(size, limit, m, counters) {
            Err(failure) => return report(Some(*failure)),
            Ok(reached) => println!("  wake, sleep, tick, yield {reached}: {}", size_words(size)),
        }
    }
    report(finder(m, counters))
}

/// The sweep, the longest recordings, and random ones.
fn run_replay(options: &Options, counters: &mut recordings::counters::Counters) -> bool {
    let (seed, m) = (options.seed, options.mutant);
    let (events, step, longest, many) = match options.quick {
        true => (100, 8 * options.step, 4, QUICK_RECORDINGS),
        false => (400, options.step, recordings::limits::ALL, 20_000),
    };
    let extent = recordings::sweep::Extent {
        events,
        cut_step: options.step,
        step,
    };
    let many = options.recordings.unwrap_or(many);
    let failure = match options.case {
        Some(case) => recordings::run_case(seed, case, m, counters),
        None => recordings::sweep::run(extent, m, counters)
            .or_else(|| match options.step {
                1 => recordings::limits::run(longest, m, counters),
                _ => None,
            })
            .or_else(|| recordings::run(seed, many, m, counters)),
    };
    agreed(failure.map(recordings::case::Failure::cut_down))
}

fn first_call(failure: &Option<Failure>) -> String {
    match failure {
        None => String::from("-"),
        Some(failure) => {
            let entry = match failure.case.calls.last() {
                Some(Call::Event(e)) => format!("kind {}", e.kind),
                Some(Call::Find(..)) => String::from("find"),
                Some(call) => call.to_string(),
                None => String::from("no call"),
            };
            format!("call {} ({entry})", failure.calls)
        }
    }
}

/// The names of the examples, which stand before what is said of them.
fn names(examples: &[String]) -> String {
    let names: Vec<&str> = examples
        .iter()
        .filter_map(|s| s.split(' ').next())
        .collect();
    match names.is_empty() {
        true => String::from("-"),
        false => names.join(" "),
    }
}

fn found_word(found: bool) -> &'static str {
    if found {
        "found"
    } else {
        "SURVIVES"
    }
}

fn say_hunt(hunt: &mutants::Hunt) {
    println!(
        "  {} {:?}: random {}, damaged {}{}, examples {} | {}",
        found_word(hunt.found()),
        hunt.mutant,
        first_call(&hunt.random),
        first_call(&hunt.damaged),
        match &hunt.sweep {
            None => String::new(),
            some => format!(", sweep {}", first_call(some)),
        },
        names(&hunt.examples),
        hunt.mutant.says()
    );
}

fn say_replay_hunt(hunt: &mutants::ReplayHunt) {
    println!(
        "  {} {:?}: replay {}, examples {} | {}",
        found_word(hunt.failure.is_some()),
        hunt.mutant,
        match &hunt.failure {
            None => String::from("-"),
            Some(failure) => format!("recording {}", failure.recordings),
        },
        names(&hunt.examples),
        hunt.mutant.says()
    );
}

fn run_mutants(options: &Options) -> bool {
    let (calls, recordings) = match options.quick {
        true => (10_000, 100),
        false => (30_000, 300),
    };
    let hunts = mutants::hunt_all(options.seed, calls);
    hunts.iter().for_each(say_hunt);
    let replay_hunts = mutants::hunt_all_in_replay(options.seed, recordings);
    replay_hunts.iter().for_each(say_replay_hunt);
    let found = hunts.iter().filter(|hunt| hunt.found()).count();
    let in_replay = replay_hunts.iter().filter(|hunt| hunt.failure.is_some());
    let (found, all) = (found + in_replay.count(), hunts.len() + replay_hunts.len());
    println!("mutants: {found} of {all} found");
    found == all
}

/// Runs a mode that counts, and says what it did.
fn counted(name: &str, total: &mut Counters, run: impl FnOnce(&mut Counters) -> bool) -> bool {
    let began = Instant::now();
    let mut counters = Counters::default();
    let good = run(&mut counters);
    let seconds = began.elapsed().as_secs_f64();
    let speed = counters.calls as f64 / seconds;
    println!("{name}: {seconds:.1} s, {speed:.0} calls a second");
    print!("{counters}");
    total.add(&counters);
    good
}

/// The same of recordings.
fn counted_replay(options: &Options, counters: &mut recordings::counters::Counters) -> bool {
    let began = Instant::now();
    let good = run_replay(options, counters);
    let seconds = began.elapsed().as_secs_f64();
    let speed = counters.events as f64 / seconds;
    println!("replay: {seconds:.1} s, {speed:.0} events a second");
    print!("{counters}");
    good
}

fn run(options: &Options) -> bool {
    let mut total = Counters::default();
    let mut replayed = recordings::counters::Counters::default();
    let has = |mode: &str| options.mode == mode || options.mode == "all";
    let mut good = true;
    if has("vectors") {
        good &= run_vectors(options);
    }
    if has("random") {
        good &= counted("random", &mut total, |counters| {
            run_random(options, counters)
        });
    }
    if has("damaged") {
        good &= counted("damaged", &mut total, |counters| {
            run_damaged(options, counters)
        });
    }
    if has("exhaustive") {
        good &= counted("exhaustive", &mut total, |counters| {
            run_exhaustive(options, counters)
        });
    }
    if has("replay") {
        good &= counted_replay(options, &mut replayed);
    }
    if has("mutants") {
        good &= run_mutants(options);
    }
    // A run that is asked to be shorter than the quick one is not asked for this.
    let shorter = options.calls.is_some_and(|calls| calls < QUICK)
        || options
            .recordings
            .is_some_and(|many| many < QUICK_RECORDINGS)
        || options.step > 1;
    if options.mode == "all" && !shorter {
        good &= enough(&total, &replayed);
    }
    say_end(good, &total, &replayed, options.seed);
    good
}

fn say_end(good: bool, total: &Counters, replayed: &recordings::counters::Counters, seed: u64) {
    let word = if good { "all agree" } else { "NOT all agree" };
    println!(
        "compare: {word}, {} calls compared, and {} of the inner event; {} recordings of {} events; seed {seed}",
        total.calls,
        total.inner + total.settled,
        replayed.recordings,
        replayed.events,
    );
}

fn enough(total: &Counters, replayed: &recordings::counters::Counters) -> bool {
    let called = total.reached(LEAST);
    let called = called.map_err(|says| format!("{says}, {LEAST} are asked for"));
    let reached = called.and(replayed.reached(LEAST_RECORDED));
    match &reached {
        Ok(()) => println!(
            "each refusal, each kind of event, each way of a new priority among equals, with CPUs offline, of the \
             finder and with full slices and the inner event came up at least {LEAST} times; in recordings each \
             refusal and kind {LEAST_RECORDED} times, and each way of a recording often enough"
        ),
        Err(says) => println!("TOO FEW: {says}"),
    }
    reached.is_ok()
}

fn main() -> ExitCode {
    match parse(std::env::args().skip(1)) {
        Ok(None) => {
            println!("{HELP}");
            ExitCode::SUCCESS
        }
        Ok(Some(options)) if run(&options) => ExitCode::SUCCESS,
        Ok(Some(_)) => ExitCode::from(1),
        Err(says) => {
            eprintln!("compare: {says}\n\n{HELP}");
            ExitCode::from(2)
        }
    }
}
