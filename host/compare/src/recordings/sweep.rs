//! Part of mode replay that leaves nothing to chance: every wrong length, first records and stamps about all their limits, each
//! cut of a recording, each kind that stops one, and each byte of one changed to each value.

use super::case::{Case, Failure, Held, TIMES};
use super::counters::Counters;
use super::generate::{night, unplugging};
use super::origin;
use super::write::{divide, first, record};
use crate::damage::three_of_four;
use crate::generate::Style;
use crate::rng::Rng;
use crate::tables::len;
use binding::{Event, Tables, CPUS, TASKS};
use reference::Mutant;

/// How much of it is run.
#[derive(Clone, Copy)]
pub struct Extent {
    /// Events of the recording that is cut, and of all its cuts one in so many.
    pub events: usize,
    pub cut_step: usize,
    /// Of all first kinds and N that are far from a limit, and of all slices, stamps and changed bytes, one in so many.
    pub step: usize,
}

pub fn run(extent: Extent, mutant: Mutant, counters: &mut Counters) -> Option<Failure> {
    lengths(mutant, counters)
        .or_else(|| firsts(extent.step, mutant, counters))
        .or_else(|| slices(extent.step, mutant, counters))
        .or_else(|| cuts(extent, mutant, counters))
        .or_else(|| stops(mutant, counters))
        .or_else(|| stamps(extent.step, mutant, counters))
        .or_else(|| changes(extent.step, mutant, counters))
}

fn all(
    cases: impl IntoIterator<Item = Case>,
    mutant: Mutant,
    counters: &mut Counters,
) -> Option<Failure> {
    let mut cases = cases.into_iter();
    cases.find_map(|case| case.run_counted(origin(None, mutant), counters))
}

/// Task 0, RR, is added and wakes, and a tick is on its CPU.
fn short() -> Vec<u8> {
    let add = record(10, Event::new(1, 0, 2, 50, 1));
    let wake = record(20, Event::new(3, 0, 0, 0, 0));
    let tick = record(30, Event::new(7, 0, 0, 0, 0));
    [add, wake, tick].concat()
}

/// Each table and the times of each wrong length, and rows, counts and flags of other CPUs than 64 together, with recordings
/// that are whole, cut and stopped.
fn lengths(mutant: Mutant, counters: &mut Counters) -> Option<Failure> {
    let good = Tables::zeroed(CPUS);
    let mut resized = Vec::new();
    for table in 0..=TIMES {
        let right = if table == TIMES {
            CPUS
        } else {
            len(&good, table)
        };
        let others = [0, 1, 2, right - 1, right + 1, right / 2, 2 * right];
        let others = others
            .into_iter()
            .chain([three_of_four(right), right + 512]);
        let wrong = others.filter(|&other| other != right);
        resized.extend(wrong.map(|other| vec![(table, other)]));
    }
    for n in [0, 1, 2, 3, 63, 65, 128] {
        resized.push(vec![(6, TASKS * n), (7, n), (8, n)]);
    }
    let recordings = [
        [first(2, None), short()].concat(),
        [first(63, Some(7)), short(), vec![7]].concat(),
        vec![0, 65],
    ];
    let cases = resized.iter().flat_map(|resized| {
        recordings
            .iter()
            .zip(Held::ALL.iter().cycle())
            .map(|(bytes, &held)| Case {
                bytes: bytes.clone(),
                held,
                resized: resized.clone(),
            })
    });
    all(cases, mutant, counters)
}

/// First kinds alone and with events behind them; each N with kinds that are first ones and some that are not, and with slices
/// that are cut, in range and out of it.
fn firsts(step: usize, mutant: Mutant, counters: &mut Counters) -> Option<Failure> {
    let mut recordings = vec![vec![]];
    for kind in (0..=16).chain((17..=255).step_by(step)) {
        recordings.push(vec![kind]);
        recordings.push([vec![kind, 1, 1, 0], short()].concat());
    }
    for n in (0..=66).chain((67..=255).step_by(step)) {
        recordings.push([vec![0, n], short()].concat());
        recordings.extend([0, 7, 11, 12, 13].map(|kind| vec![kind, n]));
        recordings.push(vec![12, n, 1]);
        for slice in [0, 1, 1000, 1001] {
            recordings.push([first(n, Some(slice)), short()].concat());
        }
    }
    let cases = recordings.into_iter().zip(Held::ALL.iter().cycle());
    let cases = cases.map(|(bytes, &held)| Case {
        held,
        ..Case::of(bytes)
    });
    all(cases, mutant, counters)
}

/// Slices about the limits, and of all others one in `step` times 16.
fn slices(step: usize, mutant: Mutant, counters: &mut Counters) -> Option<Failure> {
    const EDGES: [u16; 16] = [
        0, 1, 2, 25, 99, 100, 255, 256, 257, 512, 999, 1000, 1001, 1024, 1256, 65535,
    ];
    let others = (0..=u16::MAX).step_by(16 * step);
    let cases = EDGES.into_iter().chain(others);
    let cases = cases.map(|slice| Case::of([first(1, Some(slice)), short()].concat()));
    all(cases, mutant, counters)
}

/// K5, whose last event has two moves.
fn k5() -> Vec<Event> {
    let tasks = [(30, 3), (20, 6), (10, 4), (40, 1)];
    let add = |(who, (prio, mask)): (u32, (u32, u64))| Event::new(1, who, 1, prio, mask);
    let wake = |who| Event::new(3, who, 0, 0, 0);
    let adds = (500..).zip(tasks).map(add);
    adds.chain((500..504).map(wake)).collect()
}

/// The cuts of a recording in which CPUs go and come back, then K5, and then other events.
fn cuts(extent: Extent, mutant: Mutant, counters: &mut Counters) -> Option<Failure> {
    let mut rng = Rng::for_case(3, 0);
    let mut style = Style::random(&mut rng);
    style.n = 3;
    let mut whole = night(&mut rng, &style, extent.events);
    let opening = unplugging(style.n).into_iter().chain(k5());
    let opening = opening.map(|e| record(5, e));
    let behind_first = divide(&whole)[0].len();
    whole.splice(behind_first..behind_first, opening.flatten());
    let lengths = (0..=whole.len()).rev().step_by(extent.cut_step);
    let cases = lengths.map(|length| Case::of(whole[..length].to_vec()));
    all(cases, mutant, counters)
}

/// Stamps about the limits, each with each: a task runs, a tick is accepted and the last one refused.
fn stamps(step: usize, mutant: Mutant, counters: &mut Counters) -> Option<Failure> {
    const STAMPS: [u32; 9] = [
        0,
        1,
        2,
        1 << 24,
        (1 << 31) - 1,
        1 << 31,
        (1 << 31) + 1,
        u32::MAX - 1,
        u32::MAX,
    ];
    let many = STAMPS.len();
    let cases = (0..many.pow(4)).step_by(step).map(|code| {
        let stamp = |i: u32| STAMPS[code / many.pow(i) % many];
        let events = [
            record(stamp(0), Event::new(1, 0, 1, 50, 1)),
            record(stamp(1), Event::new(3, 0, 0, 0, 0)),
            record(stamp(2), Event::new(7, 0, 0, 0, 0)),
            record(stamp(3), Event::new(7, 1, 0, 0, 0)),
        ];
        Case::of([first(1, None), events.concat()].concat())
    });
    all(cases, mutant, counters)
}

/// One event of each kind, and a few more that give them something to do.
fn each_kind() -> Vec<u8> {
    let events = [
        Event::new(9, 1, 0, 1, 0),
        Event::new(1, 0, 2, 50, 3),
        Event::new(1, 258, 1, 40, 3),
        Event::new(3, 0, 0, 0, 0),
        Event::new(3, 258, 0, 0, 0),
        Event::new(5, 0, 0, 40, 0),
        Event::new(6, 258, 0, 0, 1),
        Event::new(7, 0, 0, 0, 0),
        Event::new(8, 0, 0, 0, 0),
        Event::new(10, 1, 0, 0, 0),
        Event::new(11, 1, 0, 0, 0),
        Event::new(4, 0, 0, 0, 0),
        Event::new(2, 0, 0, 0, 0),
    ];
    let stamped = events.iter().zip(1..);
    let records = stamped.map(|(&e, i): (_, u32)| record(i << 20, e));
    records.flatten().collect()
}

/// Each kind as the last byte behind a recording of some events; 0, 12 and some others behind each of its records, and with
/// bytes behind them.
fn stops(mutant: Mutant, counters: &mut Counters) -> Option<Failure> {
    let whole = [first(2, None), each_kind()].concat();
    let records = divide(&whole);
    let last = (0..=255).map(|kind| [&whole[..], &[kind]].concat());
    let mut recordings: Vec<Vec<u8>> = last.collect();
    for some in 1..=records.len() {
        let before = records[..some].concat();
        for kind in [0, 12, 13, 14, 128, 255] {
            for behind in [&[][..], &[1], &[1, 1, 0], &whole] {
                recordings.push([&before, &[kind][..], behind].concat());
            }
        }
    }
    all(recordings.into_iter().map(Case::of), mutant, counters)
}

/// Each byte of a short recording changed to each value, of all these one in `step`.
fn changes(step: usize, mutant: Mutant, counters: &mut Counters) -> Option<Failure> {
    let whole = [first(2, Some(2)), each_kind()].concat();
    let cases = (0..256 * whole.len()).step_by(step).map(|code| {
        let mut bytes = whole.clone();
        bytes[code / 256] = (code % 256) as u8;
        Case::of(bytes)
    });
    all(cases, mutant, counters)
}

#[cfg(test)]
mod tests {
    use super::*;

    #[test]
    fn all_events_of_the_short_recordings_are_accepted() {
        for events in [short(), each_kind()] {
            let case = Case::of([first(2, Some(2)), events].concat());
            let Ok(agreed) = case.run(Mutant::None) else {
                panic!("the sides differ");
            };
            assert_eq!((agreed.report.ending, agreed.report.refused), (0, 0));
            assert!(!agreed.events.is_empty());
        }
    }

    #[test]
    fn the_tables_with_a_length_are_known_by_number() {
        let good = Tables::zeroed(CPUS);
        assert_eq!(len(&good, 6), TASKS * CPUS);
        assert_eq!([len(&good, 7), len(&good, 8)], [CPUS; 2]);
    }
}
