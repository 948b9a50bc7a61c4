//! The replay of L1, "Replay a night": a recording's events on a fresh machine, in tables for 64 CPUs.

use crate::api::{event, make_fresh, Outcome};
use crate::mutant::Mutant;
use crate::recording::{stamp_of, Ending, First, Recorded, Recording};
use crate::tables::{Tables, CPUS, INVALID, NOTHING, TASKS};

/// What is reported besides the times, which stand in a table: how and where the recording ended, its N and full slice, "the
/// total of moves", and how many events were refused.
#[derive(Clone, Copy, Debug, PartialEq, Eq)]
pub struct Report {
    pub answer: u8,
    pub ending: Ending,
    pub place: usize,
    pub cpus: usize,
    pub full_slice: u32,
    pub moves: u64,
    pub refused: u32,
}

/// The report, and each event with what it gave.
#[derive(Clone, Debug, PartialEq, Eq)]
pub struct Replayed {
    pub report: Report,
    pub events: Vec<(Recorded, Outcome)>,
}

/// "On refusal 1 or without a good first record, N and all totals are 0 and tables and record stay as they were."
fn nothing(answer: u8, ending: Ending, place: usize) -> Replayed {
    let report = Report {
        answer,
        ending,
        place,
        cpus: 0,
        full_slice: 0,
        moves: 0,
        refused: 0,
    };
    let events = Vec::new();
    Replayed { report, events }
}

/// "Recordings from the radar nodes are to be replayed on a fresh machine, in tables lent for 64 CPUs (another length is
/// refused with 1)". The tables' own two numbers are not used.
pub fn replay(bytes: &[u8], t: &mut Tables, times: &mut [u64], m: Mutant) -> Replayed {
    let recording = Recording::read(bytes, m);
    if !lengths_right(t, times, &recording, m) {
        clear_refused(times, m);
        return match m {
            Mutant::RefusalReads => nothing(1, recording.ending, recording.place),
            _ => nothing(1, Ending::Stopped, 0),
        };
    }
    let given = times.to_vec();
    times.fill(0);
    let Some(first) = recording.first else {
        let mut replayed = nothing(0, recording.ending, 0);
        spoil_without_first(&mut replayed.report, bytes, t, m);
        if m == Mutant::NoFirstKeepsTimes {
            times.copy_from_slice(&given);
        }
        return replayed;
    };
    let empty = matches!(
        (m, recording.ending),
        (Mutant::StoppedGivesNothing, Ending::Stopped) | (Mutant::CutGivesNothing, Ending::Cut)
    );
    if empty {
        return nothing(0, recording.ending, recording.place);
    }
    let replayed = run(bytes, &recording, first, t, times, m);
    match m {
        Mutant::TimesPastKept => times[first.n..].copy_from_slice(&given[first.n..]),
        Mutant::TimesAdded => (0..CPUS).for_each(|c| times[c] = times[c].wrapping_add(given[c])),
        _ => (),
    }
    replayed
}

/// "in tables lent for 64 CPUs"; the times are one number for each.
fn lengths_right(t: &Tables, times: &[u64], recording: &Recording, m: Mutant) -> bool {
    let tables = match (m, recording.first) {
        (Mutant::TablesOfCpusPass, Some(first)) if t.lengths_right(first.n) => true,
        (Mutant::LongRowsPass, _) if t.counts.len() > CPUS => t.lengths_right(t.counts.len()),
        _ => t.lengths_right(CPUS),
    };
    tables && (times.len() == CPUS || m == Mutant::TimesLengthPasses && times.len() > CPUS)
}

/// On refusal 1 "all totals are 0", those of every place lent.
fn clear_refused(times: &mut [u64], m: Mutant) {
    let some = match m {
        Mutant::RefusalKeepsTimes => 0,
        Mutant::RefusalClearsSome => times.len().min(CPUS),
        _ => times.len(),
    };
    times[..some].fill(0);
}

/// The errors of a recording without a good first record. The paper's behaviour is to do nothing here.
fn spoil_without_first(report: &mut Report, bytes: &[u8], t: &mut Tables, m: Mutant) {
    match (m, bytes) {
        (Mutant::NoFirstWipesLog, _) => t.log.fill(NOTHING),
        (Mutant::NoFirstPlugs, _) => t.online = u64::MAX,
        (Mutant::NoFirstHasCpus, &[12, n @ 1..=64, _, _, ..]) => report.cpus = n.into(),
        (Mutant::NoFirstHasSlice, _) => report.full_slice = 100,
        _ => (),
    }
}

/// The events, one after the other, on a machine of its own; its tables are then put into those lent.
fn run(
    bytes: &[u8],
    recording: &Recording,
    first: First,
    t: &mut Tables,
    times: &mut [u64],
    m: Mutant,
) -> Replayed {
    let mut night = machine_of(t, first);
    make_fresh(&mut night, m);
    let mut events = Vec::new();
    let mut standing = vec![busy(&night, m)];
    for (i, &recorded) in recording.events.iter().enumerate() {
        if !skipped(i, &events, m) {
            let outcome = event(&mut night, recorded.event, m);
            events.push((recorded, outcome));
            standing.push(busy(&night, m));
        }
    }
    add_times(times, &events, &standing, m);
    if let (Mutant::CutStampCounts, Ending::Cut) = (m, recording.ending) {
        add_cut(times, &bytes[recording.place..], &events, &standing, m);
    }
    put_back(t, night, m);
    let report = Report {
        answer: 0,
        ending: recording.ending,
        place: recording.place,
        cpus: first.n,
        full_slice: first.full_slice,
        moves: moves(&events, m),
        refused: refused(&events, m),
    };
    Replayed { report, events }
}

/// The errors of leaving out an event, the one of this number after these. The paper's answer is no.
fn skipped(i: usize, before: &[(Recorded, Outcome)], m: Mutant) -> bool {
    match m {
        Mutant::BatchLosesEvent => i % 64 == 63,
        Mutant::RefusedEnds => before
            .last()
            .is_some_and(|(_, outcome)| outcome.answer != 0),
        _ => false,
    }
}

/// Tables of the recording's machine, with nothing sensible in them yet but what the lent ones hold for so many CPUs.
fn machine_of(t: &Tables, first: First) -> Tables {
    let n = first.n;
    Tables {
        n,
        full_slice: first.full_slice,
        rows: t.rows[..TASKS * n].to_vec(),
        counts: t.counts[..n].to_vec(),
        flags: t.flags[..n].to_vec(),
        state: t.state.clone(),
        policy: t.policy.clone(),
        prio: t.prio.clone(),
        cpu: t.cpu.clone(),
        slice: t.slice.clone(),
        mask: t.mask.clone(),
        online: t.online,
        log: t.log.clone(),
        level_masks: t.level_masks.clone(),
        level_counts: t.level_counts.clone(),
        level_words: t.level_words.clone(),
        levels: t.levels.clone(),
    }
}

/// "rows, counts and flags beyond the recording's N stay as they were"; all else is the machine's.
fn put_back(t: &mut Tables, night: Tables, m: Mutant) {
    let n = night.n;
    let mut lent = std::mem::replace(t, night);
    lent.rows[..TASKS * n].copy_from_slice(&t.rows);
    lent.counts[..n].copy_from_slice(&t.counts);
    lent.flags[..n].copy_from_slice(&t.flags);
    match m {
        Mutant::RowsPastCleared => lent.rows[TASKS * n..].fill(NOTHING),
        Mutant::CountsPastCleared => lent.counts[n..].fill(0),
        Mutant::FlagsPastCleared => lent.flags[n..].fill(0),
        _ => (),
    }
    (t.rows, t.counts, t.flags) = (lent.rows, lent.counts, lent.flags);
    (t.n, t.full_slice) = (lent.n, lent.full_slice);
}

/// For each CPU 1 if it has a real-time task, else 0. A flag is no task.
fn busy(t: &Tables, m: Mutant) -> Vec<u64> {
    let weight = |c: usize| match m {
        Mutant::OrdinaryTimed => u64::from(t.counts[c] > 0 || t.flags[c] == 1),
        Mutant::OfflineTimed => u64::from(t.counts[c] > 0 || t.levels[c] == INVALID),
        Mutant::TimesByTasks => t.counts[c].into(),
        _ => u64::from(t.counts[c] > 0),
    };
    (0..t.n).map(weight).collect()
}

/// "for each CPU, the time it had a real-time task (from the first event's stamp to the last one's)": between two events each
/// had one that had it after the first of them, or all night. `standing[i]` is how it was before event i.
fn add_times(times: &mut [u64], events: &[(Recorded, Outcome)], standing: &[Vec<u64>], m: Mutant) {
    let counts = |&i: &usize| m != Mutant::RefusedStampSkipped || events[i].1.answer == 0;
    let mut counted: Vec<usize> = (0..events.len()).filter(counts).collect();
    if m == Mutant::LastIntervalLost {
        counted.pop();
    }
    for pair in counted.windows(2) {
        let (from, to) = (pair[0], pair[1]);
        let between = match m {
            Mutant::BatchLosesInterval if to % 64 == 0 => 0,
            _ => difference(events[from].0.stamp, events[to].0.stamp, m),
        };
        let then = match m {
            Mutant::TimesAfterEvent => &standing[to + 1],
            _ => &standing[to],
        };
        add_weighted(times, then, between, m);
    }
    if let (Mutant::BeforeFirstTimed, Some((first, _))) = (m, events.first()) {
        add_weighted(times, &vec![1; standing[0].len()], first.stamp.into(), m);
    }
}

fn add_weighted(times: &mut [u64], weights: &[u64], between: u64, m: Mutant) {
    for (time, weight) in times.iter_mut().zip(weights) {
        *time += weight * between;
        if m == Mutant::TimesNarrow {
            *time %= 1 << 32;
        }
    }
}

/// "Stamps are 32 bits and run past the end to zero; the time between records is their difference modulo 2^32."
fn difference(from: u32, to: u32, m: Mutant) -> u64 {
    match m {
        Mutant::StampsSaturate => to.saturating_sub(from).into(),
        Mutant::StampsApart => to.abs_diff(from).into(),
        _ => to.wrapping_sub(from).into(),
    }
}

/// The error of a record that is cut, whose stamp is there.
fn add_cut(
    times: &mut [u64],
    rest: &[u8],
    events: &[(Recorded, Outcome)],
    standing: &[Vec<u64>],
    m: Mutant,
) {
    if let (Some((last, _)), Some(stamp)) = (events.last(), rest.get(1..5)) {
        let between = difference(last.stamp, stamp_of(stamp, m), m);
        add_weighted(times, &standing[events.len()], between, m);
    }
}

/// "the total of moves"
fn moves(events: &[(Recorded, Outcome)], m: Mutant) -> u64 {
    let counted = match m {
        Mutant::MovesOfLast => &events[events.len().saturating_sub(1)..],
        Mutant::BatchLosesMoves => &events[events.len().saturating_sub(1) / 64 * 64..],
        _ => events,
    };
    let of = |moves: u32| match m {
        Mutant::MovesOnce => u64::from(moves > 0),
        _ => u64::from(moves),
    };
    counted.iter().map(|(_, outcome)| of(outcome.moves)).sum()
}

/// "Refused events are counted and skipped"
fn refused(events: &[(Recorded, Outcome)], m: Mutant) -> u32 {
    let counted = |&&(_, outcome): &&(Recorded, Outcome)| outcome.answer != 0;
    match m {
        Mutant::RefusedUncounted => 0,
        _ => events.iter().filter(counted).count() as u32,
    }
}
