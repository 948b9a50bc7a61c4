//! Part of mode damaged that leaves nothing to chance: every wrong length, full slices and online masks about all their limits,
//! every single number of every table, and the numbers of events about all their limits, each with each.

use crate::call::Call;
use crate::case::{Case, Failure};
use crate::counters::Counters;
use crate::damage::{three_of_four, Damage};
use crate::damaged::origin;
use crate::events;
use crate::generate::{full, Style};
use crate::plan::{Plan, TaskPlan};
use crate::rng::Rng;
use crate::tables::{get, len, COUNT, LENT, ONLINE, SLICE};
use binding::{Event, Tables, SLICE_DEFAULT};
use reference::Mutant;

/// All lengths, and of the machines with all full slices and online masks, of the changed numbers and of the events one in
/// `step`.
pub fn run(step: usize, mutant: Mutant, counters: &mut Counters) -> Option<Failure> {
    every_length(mutant, counters)
        .or_else(|| every_slice(step, mutant, counters))
        .or_else(|| every_online(step, mutant, counters))
        .or_else(|| every_place(step, mutant, counters))
        .or_else(|| every_number(step, mutant, counters))
}

/// A task: what it is, and where.
fn task(
    id: u16,
    runnable: bool,
    (policy, prio): (u8, u8),
    cpu: u8,
    slice: u16,
    mask: u64,
) -> TaskPlan {
    TaskPlan {
        id,
        runnable,
        policy,
        prio,
        cpu,
        slice,
        mask,
    }
}

/// Four CPUs: one with waiting equals, one with ordinary work below its task, one empty with ordinary work, and one offline
/// with ordinary work; and sleepers, one of them on a CPU that it is not allowed, one on the offline CPU, which is its only
/// one. Slices from 1 to the full one.
fn machine(full_slice: u16) -> Plan {
    let left = |ticks: u16| ticks.min(full_slice);
    Plan {
        flags: 14,
        online: 7,
        tasks: vec![
            task(0, true, (2, 50), 0, 1, 1),
            task(1, true, (1, 50), 0, full_slice, 3),
            task(3, true, (1, 1), 0, left(2), 1),
            task(511, true, (2, 99), 1, left(7), 15),
            task(2, false, (1, 99), 3, full_slice, 8),
            task(510, false, (2, 1), 1, 1, 13),
        ],
        log: 40_000,
        ..Plan::empty(4, full_slice.into())
    }
}

/// Each table of each wrong length, and each wrong N, also such that 512 times it wraps around.
fn wrong_sizes() -> Vec<(Plan, Damage)> {
    let mut all = Vec::new();
    for n in [1, 2, 3, 63, 64] {
        let plan = Plan::empty(n, SLICE_DEFAULT);
        let good = plan.tables();
        for table in 0..LENT {
            let right = len(&good, table);
            let others = [
                0,
                1,
                right - 1,
                right + 1,
                right / 2,
                three_of_four(right),
                2 * right,
                right + 512,
            ];
            all.extend(others.map(|len| (plan.clone(), Damage::Resize { table, len })));
        }
        let wraps = (1usize << (usize::BITS - 9)) + n;
        let others = [
            0,
            1,
            2,
            63,
            64,
            65,
            66,
            512,
            wraps,
            usize::MAX / 512,
            usize::MAX,
        ];
        all.extend(others.map(|other| (plan.clone(), Damage::Cpus(other))));
    }
    all
}

/// Every entry on tables of wrong sizes.
fn every_length(mutant: Mutant, counters: &mut Counters) -> Option<Failure> {
    let mut rng = Rng::for_case(0, 0);
    wrong_sizes().into_iter().find_map(|(plan, damage)| {
        let style = Style::random(&mut rng);
        let event = events::plausible(&mut rng, &plan.tables(), &style, &[0, 511]);
        let calls = vec![
            Call::Check,
            Call::Event(event),
            Call::Find(101, 1),
            Call::MakeFresh,
            Call::MakeFreshDefault,
        ];
        let case = Case {
            plan,
            damage: vec![damage],
            calls,
        };
        case.run_counted(origin(None, mutant), counters)
    })
}

/// Full slices about the limits, in range and out of it, also such as are in range when cut to 8, 16 or 24 bits.
const FULL_SLICES: [u32; 27] = [
    0,
    1,
    2,
    24,
    25,
    26,
    59,
    60,
    61,
    99,
    100,
    101,
    999,
    1000,
    1001,
    1002,
    1025,
    65535,
    65536,
    65536 + 25,
    65536 + 1000,
    (1 << 24) + 25,
    1 << 31,
    (1 << 31) + 100,
    u32::MAX - 1000,
    u32::MAX - 25,
    u32::MAX,
];

/// Every N with each of these full slices, handed in with tables whose longest slice is at it, below it and above it.
fn every_slice(step: usize, mutant: Mutant, counters: &mut Counters) -> Option<Failure> {
    const LONGEST: [u16; 7] = [1, 2, 25, 60, 100, 999, 1000];
    for n in (1..=64).step_by(step) {
        let longest = LONGEST[n % LONGEST.len()];
        let plan = Plan {
            tasks: vec![
                task(0, true, (2, 50), 0, 1, 1),
                task(1, true, (1, 50), 0, longest, 1),
            ],
            ..Plan::empty(n, longest.into())
        };
        let failure = FULL_SLICES.into_iter().find_map(|full_slice| {
            let case = Case {
                plan: plan.clone(),
                damage: vec![Damage::FullSlice(full_slice)],
                calls: slice_calls(),
            };
            case.run_counted(origin(None, mutant), counters)
        });
        if failure.is_some() {
            return failure;
        }
    }
    None
}

/// Each entry, the events that use the full slice, and both makers, each with an add after it.
fn slice_calls() -> Vec<Call> {
    let add = |who| Call::Event(Event::new(1, who, 2, 50, 1));
    vec![
        Call::Check,
        Call::Find(101, 1),
        add(2),
        Call::Event(Event::new(7, 0, 0, 0, 0)),
        Call::MakeFresh,
        add(3),
        Call::MakeFreshDefault,
        add(4),
        Call::Check,
    ]
}

/// Online masks for N CPUs: right and wrong ones, about all their limits.
fn online_masks(n: usize) -> Vec<u64> {
    let all = full(n);
    let last = 1u64 << (n - 1);
    let past = 1u64.checked_shl(n as u32).unwrap_or(0);
    let mut masks = vec![0, 1, last, all, all ^ 1, all ^ last, all >> 1 | 1];
    masks.extend([past, all | past, 1 | past, 1 << 63, all | 1 << 63]);
    masks.extend([!all, u64::MAX, 1 | !all]);
    masks.sort_unstable();
    masks.dedup();
    masks
}

/// Few CPUs, about half and all with each of these online masks, in the word alone and with the levels that it makes, on a
/// machine without a task, on one with a sleeper and on one with running and waiting tasks.
fn every_online(step: usize, mutant: Mutant, counters: &mut Counters) -> Option<Failure> {
    const CPUS: [usize; 10] = [1, 2, 3, 4, 31, 32, 33, 62, 63, 64];
    for n in CPUS.into_iter().step_by(step) {
        let last = (n - 1) as u8;
        let row = vec![
            task(0, true, (2, 50), last, 1, full(n)),
            task(1, true, (1, 50), last, 1, 1 << last),
        ];
        for tasks in [vec![], vec![task(0, false, (1, 50), last, 1, full(n))], row] {
            let plan = Plan {
                flags: 1 << last,
                tasks,
                ..Plan::empty(n, SLICE_DEFAULT)
            };
            let damages = online_masks(n).into_iter().flat_map(|value| {
                let alone = Damage::Set {
                    table: ONLINE,
                    index: 0,
                    value,
                };
                [alone, Damage::Replug(value)]
            });
            let failure = damages.into_iter().find_map(|damage| {
                let case = Case {
                    plan: plan.clone(),
                    damage: vec![damage],
                    calls: online_calls(n as u32),
                };
                case.run_counted(origin(None, mutant), counters)
            });
            if failure.is_some() {
                return failure;
            }
        }
    }
    None
}

/// The check, the finder, a wake, and the first and the last CPU go and come back, where they may; then both makers.
fn online_calls(n: u32) -> Vec<Call> {
    let event = |kind, who| Call::Event(Event::new(kind, who, 0, 0, 0));
    let last = n - 1;
    vec![
        Call::Check,
        Call::Find(101, 1 << last),
        event(10, n),
        event(8, last),
        event(10, 0),
        event(10, last),
        event(3, 0),
        event(11, 0),
        event(11, last),
        Call::MakeFresh,
        Call::MakeFreshDefault,
    ]
}

/// Numbers near an old one and far from it; in the slice column also the full slice and one more. In tables of 64-bit words,
/// also each of the bits at some limits.
fn others(good: &Tables, table: usize, index: usize) -> Vec<u64> {
    let old = get(good, table, index);
    let mut all = vec![old.wrapping_add(1), old.wrapping_sub(1), old ^ 128];
    all.extend([0, 1, 2, 3, 100, 512, u64::MAX]);
    if table == SLICE {
        let full_slice = u64::from(good.full_slice);
        all.extend([full_slice, full_slice + 1]);
    }
    if [5, 10, 12, ONLINE].contains(&table) {
        all.extend([0, 2, 3, 4, 37, 38, 63].map(|bit| old ^ (1 << bit)));
    }
    all
}

/// Full slices that the machines have whose numbers are changed, in turn from place to place.
const IN_TURN: [u16; 4] = [1, 25, 100, 1000];

/// Each number of each table changed to others: which of the machines, and what is changed.
fn changes(good: &[Tables]) -> impl Iterator<Item = (usize, Damage)> + '_ {
    let places =
        (0..COUNT).flat_map(|table| (0..len(&good[0], table)).map(move |index| (table, index)));
    places.enumerate().flat_map(|(i, (table, index))| {
        let which = i % good.len();
        let values = others(&good[which], table, index).into_iter();
        values.map(move |value| {
            let damage = Damage::Set {
                table,
                index,
                value,
            };
            (which, damage)
        })
    })
}

fn every_place(step: usize, mutant: Mutant, counters: &mut Counters) -> Option<Failure> {
    let machines = IN_TURN.map(machine);
    let good = machines.each_ref().map(Plan::tables);
    let calls = vec![
        Call::Check,
        Call::Find(101, 15),
        Call::Event(Event::new(7, 0, 0, 0, 0)),
    ];
    let mut chosen = changes(&good).step_by(step);
    chosen.find_map(|(which, damage)| {
        let case = Case {
            plan: machines[which].clone(),
            damage: vec![damage],
            calls: calls.clone(),
        };
        case.run_counted(origin(None, mutant), counters)
    })
}

/// Each kind with each number about a limit: where several refusals apply, the order decides.
fn every_number(step: usize, mutant: Mutant, counters: &mut Counters) -> Option<Failure> {
    const KINDS: [u32; 15] = [0, 1, 2, 3, 4, 5, 6, 7, 8, 9, 10, 11, 12, 257, u32::MAX];
    const WHOS: [u32; 10] = [0, 1, 2, 3, 4, 511, 512, 513, 65536, u32::MAX];
    const POLICIES: [u32; 6] = [0, 1, 2, 3, 257, u32::MAX];
    const VALUES: [u32; 8] = [0, 1, 2, 50, 99, 100, 256 + 50, u32::MAX];
    const MASKS: [u64; 8] = [0, 1, 6, 8, 15, 16, 1 << 63, u64::MAX];
    let all = KINDS.len() * WHOS.len() * POLICIES.len() * VALUES.len() * MASKS.len();
    for code in (0..all).step_by(step) {
        let mut rest = code;
        let mut choose = |among: usize| {
            let chosen = rest % among;
            rest /= among;
            chosen
        };
        let e = Event {
            kind: KINDS[choose(KINDS.len())],
            who: WHOS[choose(WHOS.len())],
            a: POLICIES[choose(POLICIES.len())],
            b: VALUES[choose(VALUES.len())],
            mask: MASKS[choose(MASKS.len())],
        };
        let case = Case {
            plan: machine(SLICE_DEFAULT as u16),
            damage: Vec::new(),
            calls: vec![Call::Event(e)],
        };
        if let Some(failure) = case.run_counted(origin(None, mutant), counters) {
            return Some(failure);
        }
    }
    None
}

#[cfg(test)]
mod tests {
    use super::*;

    #[test]
    fn the_machine_is_well_formed() {
        for full_slice in IN_TURN {
            assert_eq!(machine(full_slice).tables().check(), 0);
        }
    }
}
