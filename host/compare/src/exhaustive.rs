//! Mode exhaustive: every event on every machine of a small size, and on every machine that events lead to.

use crate::call::Call;
use crate::case::{Case, Failure, Origin};
use crate::counters::Counters;
use crate::damage::Damage;
use crate::generate::full;
use crate::pair::Pair;
use crate::plan::Plan;
use crate::universe::Size;
use binding::{INVALID, SLICE_DEFAULT};
use reference::Mutant;
use std::collections::HashSet;
use std::fmt;

/// Every well-formed machine of these sizes, settled or not, with every event. One has rows that are long enough for a task
/// that gets another priority to stand anywhere among higher ones, equals and lower ones. Full slices are short, so that
/// ticks end them.
pub const ALL_QUICK: &[Size] = &[
    Size::new(1, 2, &[1, 99], &[1, 2], 2).hotplug(),
    Size::new(2, 2, &[40, 50], &[2], 1),
    Size::new(1, 4, &[30, 40, 50], &[2], 1).crowded(),
    Size::new(2, 2, &[40], &[2], 1).hotplug(),
    Size::new(3, 2, &[40, 50], &[1], 1).crowded().hotplug(),
];

pub const ALL_FULL: &[Size] = &[
    Size::new(1, 3, &[1, 99], &[2], 2).hotplug(),
    Size::new(2, 2, &[40, 50], &[1, 2], 1).hotplug(),
    Size::new(3, 3, &[40, 50], &[1], 1).crowded().hotplug(),
];

/// Every machine that events lead to from the fresh one.
pub const REACH_QUICK: &[Size] = &[
    Size::new(1, 2, &[10, 20], &[1, 2], 3),
    Size::new(2, 2, &[10, 20], &[1], 1),
    Size::new(2, 1, &[10, 20], &[2], 2).hotplug(),
];

pub const REACH_FULL: &[Size] = &[
    Size::new(1, 3, &[10, 20], &[2], 1),
    Size::new(2, 2, &[10, 20, 30], &[2], 1).hotplug(),
    Size::new(2, 3, &[10, 20], &[1], 1),
];

/// Every machine that wakes, sleeps, ticks and yields lead to, from any priorities and masks; in some sizes also CPUs that go
/// offline and come back.
pub const RUN_QUICK: &[Size] = &[
    Size::new(2, 3, &[10, 20, 30], &[1], 1),
    Size::new(3, 3, &[10, 20], &[2], 1),
    Size::new(2, 2, &[10, 20], &[1, 2], 1).hotplug(),
];

pub const RUN_FULL: &[Size] = &[
    Size::new(3, 3, &[10, 20, 30], &[2], 1),
    Size::new(2, 3, &[10, 20, 30], &[1], 1).hotplug(),
    Size::new(3, 3, &[10, 20], &[1], 1).hotplug(),
];

/// How far a search came.
pub struct Reached {
    pub machines: usize,
    /// Every machine that so many events lead to had every event tried on it.
    pub depth: usize,
    /// No machine was left.
    pub whole: bool,
}

impl fmt::Display for Reached {
    fn fmt(&self, f: &mut fmt::Formatter) -> fmt::Result {
        let whole = if self.whole { "all" } else { "not all" };
        let (machines, depth) = (self.machines, self.depth);
        write!(f, "reaches {machines} machines, {whole}, depth {depth}")
    }
}

/// Every event on one machine; gives the machines that follow to `next`.
fn every_event(
    plan: &Plan,
    calls: &[Call],
    mutant: Mutant,
    counters: &mut Counters,
    next: &mut impl FnMut(Plan),
) -> Option<Failure> {
    let start = Pair::new(plan.tables(), mutant);
    counters.cases += 1;
    let mut pair = start.clone();
    for &call in calls.iter().filter(|call| tells(plan, call)) {
        match pair.call(call) {
            Ok(agreed) => {
                counters.count(call, agreed);
                // A refused call has left the pair as it was.
                if agreed.answer.number == 0 {
                    next(Plan::read(&pair.ours));
                    pair = start.clone();
                }
            }
            Err(difference) => {
                let case = Case {
                    plan: plan.clone(),
                    damage: Vec::new(),
                    calls: vec![call],
                };
                return Some(origin(mutant).failure(case, counters, difference));
            }
        }
    }
    None
}

fn origin(mutant: Mutant) -> Origin {
    Origin {
        mode: "exhaustive",
        from: None,
        mutant,
    }
}

/// Whether a call can show something that another of the same machine does not: an add to a place in use, and a
/// mask or priority for a free one, are refused whatever their other numbers are, so one of each will do.
fn tells(plan: &Plan, call: &Call) -> bool {
    let Call::Event(e) = call else {
        return true;
    };
    let used = plan.tasks.iter().any(|task| u32::from(task.id) == e.who);
    match e.kind {
        1 => !used || e.mask == 1,
        5 => used || e.b == 100,
        6 => used || e.mask == 1,
        _ => true,
    }
}

fn calls_of(size: &Size) -> Vec<Call> {
    size.events().into_iter().map(Call::Event).collect()
}

/// Every event on every well-formed machine of the size; how many machines there are.
pub fn all(size: &Size, mutant: Mutant, counters: &mut Counters) -> Result<usize, Box<Failure>> {
    let calls = calls_of(size);
    let machines = size.machines();
    for plan in &machines {
        if let Some(failure) = every_event(plan, &calls, mutant, counters, &mut |_| ()) {
            return Err(Box::new(failure));
        }
    }
    Ok(machines.len())
}

/// Every event, from the fresh machine, until no machine is new or so many calls have been compared.
pub fn reach(
    size: &Size,
    limit: u64,
    mutant: Mutant,
    counters: &mut Counters,
) -> Result<Reached, Box<Failure>> {
    search(vec![size.empty()], &calls_of(size), limit, mutant, counters)
}

/// Every wake, sleep, tick and yield, and where CPUs go and come back these events too, from every setting of the size, until
/// no machine is new or so many calls have been compared.
pub fn run_on(
    size: &Size,
    limit: u64,
    mutant: Mutant,
    counters: &mut Counters,
) -> Result<Reached, Box<Failure>> {
    let runs =
        |call: &Call| matches!(call, Call::Event(e) if matches!(e.kind, 3 | 4 | 7 | 8 | 10 | 11));
    let calls: Vec<Call> = calls_of(size).into_iter().filter(runs).collect();
    search(size.settings(), &calls, limit, mutant, counters)
}

/// The finder on every record of a few CPUs and levels, and on one of very many.
pub fn finder(mutant: Mutant, counters: &mut Counters) -> Option<Failure> {
    few_levels(mutant, counters).or_else(|| many_levels(mutant, counters))
}

/// Calls on a machine without a task, in whose record the CPUs are at these levels.
fn at_levels(levels: &[u8], calls: Vec<Call>) -> Case {
    let relevel = |(cpu, &level): (usize, &u8)| Damage::Relevel { cpu, level };
    Case {
        plan: Plan::empty(levels.len(), SLICE_DEFAULT),
        damage: levels.iter().enumerate().map(relevel).collect(),
        calls,
    }
}

/// The finder with every level and every mask, on every record of up to three CPUs with these levels, or INVALID.
fn few_levels(mutant: Mutant, counters: &mut Counters) -> Option<Failure> {
    const LEVELS: [u8; 6] = [0, 1, 63, 64, 101, INVALID];
    for n in 1..=3u32 {
        let masks = |level| (0..=full(n as usize) + 1).map(move |mask| Call::Find(level, mask));
        let calls: Vec<Call> = (0..=103).flat_map(masks).collect();
        for code in 0..LEVELS.len().pow(n) {
            let level = |cpu: u32| LEVELS[code / LEVELS.len().pow(cpu) % LEVELS.len()];
            let levels: Vec<u8> = (0..n).map(level).collect();
            let case = at_levels(&levels, calls.clone());
            if let Some(failure) = case.run_counted(origin(mutant), counters) {
                return Some(failure);
            }
        }
    }
    None
}

/// The finder with every level and each CPU alone, on a record of 64 CPUs at as many levels: it reads any number of masks, up to
/// all 64 if it finds a level, and 63 if not.
fn many_levels(mutant: Mutant, counters: &mut Counters) -> Option<Failure> {
    let levels: Vec<u8> = (37..=100).collect();
    let alone = |level| (0..64).map(move |cpu| Call::Find(level, 1 << cpu));
    let calls = (0..=101).flat_map(alone).collect();
    at_levels(&levels, calls).run_counted(origin(mutant), counters)
}

/// Breadth first.
fn search(
    starts: Vec<Plan>,
    calls: &[Call],
    limit: u64,
    mutant: Mutant,
    counters: &mut Counters,
) -> Result<Reached, Box<Failure>> {
    let until = counters.calls + limit;
    let mut seen: HashSet<Plan> = starts.iter().cloned().collect();
    let mut layer = starts;
    let mut depth = 0;
    while !layer.is_empty() {
        let mut following = Vec::new();
        for plan in &layer {
            if counters.calls >= until {
                let machines = seen.len();
                return Ok(Reached {
                    machines,
                    depth,
                    whole: false,
                });
            }
            let mut next = |plan: Plan| {
                if !seen.contains(&plan) {
                    seen.insert(plan.clone());
                    following.push(plan);
                }
            };
            if let Some(failure) = every_event(plan, calls, mutant, counters, &mut next) {
                return Err(Box::new(failure));
            }
        }
        depth += 1;
        layer = following;
    }
    let machines = seen.len();
    Ok(Reached {
        machines,
        depth,
        whole: true,
    })
}
