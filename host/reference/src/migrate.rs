//! The migration step, and all steps after an event.

use crate::machine::{level_of_prio, Machine};
use crate::mutant::Mutant;
use crate::tables::{cpus_of, ENTRIES};
use std::cmp::Reverse;

#[derive(Clone, Copy, Debug, PartialEq, Eq)]
pub(crate) struct Step {
    pub task: u16,
    pub from: usize,
    pub to: usize,
    /// "the level of the destination before the move"
    pub level: u8,
}

/// "Then migration steps are taken until none applies." The steps, in order.
pub(crate) fn settle(machine: &mut Machine, m: Mutant) -> Vec<Step> {
    let mut steps = Vec::new();
    while let Some(mut step) = next_step(machine, m) {
        if m == Mutant::OneStepOnly && steps.len() == 1 {
            break;
        }
        if steps.len() == ENTRIES {
            assert!(m != Mutant::None, "more steps than the log has entries");
            break;
        }
        take(machine, step, m);
        if m == Mutant::LogLevelAfterMove {
            step.level = machine.levels(&machine.rows(), m)[step.to];
        }
        steps.push(step);
    }
    steps
}

/// "settled (no task movable)"
pub(crate) fn settled(machine: &Machine) -> bool {
    next_step(machine, Mutant::None).is_none()
}

/// "The mover leaves its row and enters the destination's [...] Slices are kept."
fn take(machine: &mut Machine, step: Step, m: Mutant) {
    machine.enter(step.task, step.to);
    if m == Mutant::MoverSliceRefilled {
        machine.refill(step.task);
    }
}

/// "The mover is the movable task of highest priority; among equals the one waiting on the lowest-numbered CPU;
/// among those the earliest in the row."
fn next_step(machine: &Machine, m: Mutant) -> Option<Step> {
    let rows = machine.rows();
    let levels = match m {
        Mutant::OfflineReceives => machine.levels(&rows, Mutant::OfflineAtFlag),
        _ => machine.levels(&rows, m),
    };
    let mut movable = Vec::new();
    for (cpu, row) in rows.iter().enumerate() {
        let running = usize::from(m != Mutant::RunningMoves);
        for (place, &id) in row.iter().enumerate().skip(running) {
            let behind = m == Mutant::OnlyFirstWaiter && place > 1;
            if !behind && !below(machine, &levels, id, cpu, m).is_empty() {
                movable.push((sort_key(machine.tasks[&id].prio, cpu, place, m), id, cpu));
            }
        }
    }
    let (_, task, from) = movable.into_iter().min()?;
    let to = destination(&levels, below(machine, &levels, task, from, m), m);
    let level = match m {
        Mutant::LogLevelOfOrigin => levels[from],
        _ => levels[to],
    };
    Some(Step {
        task,
        from,
        to,
        level,
    })
}

/// The smallest is the mover.
fn sort_key(prio: u8, cpu: usize, place: usize, m: Mutant) -> (Reverse<i64>, i64, i64) {
    let (prio, cpu, place) = (i64::from(prio), cpu as i64, place as i64);
    match m {
        Mutant::LowestMoverFirst => (Reverse(-prio), cpu, place),
        Mutant::MoverHighestCpu => (Reverse(prio), -cpu, place),
        Mutant::MoverLastInRow => (Reverse(prio), cpu, -place),
        _ => (Reverse(prio), cpu, place),
    }
}

/// "A task is movable if it waits and some allowed CPU has a level below the task's level": those CPUs, of the online ones.
fn below(machine: &Machine, levels: &[u8], id: u16, own: usize, m: Mutant) -> Vec<usize> {
    let task = &machine.tasks[&id];
    let level = level_of_prio(task.prio);
    let outranked = |c: &usize| match m {
        Mutant::EqualOutranks => levels[*c] <= level && *c != own,
        _ => levels[*c] < level,
    };
    let allowed = match m {
        Mutant::OfflineReceives => cpus_of(task.mask),
        _ => machine.allowed(task.mask),
    };
    allowed.into_iter().filter(outranked).collect()
}

/// "of its allowed CPUs, one of the lowest level; among equals the lowest-numbered"
///
/// The lowest level of all allowed CPUs is also the lowest of those below the task.
fn destination(levels: &[u8], cpus: Vec<usize>, m: Mutant) -> usize {
    let key = |&c: &usize| match m {
        Mutant::FirstCpuBelow => (0, c as i64),
        Mutant::DestinationHighest => (levels[c], -(c as i64)),
        _ => (levels[c], c as i64),
    };
    cpus.into_iter().min_by_key(key).expect("a movable task")
}
