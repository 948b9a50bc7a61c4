//! The refusal numbers of an event: each a condition of its own, looked at in order.

use crate::mutant::Mutant;
use crate::tables::{allows, cpus_of, mask_right, Event, Tables, TASKS};
use crate::wellformed::well_formed;

/// "Checked in this order." The number of the first that applies, or 0.
pub(crate) fn refusal(t: &Tables, e: Event, m: Mutant) -> u8 {
    let mut order = [1, 2, 3, 4, 5, 6, 7, 8, 9, 10, 11, 12];
    match m {
        Mutant::KindBeforeForm => order.swap(1, 2),
        Mutant::NumberBeforeKind => order.swap(2, 3),
        Mutant::StateBeforeNumber => order.swap(3, 4),
        Mutant::PolicyBeforeState => order.swap(4, 5),
        Mutant::ValueBeforePolicy => order.swap(5, 6),
        Mutant::MaskBeforeValue => order.swap(6, 7),
        Mutant::NowhereBeforeMask => order.swap(7, 9),
        Mutant::LastBeforeNowhere => order.swap(9, 11),
        Mutant::LastWhichever => order.swap(10, 11),
        _ => (),
    }
    let first = order.into_iter().find(|&number| applies(number, t, e, m));
    first.unwrap_or(0)
}

/// "Given exactly when"
fn applies(number: u8, t: &Tables, e: Event, m: Mutant) -> bool {
    let unused = m == Mutant::UnusedChecked;
    match number {
        1 => wrong_size(t, m),
        2 => !well_formed(t, m),
        3 if m == Mutant::KindTwelvePasses => !(1..=12).contains(&e.kind),
        3 => !(1..=11).contains(&e.kind),
        4 => no_such_number(t, e, m),
        5 => wrong_state(t, e),
        6 => e.kind == 1 && !(e.a == 1 || e.a == 2),
        7 => wrong_value(e),
        8 => (matches!(e.kind, 1 | 6) || unused) && !mask_right(e.mask, t.n),
        9 => yields_nothing(t, e) && (m == Mutant::EmptyBeforeOffline || !wrong_side(t, e, m)),
        10 => nowhere(t, e, m),
        11 => wrong_side(t, e, m),
        12 => e.kind == 10 && last_online(t, e, m),
        _ => unreachable!("refusals are 1 to 12"),
    }
}

/// "N is 0 or over 64, or a lent table has another length than above"; of the full slice, "one out of range is refused with
/// 1"
pub(crate) fn wrong_size(t: &Tables, m: Mutant) -> bool {
    let wrong_slice = t.full_slice(m).is_none() && m != Mutant::FullSliceRefusedWithTwo;
    wrong_slice || !t.sizes_right()
}

/// "task number 512 or more (kinds 1 to 6), CPU number N or more (7 to 9)"; "refusal 4's CPU check covers 10 and 11"
fn no_such_number(t: &Tables, e: Event, m: Mutant) -> bool {
    let who = e.who as usize;
    match e.kind {
        1..=6 => who >= 512,
        10 if m == Mutant::OfflineCpuUnchecked => false,
        _ => who >= t.n,
    }
}

/// "add to a place not free; remove or wake of one not asleep; sleep of one not runnable; priority or mask for a
/// free place"
fn wrong_state(t: &Tables, e: Event) -> bool {
    let state = t.state.get(e.who as usize);
    match e.kind {
        1 => state != Some(&0),
        2 | 3 => state != Some(&1),
        4 => state != Some(&2),
        5 | 6 => !matches!(state, Some(1 | 2)),
        _ => false,
    }
}

/// "kinds 1 and 5: priority not 1 to 99; kind 9: b not 0 or 1"
fn wrong_value(e: Event) -> bool {
    match e.kind {
        1 | 5 => !(1..=99).contains(&e.b),
        9 => e.b > 1,
        _ => false,
    }
}

/// "yield on an empty row". "Where 9 and 11 both fit, 11 is given."
fn yields_nothing(t: &Tables, e: Event) -> bool {
    e.kind == 8 && t.counts[e.who as usize] == 0
}

/// "a runnable task (or the task woken, or the runnable task whose mask changes) would have no allowed online CPU"
fn nowhere(t: &Tables, e: Event, m: Mutant) -> bool {
    let who = e.who as usize;
    let online = cpus_of(t.online);
    let meets_none = |mask: u64, cpus: &[usize]| !cpus.iter().any(|&c| allows(mask, c));
    match e.kind {
        1 => m == Mutant::AddNowhereRefused && meets_none(e.mask, &online),
        3 => m != Mutant::WakeNowherePasses && meets_none(t.mask[who], &online),
        6 if t.state[who] == 1 && m != Mutant::SleeperMaskRefused => false,
        6 => m != Mutant::MaskNowherePasses && meets_none(e.mask, &online),
        10 => {
            let others: Vec<usize> = online.into_iter().filter(|&c| c != who).collect();
            let asked = |&i: &usize| needs_cpu(t, i, m);
            let mut asked = (0..TASKS).filter(asked);
            asked.any(|i| meets_none(t.mask[i], &others))
        }
        _ => false,
    }
}

/// Whether a task keeps a CPU online, if it is allowed no other: a runnable one does.
fn needs_cpu(t: &Tables, task: usize, m: Mutant) -> bool {
    let runs = |c: usize| t.listed(c).first() == Some(&(task as u16));
    match m {
        Mutant::PinnedGoes => false,
        Mutant::NowhereOfRunning => (0..t.n).any(runs),
        Mutant::NowhereOfSleepers => t.state[task] != 0,
        _ => t.state[task] == 2,
    }
}

/// "tick or yield on an offline CPU, or kind 10 or 11 where it is already so"
fn wrong_side(t: &Tables, e: Event, m: Mutant) -> bool {
    let online = cpus_of(t.online).contains(&(e.who as usize));
    match e.kind {
        7 => !online && m != Mutant::TickOfflinePasses,
        8 => !online,
        9 => !online && m == Mutant::OrdinaryRefusedOffline,
        10 => !online && m != Mutant::AlreadyOfflinePasses,
        11 => online && m != Mutant::AlreadyOnlinePasses,
        _ => false,
    }
}

/// "the last online CPU"
fn last_online(t: &Tables, e: Event, m: Mutant) -> bool {
    let online = cpus_of(t.online);
    match m {
        Mutant::LastGoes => false,
        Mutant::LastWhichever => online.len() == 1,
        _ => online == [e.who as usize],
    }
}
