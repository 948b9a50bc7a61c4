//! Events for CPUs that go offline and come back, and for what may be wrong then.

use super::of_kind;
use crate::generate::full;
use crate::rng::Rng;
use binding::{Event, Tables, TASKS};

/// A CPU, mostly an online one.
pub(super) fn mostly_online(rng: &mut Rng, t: &Tables) -> usize {
    let online: Vec<usize> = (0..t.n).filter(|&cpu| t.is_online(cpu)).collect();
    match rng.percent(20) || online.is_empty() {
        true => rng.below(t.n),
        false => rng.pick(&online),
    }
}

/// A CPU goes offline that all its tasks may leave: one with waiting tasks, or one whose running task displaces another. None if
/// there is no such CPU.
pub fn take_offline(rng: &mut Rng, t: &Tables) -> Option<Event> {
    let leaves = |cpu: usize, &task: &u16| t.mask[usize::from(task)] & t.online & !(1 << cpu) != 0;
    let all_leave = |&cpu: &usize| t.row(cpu).iter().all(|id| leaves(cpu, id));
    let displacing = rng.percent(60);
    let wanted = |&cpu: &usize| match displacing {
        true => displaces(t, cpu),
        false => t.counts[cpu] > 1,
    };
    let chosen: Vec<usize> = (0..t.n).filter(all_leave).filter(wanted).collect();
    if chosen.is_empty() {
        return None;
    }
    let cpu = rng.pick(&chosen);
    Some(of_kind(rng, 10, cpu))
}

/// Whether a CPU's running task, leaving it, displaces one that then may go to a CPU of a lower level.
fn displaces(t: &Tables, cpu: usize) -> bool {
    let first = |cpu: usize| t.row(cpu).first().map(|&task| t.mask[usize::from(task)]);
    let online = t.online & !(1 << cpu);
    let to = first(cpu).map_or(64, |mask| (mask & online).trailing_zeros()) as usize;
    if to >= t.n || t.levels[to] >= t.levels[cpu] {
        return false;
    }
    let goes_on = |mask: u64| {
        let lower = |c: usize| (mask & online) >> c & 1 == 1 && t.levels[c] < t.levels[to];
        (0..t.n).any(lower)
    };
    first(to).is_some_and(goes_on)
}

/// A CPU goes offline, mostly one with tasks, or one comes back: the latter more often, so that not most CPUs stay offline.
pub(super) fn go_or_come(rng: &mut Rng, t: &Tables) -> Event {
    let offline: Vec<usize> = (0..t.n).filter(|&cpu| !t.is_online(cpu)).collect();
    let back = if t.online.count_ones() < 3 { 85 } else { 50 };
    if !offline.is_empty() && rng.percent(back) {
        let cpu = rng.pick(&offline);
        return of_kind(rng, 11, cpu);
    }
    let with_tasks = match rng.percent(80) {
        true => take_offline(rng, t),
        false => None,
    };
    with_tasks.unwrap_or_else(|| {
        let cpu = mostly_online(rng, t);
        of_kind(rng, 10, cpu)
    })
}

/// A runnable task gets a mask without its CPU, whose lowest-numbered CPU is offline. None if there is no such mask.
pub(super) fn past_offline(rng: &mut Rng, t: &Tables) -> Option<Event> {
    let offline = full(t.n) & !t.online;
    let first = offline.trailing_zeros() as usize;
    let runnable: Vec<usize> = (0..TASKS).filter(|&i| t.state[i] == 2).collect();
    if offline == 0 || runnable.is_empty() {
        return None;
    }
    let task = rng.pick(&runnable);
    let above = t.online >> first << first & !(1 << t.cpu[task]);
    let some = above & rng.bits();
    let mask = 1 << first | rng.pick(&[above, some]);
    Some(Event {
        mask,
        ..of_kind(rng, 6, task)
    })
}

/// A task without an allowed online CPU, if there is one to be had: it wakes, gets its mask now, or its CPU goes offline.
pub(super) fn nowhere(rng: &mut Rng, t: &Tables) -> Event {
    let asleep = |&i: &usize| t.state[i] == 1 && t.mask[i] & t.online == 0;
    let pinned = |&i: &usize| t.state[i] == 2 && t.mask[i].count_ones() == 1;
    let in_use = |&i: &usize| t.state[i] != 0;
    let kind = rng.pick(&[3, 6, 10]);
    let chosen: Vec<usize> = match kind {
        3 => (0..TASKS).filter(asleep).collect(),
        6 => (0..TASKS).filter(in_use).collect(),
        _ => (0..TASKS).filter(pinned).collect(),
    };
    if chosen.is_empty() {
        return go_or_come(rng, t);
    }
    let task = rng.pick(&chosen);
    let who = if kind == 10 { t.cpu[task].into() } else { task };
    let offline = full(t.n) & !t.online;
    let some = offline & rng.bits();
    Event {
        mask: rng.pick(&[offline, offline, some]),
        ..of_kind(rng, kind, who)
    }
}

/// A tick or a yield on an offline CPU, or a CPU to go or to come back that has done so.
pub(super) fn wrong_side(rng: &mut Rng, t: &Tables) -> Event {
    let kind = rng.pick(&[7, 8, 10, 11]);
    let wrong = |&cpu: &usize| t.is_online(cpu) == (kind == 11);
    let chosen: Vec<usize> = (0..t.n).filter(wrong).collect();
    match chosen.is_empty() {
        true => of_kind(rng, 11, 0),
        false => {
            let cpu = rng.pick(&chosen);
            of_kind(rng, kind, cpu)
        }
    }
}
