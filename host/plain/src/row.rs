//! Leaving and entering one row. Priorities fall along it, and unused places hold 65535.

use crate::tables::{Row, NOTHING, TASKS};

/// Places that are looked through at once.
const BLOCK: usize = 16;
/// Places that are moved at once, and that are looked at one by one.
const NEAR: usize = 8;

/// A task's priority. A number that stands in a row is below 512.
pub fn prio_of(prio: &[u8; TASKS], task: u16) -> u8 {
    prio[task as usize % TASKS]
}

/// How many of these tasks are of this priority or a higher one: a walk through the last of them, then a binary search.
fn not_below(tasks: &[u16], prio: &[u8; TASKS], priority: u8) -> usize {
    let not_below = |&task: &u16| prio_of(prio, task) >= priority;
    let (far, near) = tasks.split_at(tasks.len().saturating_sub(NEAR));
    match near.iter().rposition(not_below) {
        Some(at) => far.len() + at + 1,
        None => far.partition_point(not_below),
    }
}

/// Where the task stands. It stands in the row.
pub fn position(row: &Row, task: u16) -> usize {
    let near = row[..NEAR].iter().position(|&other| other == task);
    near.unwrap_or_else(|| far_position(row, task))
}

/// The same in a long row. All places of a block are looked at before it is decided, which the compiler makes many at a
/// time.
#[inline(never)]
fn far_position(row: &Row, task: u16) -> usize {
    let same = |&other: &u16| other == task;
    let has = |from: &usize| {
        let block = row[*from..][..BLOCK].iter();
        block.fold(false, |has, other| has | same(other))
    };
    let from = (0..TASKS).step_by(BLOCK).find(has).unwrap_or(0);
    from + row[from..].iter().position(same).unwrap_or(0)
}

/// The task leaves, and those behind it close up. Where it stood.
pub fn remove(row: &mut Row, count: usize, task: u16) -> usize {
    let at = position(row, task);
    match row.get_mut(at..at + NEAR + 1) {
        Some(near) if count - at <= NEAR + 1 => {
            near.copy_within(1.., 0);
            near[NEAR] = NOTHING;
        }
        _ => {
            row.copy_within(at + 1..count, at);
            row[count - 1] = NOTHING;
        }
    }
    at
}

/// The task enters behind every task of the same or a higher priority and before all lower ones. Where it stands.
pub fn insert(row: &mut Row, prio: &[u8; TASKS], count: usize, task: u16) -> usize {
    let at = not_below(&row[..count], prio, prio_of(prio, task));
    put(row, at, count, task);
    at
}

/// The task takes this place, and those from there on stand back.
pub fn put(row: &mut Row, at: usize, count: usize, task: u16) {
    match row.get_mut(at..at + NEAR + 1) {
        Some(near) if count - at <= NEAR => near.copy_within(..NEAR, 1),
        _ => row.copy_within(at..count, at + 1),
    }
    row[at] = task;
}

/// The task at a place goes before those ahead of it that are of a lower priority. Where it stands then.
pub fn forward(row: &mut Row, prio: &[u8; TASKS], from: usize) -> usize {
    let task = row[from];
    let to = not_below(&row[..from], prio, prio_of(prio, task));
    row.copy_within(to..from, to + 1);
    row[to] = task;
    to
}

/// The task at a place goes behind those after it that are of this priority or a higher one. Where it stands then.
pub fn back(row: &mut Row, prio: &[u8; TASKS], count: usize, from: usize, priority: u8) -> usize {
    let task = row[from];
    let to = from + not_below(&row[from + 1..count], prio, priority);
    row.copy_within(from + 1..to + 1, from);
    row[to] = task;
    to
}
