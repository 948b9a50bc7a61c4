//! The first nine kinds of event: the checks of each, and its own effect on well-formed tables. Each gives who may be
//! movable then, if nobody was before; or the number of the refusal, and nothing is changed.

use crate::event::Event;
use crate::find::mask_fits;
use crate::record::{level_of, Record};
use crate::row;
use crate::settle::{Few, NOWHERE};
use crate::tables::{Lent, ASLEEP, FREE, NOTHING, RR, RUNNABLE, TASKS};
use std::cmp::Ordering;
use std::mem::replace;

/// The refusal, unless what is asked for holds.
pub fn need(holds: bool, refusal: u8) -> Result<(), u8> {
    if holds {
        Ok(())
    } else {
        Err(refusal)
    }
}

fn is_priority(b: u32) -> bool {
    (1..=99).contains(&b)
}

/// The task that the event names.
fn task(e: &Event) -> Result<usize, u8> {
    let who = e.who as usize;
    need(who < TASKS, 4)?;
    Ok(who)
}

/// The CPU that the event names, and who runs there, 65535 if nobody.
pub fn cpu(t: &Lent, e: &Event) -> Result<(usize, u16), u8> {
    let who = e.who as usize;
    let row = t.rows.get(who).ok_or(4)?;
    Ok((who, row[0]))
}

pub fn add(t: &mut Lent, _: &mut Record, e: &Event) -> Result<Few, u8> {
    let who = task(e)?;
    need(t.state[who] == FREE, 5)?;
    need(matches!(e.a, 1 | 2), 6)?;
    need(is_priority(e.b), 7)?;
    need(mask_fits(t.n, e.mask), 8)?;
    t.state[who] = ASLEEP;
    t.policy[who] = e.a as u8;
    t.prio[who] = e.b as u8;
    t.cpu[who] = e.mask.trailing_zeros() as u8;
    t.slice[who] = t.full_slice;
    t.mask[who] = e.mask;
    Ok(Few::NONE)
}

pub fn remove(t: &mut Lent, _: &mut Record, e: &Event) -> Result<Few, u8> {
    let who = task(e)?;
    need(t.state[who] == ASLEEP, 5)?;
    t.state[who] = FREE;
    t.policy[who] = 0;
    t.prio[who] = 0;
    t.cpu[who] = 0;
    t.slice[who] = 0;
    t.mask[who] = 0;
    Ok(Few::NONE)
}

pub fn wake(t: &mut Lent, record: &mut Record, e: &Event) -> Result<Few, u8> {
    let who = task(e)?;
    need(t.state[who] == ASLEEP, 5)?;
    let (cpu, allowed) = (t.cpu[who], t.mask[who] & *t.online);
    need(allowed != 0, 10)?;
    t.state[who] = RUNNABLE;
    let target = if allowed >> cpu & 1 == 1 {
        cpu as usize
    } else {
        allowed.trailing_zeros() as usize
    };
    Ok(Few {
        fallen: NOWHERE,
        new: enter(t, record, target, who),
    })
}

pub fn sleep(t: &mut Lent, record: &mut Record, e: &Event) -> Result<Few, u8> {
    let who = task(e)?;
    need(t.state[who] == RUNNABLE, 5)?;
    t.state[who] = ASLEEP;
    Ok(Few {
        fallen: leave(t, record, who),
        new: NOTHING,
    })
}

pub fn set_priority(t: &mut Lent, record: &mut Record, e: &Event) -> Result<Few, u8> {
    let who = task(e)?;
    need(t.state[who] != FREE, 5)?;
    need(is_priority(e.b), 7)?;
    let before = replace(&mut t.prio[who], e.b as u8);
    if t.state[who] != RUNNABLE {
        return Ok(Few::NONE);
    }
    Ok(match t.prio[who].cmp(&before) {
        Ordering::Greater => raised(t, record, who),
        Ordering::Equal => Few::NONE,
        Ordering::Less => lowered(t, record, who),
    })
}

pub fn set_affinity(t: &mut Lent, record: &mut Record, e: &Event) -> Result<Few, u8> {
    let who = task(e)?;
    need(t.state[who] != FREE, 5)?;
    need(mask_fits(t.n, e.mask), 8)?;
    if t.state[who] != RUNNABLE {
        t.mask[who] = e.mask;
        return Ok(Few::NONE);
    }
    let cpu = t.cpu[who] as usize;
    if e.mask >> cpu & 1 == 0 {
        let allowed = e.mask & *t.online;
        need(allowed != 0, 10)?;
        t.mask[who] = e.mask;
        return Ok(Few {
            fallen: leave(t, record, who),
            new: enter(t, record, allowed.trailing_zeros() as usize, who),
        });
    }
    t.mask[who] = e.mask;
    let runs = t.rows[cpu][0] == who as u16;
    Ok(Few {
        fallen: NOWHERE,
        new: if runs { NOTHING } else { who as u16 },
    })
}

pub fn tick(t: &mut Lent, _: &mut Record, e: &Event) -> Result<Few, u8> {
    let (cpu, first) = cpu(t, e)?;
    let first = first as usize;
    match t.policy.get(first) {
        Some(&RR) => (),
        None if !t.is_online(cpu) => return Err(11),
        _ => return Ok(Few::NONE),
    }
    t.slice[first] -= 1;
    if t.slice[first] > 0 {
        return Ok(Few::NONE);
    }
    t.slice[first] = t.full_slice;
    Ok(requeue(t, cpu))
}

pub fn yield_cpu(t: &mut Lent, _: &mut Record, e: &Event) -> Result<Few, u8> {
    let (cpu, first) = cpu(t, e)?;
    if first == NOTHING {
        return Err(if t.is_online(cpu) { 9 } else { 11 });
    }
    Ok(requeue(t, cpu))
}

pub fn set_ordinary(t: &mut Lent, record: &mut Record, e: &Event) -> Result<Few, u8> {
    let (cpu, first) = cpu(t, e)?;
    need(e.b <= 1, 7)?;
    t.flags[cpu] = e.b as u8;
    // The level of an idle CPU is 0 or 1, that of an offline one is not.
    if first == NOTHING && record.levels[cpu] == 1 - e.b as u8 {
        record.set_level(cpu, e.b as u8);
    }
    Ok(Few::NONE)
}

/// The first task goes behind its equals. The level stays.
#[inline(never)]
fn requeue(t: &mut Lent, cpu: usize) -> Few {
    let row = &mut t.rows[cpu];
    let task = row[0];
    let prio = row::prio_of(t.prio, task);
    let to = row::back(row, t.prio, t.counts[cpu] as usize, 0, prio);
    Few {
        fallen: NOWHERE,
        new: if to > 0 { task } else { NOTHING },
    }
}

/// The task, whose priority has risen, goes forward in its row, behind its equals, and the level follows.
fn raised(t: &mut Lent, record: &mut Record, task: usize) -> Few {
    let cpu = t.cpu[task] as usize;
    let row = &mut t.rows[cpu];
    let from = row::position(row, task as u16);
    let to = row::forward(row, t.prio, from);
    if to == 0 {
        record.set_level(cpu, level_of(t.prio[task]));
    }
    Few {
        fallen: NOWHERE,
        new: match (from, to) {
            (_, 1..) => task as u16,
            (0, 0) => NOTHING,
            _ => row[1],
        },
    }
}

/// The task, whose priority has fallen, goes back in its row, before its equals, and the level follows. If it waited,
/// nobody is more movable than before.
fn lowered(t: &mut Lent, record: &mut Record, task: usize) -> Few {
    let cpu = t.cpu[task] as usize;
    let row = &mut t.rows[cpu];
    let from = row::position(row, task as u16);
    let above = t.prio[task] + 1;
    let to = row::back(row, t.prio, t.counts[cpu] as usize, from, above);
    if from > 0 {
        return Few::NONE;
    }
    let level = level_of(t.prio[row[0] as usize]);
    let fell = level < record.levels[cpu];
    if fell {
        record.set_level(cpu, level);
    }
    Few {
        fallen: if fell { cpu as u8 } else { NOWHERE },
        new: if to > 0 { task as u16 } else { NOTHING },
    }
}

/// The task leaves the row of its CPU, whose level follows. The CPU, if its level fell.
fn leave(t: &mut Lent, record: &mut Record, task: usize) -> u8 {
    let cpu = t.cpu[task] as usize;
    let row = &mut t.rows[cpu];
    let at = row::remove(row, t.counts[cpu] as usize, task as u16);
    t.counts[cpu] -= 1;
    if at > 0 {
        return NOWHERE;
    }
    let level = match t.prio.get(row[0] as usize) {
        Some(&prio) => level_of(prio),
        None => t.flags[cpu],
    };
    if level == record.levels[cpu] {
        return NOWHERE;
    }
    record.set_level(cpu, level);
    cpu as u8
}

/// The task enters the row of a CPU, which is then its CPU, and the level follows. Who waits now and did not before:
/// the task, or whom it displaced.
fn enter(t: &mut Lent, record: &mut Record, cpu: usize, task: usize) -> u16 {
    let row = &mut t.rows[cpu];
    let at = row::insert(row, t.prio, t.counts[cpu] as usize, task as u16);
    t.counts[cpu] += 1;
    t.cpu[task] = cpu as u8;
    if at > 0 {
        return task as u16;
    }
    record.set_level(cpu, level_of(t.prio[task]));
    row[1]
}
