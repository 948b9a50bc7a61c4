//! Migration steps until none applies.

use crate::find::lowest;
use crate::lower::Lower;
use crate::mover::{first, foremost, rows_above};
use crate::record::{level_of, Record};
use crate::row;
use crate::tables::{Lent, NOTHING, TASKS};

/// No CPU.
pub const NOWHERE: u8 = 64;

/// Who may be movable: the task `new`, and who may use the CPU `fallen` and is above its level. Nobody else.
#[derive(Clone, Copy, Debug, PartialEq, Eq)]
pub struct Few {
    pub fallen: u8,
    pub new: u16,
}

impl Few {
    pub const NONE: Few = Few {
        fallen: NOWHERE,
        new: NOTHING,
    };

    /// The same after a step, which displaced a task or none: a CPU that receives a task is no longer fallen.
    fn after(self, step: Step, displaced: u16) -> Few {
        if step.target != self.fallen {
            return Few {
                new: displaced,
                ..self
            };
        }
        let stays = self.new != NOTHING && self.new != step.task;
        Few {
            fallen: NOWHERE,
            new: if stays { self.new } else { displaced },
        }
    }
}

/// A waiting task that goes to another CPU.
#[derive(Clone, Copy)]
struct Step {
    task: u16,
    origin: u8,
    target: u8,
}

/// How many steps were taken. Each is an entry of the log. Mostly few who wait are above the lowest level that a CPU has.
pub fn settle(t: &mut Lent, record: &mut Record) -> u32 {
    let floor = prio_at(record.lowest());
    match rows_above(t, floor) {
        0 => 0,
        rows => settle_rows(t, record, floor, rows),
    }
}

/// The same where only those of these rows may be movable who are above a priority. Steps make no other task movable but
/// whom they displace.
#[inline(never)]
fn settle_rows(t: &mut Lent, record: &mut Record, floor: u8, rows: u64) -> u32 {
    let mut rows = rows;
    let mut lower = Lower::default();
    let mut moves = 0;
    while let Some(step) = pick(t, record, floor, &mut rows, &mut lower) {
        take(t, record, step, moves);
        moves += 1;
        rows |= 1 << step.target;
        lower.received |= 1 << step.target;
    }
    moves as u32
}

/// The same where only few tasks may be movable. Mostly none is.
pub fn settle_few(t: &mut Lent, record: &mut Record, few: Few) -> u32 {
    match pick_few(t, record, few) {
        Some(step) => settle_from(t, record, few, step),
        None => 0,
    }
}

/// The same from its first step on.
#[inline(never)]
fn settle_from(t: &mut Lent, record: &mut Record, few: Few, first: Step) -> u32 {
    let mut moves = 0;
    let mut few = few;
    let mut next = Some(first);
    while let Some(step) = next {
        let displaced = take(t, record, step, moves);
        few = few.after(step, displaced);
        moves += 1;
        next = pick_few(t, record, few);
    }
    moves as u32
}

/// Takes a step and gives whom it displaced. The mover waited, so that its old CPU's level stays, and is first where
/// it goes.
fn take(t: &mut Lent, record: &mut Record, step: Step, moves: usize) -> u16 {
    let Step {
        task,
        origin,
        target,
    } = step;
    let (from, to) = (origin as usize, target as usize);
    row::remove(&mut t.rows[from], t.counts[from] as usize, task);
    t.counts[from] -= 1;
    let row = &mut t.rows[to];
    let displaced = row[0];
    row::put(row, 0, t.counts[to] as usize, task);
    t.counts[to] += 1;
    t.cpu[task as usize] = target;
    let before = record.set_level(to, level_of(t.prio[task as usize]));
    t.log[moves] = [task, origin.into(), target.into(), before.into()];
    displaced
}

/// The step that applies.
fn pick(t: &Lent, record: &Record, floor: u8, rows: &mut u64, lower: &mut Lower) -> Option<Step> {
    let (task, origin) = foremost(t, record, floor, rows, |row, floor| {
        lower.first(t, record, row, floor)
    })?;
    Some(Step {
        task,
        origin,
        target: target(t, record, task)?,
    })
}

/// The same where only few tasks may be movable.
fn pick_few(t: &Lent, record: &Record, few: Few) -> Option<Step> {
    let own = own_step(t, record, few.new);
    match (few.fallen, own) {
        (NOWHERE, own) => own,
        (fallen, None) => draw(t, record, fallen),
        (fallen, Some(own)) => draw_or(t, record, fallen, own),
    }
}

/// The step of this one task, if there is one and it is movable.
fn own_step(t: &Lent, record: &Record, task: u16) -> Option<Step> {
    Some(Step {
        task,
        origin: *t.cpu.get(task as usize)?,
        target: target(t, record, task)?,
    })
}

/// Where the task goes, if some allowed CPU is below its level.
fn target(t: &Lent, record: &Record, task: u16) -> Option<u8> {
    let level = level_of(row::prio_of(t.prio, task));
    let others = others(t, task);
    if others & others.wrapping_sub(1) == 0 {
        let other = others.trailing_zeros() as u8;
        let lower = *record.levels.get(other as usize)? < level;
        return lower.then_some(other);
    }
    let (_, cpus) = lowest(record, level as usize, others, &mut 0)?;
    Some(cpus.trailing_zeros() as u8)
}

/// The CPUs that a waiting task may use, but for its own, which is not below it.
pub fn others(t: &Lent, task: u16) -> u64 {
    let task = task as usize % TASKS;
    t.mask[task] & !(1 << t.cpu[task])
}

/// The foremost of those who may use the fallen CPU and are above its level. They go there: nobody was movable before,
/// so all other CPUs that they may use are not below them.
#[inline(never)]
fn draw(t: &Lent, record: &Record, fallen: u8) -> Option<Step> {
    let floor = prio_at(record.levels[fallen as usize]);
    let drawn = foremost(t, record, floor, &mut rows_above(t, floor), |row, floor| {
        first(t, row, floor, |task, _| may_use(t, task, fallen))
    });
    let (task, origin) = drawn?;
    Some(Step {
        task,
        origin,
        target: fallen,
    })
}

/// The same with one more task, which is movable.
#[inline(never)]
fn draw_or(t: &Lent, record: &Record, fallen: u8, own: Step) -> Option<Step> {
    let floor = prio_at(record.levels[fallen as usize]);
    let floor = floor.max(t.prio[own.task as usize] - 1);
    let drawn = foremost(t, record, floor, &mut rows_above(t, floor), |row, floor| {
        first(t, row, floor, |task, _| {
            task == own.task || may_use(t, task, fallen)
        })
    });
    match drawn {
        Some((task, origin)) if task != own.task => Some(Step {
            task,
            origin,
            target: fallen,
        }),
        _ => Some(own),
    }
}

fn may_use(t: &Lent, task: u16, cpu: u8) -> bool {
    t.mask[task as usize % TASKS] >> cpu & 1 == 1
}

/// The priority above which a task is above this level.
fn prio_at(level: u8) -> u8 {
    level.saturating_sub(level_of(0))
}
