//! Whether a waiting task has a lower CPU, asked of many.

use crate::find::lowest;
use crate::mover::first;
use crate::record::{level_of, Record, LEVELS};
use crate::settle::others;
use crate::tables::{Lent, Row, TASKS};

/// Priorities, and 0, which no task has.
const PRIOS: usize = LEVELS - 2;

/// Levels that are passed over one by one, before a table is worth its price.
const FEW: u32 = 32;

/// What is kept from one task to the next, and from one step to the next.
///
/// A CPU that received a task is at the mover's level, and who is above that is not movable any more: the mover was the
/// highest that was. So the CPU need not be asked about again, and the table may stay as it was before the step.
#[derive(Default)]
pub struct Lower {
    pub received: u64,
    passed: u32,
    /// For each priority the CPUs below its level.
    under: Option<[u64; PRIOS]>,
}

impl Lower {
    /// The first of a row's waiting tasks that is above a priority and has a lower CPU, and its priority.
    #[inline(always)]
    pub fn first(&mut self, t: &Lent, record: &Record, row: &Row, floor: u8) -> Option<(u16, u8)> {
        match &self.under {
            Some(under) => first(t, row, floor, |task, prio| {
                let allowed = t.mask[task as usize % TASKS];
                under[prio as usize] & allowed & !self.received != 0
            }),
            None => first(t, row, floor, |task, prio| {
                self.is_among(record, prio, others(t, task))
            }),
        }
    }

    /// Whether one of these CPUs is lower. Most who wait have none to go to, or one.
    #[inline(always)]
    fn is_among(&mut self, record: &Record, prio: u8, cpus: u64) -> bool {
        if cpus & cpus.wrapping_sub(1) == 0 {
            let level = record.levels.get(cpus.trailing_zeros() as usize);
            return level.is_some_and(|&level| level < level_of(prio));
        }
        self.is_among_many(record, prio, cpus)
    }

    #[inline(never)]
    fn is_among_many(&mut self, record: &Record, prio: u8, cpus: u64) -> bool {
        if self.passed < FEW {
            let level = level_of(prio) as usize;
            return lowest(record, level, cpus, &mut self.passed).is_some();
        }
        let under = self.under.get_or_insert_with(|| under(record));
        under[prio as usize] & cpus & !self.received != 0
    }
}

fn under(record: &Record) -> [u64; PRIOS] {
    let [idle, ordinary, levels @ ..] = record.masks;
    let mut below = idle | ordinary;
    levels.map(|cpus| {
        let under = below;
        below |= cpus;
        under
    })
}
