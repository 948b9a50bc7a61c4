//! The search of today's kernel (`cpupri_find` in kernel/sched/cpupri.c): from level 0 on every level below the task's, at
//! each the count first and then the mask. It has no words of level bits (source 000's, an older one, had), checks nothing
//! and does not say how many masks it read.

use crate::by_hand;
use crate::side::{found, sum, Side, Work};
use binding::{Tables, INVALID, LEVELS};
use plain::Record;
use std::hint::black_box;

/// A version that answers questions alone.
pub struct Kernel {
    tables: Tables,
    record: Record,
}

impl Kernel {
    pub fn new(start: &Tables) -> Kernel {
        Kernel {
            tables: start.clone(),
            record: by_hand::record(start),
        }
    }
}

impl Side for Kernel {
    fn restart(&mut self) {}

    fn run(&mut self, work: &Work) -> u64 {
        let Work::Find { times, level, mask } = work else {
            panic!("questions alone");
        };
        sum((0..*times).map(|_| {
            let lowest = cpupri_find(black_box(&self.record), *level as usize, *mask);
            let (level, cpus) = lowest.unwrap_or((INVALID, 0));
            found(0, level, cpus)
        }))
    }

    fn tables(&self) -> Tables {
        self.tables.clone()
    }
}

#[inline(never)]
fn cpupri_find(record: &Record, task_level: usize, allowed: u64) -> Option<(u8, u64)> {
    for level in 0..task_level.min(LEVELS) {
        if record.counts[level] == 0 {
            continue;
        }
        let lowest_mask = record.masks[level] & allowed;
        if lowest_mask != 0 {
            return Some((level as u8, lowest_mask));
        }
    }
    None
}
