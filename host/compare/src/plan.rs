//! A well-formed machine in few words: what a case starts from, what a failure prints, and what a search
//! remembers. Its tables are made here by a third way, which knows neither implementation.

use crate::generate::full;
use binding::{Tables, NOTHING, TASKS};
use std::fmt;

#[derive(Clone, Debug, PartialEq, Eq, Hash)]
pub struct TaskPlan {
    pub id: u16,
    pub runnable: bool,
    pub policy: u8,
    pub prio: u8,
    pub cpu: u8,
    pub slice: u16,
    pub mask: u64,
}

/// Equals of a row stand in the order of `tasks`. Runnable tasks are on online CPUs.
#[derive(Clone, Debug, PartialEq, Eq, Hash)]
pub struct Plan {
    pub n: usize,
    pub full_slice: u32,
    /// Bit c: CPU c has ordinary work.
    pub flags: u64,
    /// Bit c: CPU c is online.
    pub online: u64,
    pub tasks: Vec<TaskPlan>,
    /// What the log holds before: this number and the ones after it.
    pub log: u16,
}

impl Plan {
    /// All CPUs are online.
    pub fn empty(n: usize, full_slice: u32) -> Plan {
        Plan {
            n,
            full_slice,
            flags: 0,
            online: full(n),
            tasks: Vec::new(),
            log: NOTHING,
        }
    }

    /// The plan of well-formed tables, with the log forgotten. Equal machines have equal plans.
    pub fn read(t: &Tables) -> Plan {
        let mut plan = Plan::empty(t.n, t.full_slice);
        plan.online = t.online;
        for c in 0..t.n {
            plan.flags |= u64::from(t.flags[c]) << c;
        }
        let asleep = (0..TASKS as u16).filter(|&i| t.state[i as usize] == 1);
        let queued = (0..t.n).flat_map(|c| t.row(c).iter().copied());
        for id in asleep.chain(queued) {
            let i = id as usize;
            plan.tasks.push(TaskPlan {
                id,
                runnable: t.state[i] == 2,
                policy: t.policy[i],
                prio: t.prio[i],
                cpu: t.cpu[i],
                slice: t.slice[i],
                mask: t.mask[i],
            });
        }
        plan
    }

    pub fn tables(&self) -> Tables {
        let mut t = Tables::zeroed(self.n);
        t.full_slice = self.full_slice;
        t.online = self.online;
        t.rows.fill(NOTHING);
        t.levels.fill(binding::INVALID);
        for i in 0..t.log.len() {
            t.log[i] = match self.log {
                NOTHING => NOTHING,
                first => first.wrapping_add(i as u16),
            };
        }
        for task in &self.tasks {
            let i = task.id as usize;
            t.state[i] = if task.runnable { 2 } else { 1 };
            t.policy[i] = task.policy;
            t.prio[i] = task.prio;
            t.cpu[i] = task.cpu;
            t.slice[i] = task.slice;
            t.mask[i] = task.mask;
        }
        self.fill_rows(&mut t);
        t
    }

    fn fill_rows(&self, t: &mut Tables) {
        let mut waiting: Vec<&TaskPlan> = self.tasks.iter().filter(|task| task.runnable).collect();
        waiting.sort_by_key(|task| 99 - task.prio);
        for task in waiting {
            let c = task.cpu as usize;
            t.rows[TASKS * c + t.counts[c] as usize] = task.id;
            t.counts[c] += 1;
        }
        for c in 0..self.n {
            t.flags[c] = (self.flags >> c & 1) as u8;
            let level = match t.row(c).first() {
                Some(&first) => t.prio[first as usize] + 2,
                None => t.flags[c],
            };
            if t.is_online(c) {
                enter_level(t, c, level);
            }
        }
    }
}

/// Puts a CPU into the record at a level. It has none yet.
pub fn enter_level(t: &mut Tables, cpu: usize, level: u8) {
    let l = level as usize;
    t.levels[cpu] = level;
    t.level_masks[l] |= 1 << cpu;
    t.level_counts[l] += 1;
    t.level_words[l / 64] |= 1 << (l % 64);
}

impl fmt::Display for Plan {
    fn fmt(&self, f: &mut fmt::Formatter) -> fmt::Result {
        let Plan {
            n,
            full_slice,
            flags,
            online,
            log,
            ..
        } = self;
        writeln!(
            f,
            "  N={n} full slice {full_slice} ordinary={flags:#x} online={online:#x} log from {log}"
        )?;
        for t in &self.tasks {
            let state = if t.runnable { "runnable" } else { "asleep" };
            let policy = if t.policy == 1 { "FIFO" } else { "RR" };
            writeln!(
                f,
                "  task {}: {state} {policy} prio {} cpu {} slice {} mask {:#x}",
                t.id, t.prio, t.cpu, t.slice, t.mask
            )?;
        }
        Ok(())
    }
}
