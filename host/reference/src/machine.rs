//! The machine as tasks that remember when they came; everything else is worked out.

use crate::mutant::Mutant;
use crate::record::Record;
use crate::tables::{allows, Tables, INVALID, NOTHING, TASKS};
use std::cmp::Reverse;
use std::collections::BTreeMap;

#[derive(Clone, Debug, PartialEq, Eq)]
pub struct Task {
    pub policy: u8,
    pub prio: u8,
    pub cpu: usize,
    pub slice: u16,
    pub mask: u64,
    /// When it entered its row; none while asleep.
    pub arrival: Option<i64>,
}

#[derive(Clone, Debug)]
pub struct Machine {
    pub n: usize,
    /// "The full slice becomes a number of the machine"
    pub full_slice: u16,
    /// The tasks of the places that are not free.
    pub tasks: BTreeMap<u16, Task>,
    /// "An ordinary-work flag per CPU"
    pub ordinary: Vec<bool>,
    /// "the machine gains an online mask"
    pub online: Vec<bool>,
    /// Later than every arrival, and its negative earlier.
    clock: i64,
    /// Who stands before all of its row, whatever its priority. For mutants only.
    before_all: Option<u16>,
}

/// "priority p at p+2"
pub(crate) fn level_of_prio(prio: u8) -> u8 {
    prio + 2
}

impl Machine {
    /// "A fresh machine has all places free, rows empty, flags 0", and its online mask is "all N when fresh".
    pub fn fresh(n: usize, full_slice: u16) -> Machine {
        Machine {
            n,
            full_slice,
            tasks: BTreeMap::new(),
            ordinary: vec![false; n],
            online: vec![true; n],
            clock: 0,
            before_all: None,
        }
    }

    /// The machine of well-formed tables. Those that stand earlier in a row have come earlier.
    pub fn read(t: &Tables, m: Mutant) -> Machine {
        let full_slice = t.full_slice(m).expect("a full slice in range");
        let mut machine = Machine::fresh(t.n, full_slice);
        machine.ordinary = t.flags.iter().map(|&flag| flag == 1).collect();
        machine.online = (0..t.n).map(|c| allows(t.online, c)).collect();
        machine.clock = t.rows.len() as i64 + 1;
        for i in (0..TASKS).filter(|&i| t.state[i] != 0) {
            let task = Task {
                policy: t.policy[i],
                prio: t.prio[i],
                cpu: t.cpu[i] as usize,
                slice: t.slice[i],
                mask: t.mask[i],
                arrival: None,
            };
            machine.tasks.insert(i as u16, task);
        }
        for c in 0..t.n {
            for (place, id) in t.listed(c).iter().enumerate() {
                machine.task(*id).arrival = Some(place as i64);
            }
        }
        machine
    }

    pub fn task(&mut self, id: u16) -> &mut Task {
        self.tasks.get_mut(&id).expect("the place has a task")
    }

    /// "'Allowed' in placing and moving now means allowed and online": these CPUs of a mask, ascending.
    pub(crate) fn allowed(&self, mask: u64) -> Vec<usize> {
        let allowed = |&c: &usize| allows(mask, c) && self.online[c];
        (0..self.n).filter(allowed).collect()
    }

    /// The task has a full slice again.
    pub(crate) fn refill(&mut self, id: u16) {
        let full_slice = self.full_slice;
        self.task(id).slice = full_slice;
    }

    /// "Entering a row means standing behind every task of the same or a higher priority and before all lower
    /// ones; that row's CPU is then the task's CPU."
    pub(crate) fn enter(&mut self, id: u16, cpu: usize) {
        self.clock += 1;
        let now = self.clock;
        let task = self.task(id);
        task.cpu = cpu;
        task.arrival = Some(now);
    }

    /// "stands behind every higher priority and before all others of the new one": as if it had come before them all.
    pub(crate) fn enter_before_equals(&mut self, id: u16, cpu: usize) {
        self.enter(id, cpu);
        let task = self.task(id);
        task.arrival = task.arrival.map(|now| -now);
    }

    /// The error of standing before all, also before higher ones. For mutants only.
    pub(crate) fn enter_before_all(&mut self, id: u16, cpu: usize) {
        self.enter(id, cpu);
        self.before_all = Some(id);
    }

    /// "A row lists task numbers in run order": higher priorities first, and equals as they came.
    pub fn rows(&self) -> Vec<Vec<u16>> {
        let key = |(&id, task): (&u16, &Task)| {
            let in_order = self.before_all != Some(id);
            task.arrival
                .map(|came| (in_order, Reverse(task.prio), came, id, task.cpu))
        };
        let mut queued: Vec<_> = self.tasks.iter().filter_map(key).collect();
        queued.sort_unstable();
        let mut rows = vec![Vec::new(); self.n];
        for (_, _, _, id, cpu) in queued {
            rows[cpu].push(id);
        }
        rows
    }

    /// "0 idle, 1 ordinary work only, priority p at p+2": what each row's first task makes it. "An offline CPU has [...]
    /// level INVALID."
    pub fn levels(&self, rows: &[Vec<u16>], m: Mutant) -> Vec<u8> {
        let level = |c: usize| match rows[c].first() {
            _ if !self.online[c] && m != Mutant::OfflineAtFlag => INVALID,
            Some(id) => level_of_prio(self.tasks[id].prio),
            None => u8::from(self.ordinary[c] && m != Mutant::OrdinaryUncounted),
        };
        (0..self.n).map(level).collect()
    }

    /// Every table but the log, from nothing. "A free place holds 0 in all its columns."
    pub fn write(&self, t: &mut Tables, m: Mutant) {
        for i in 0..TASKS {
            let task = self.tasks.get(&(i as u16));
            let state = task.map_or(0, |task| if task.arrival.is_some() { 2 } else { 1 });
            let left = if m == Mutant::RemoveLeavesSlice {
                t.slice[i]
            } else {
                0
            };
            t.state[i] = state;
            t.policy[i] = task.map_or(0, |task| task.policy);
            t.prio[i] = task.map_or(0, |task| task.prio);
            t.cpu[i] = task.map_or(0, |task| task.cpu as u8);
            t.slice[i] = task.map_or(left, |task| task.slice);
            t.mask[i] = task.map_or(0, |task| task.mask);
        }
        let rows = self.rows();
        t.rows.fill(NOTHING);
        for (c, row) in rows.iter().enumerate() {
            t.rows[512 * c..512 * c + row.len()].copy_from_slice(row);
            t.counts[c] = row.len() as u16;
            t.flags[c] = u8::from(self.ordinary[c]);
        }
        let online = (0..self.n).filter(|&c| self.online[c]);
        t.online = online.map(|c| 1u64 << c).sum();
        Record::of(&self.levels(&rows, m)).hand_back(t);
    }
}
