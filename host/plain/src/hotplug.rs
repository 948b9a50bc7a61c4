//! A CPU goes offline, and comes back: kinds 10 and 11, as `effect` has the others.

use crate::effect::{cpu, need};
use crate::event::Event;
use crate::record::{level_of, Record, CPUS};
use crate::row::prio_of;
use crate::settle::{Few, NOWHERE};
use crate::tables::{Lent, Row, NOTHING, TASKS};

/// Of a settled machine only the task that ran may be movable then, or whom it displaced: no CPU's level fell, and who
/// waited had no lower one before.
pub fn take_offline(t: &mut Lent, record: &mut Record, e: &Event) -> Result<Few, u8> {
    let (cpu, first) = cpu(t, e)?;
    let others = *t.online & !(1 << cpu);
    let coming = coming(t, cpu, others).ok_or(10)?;
    need(t.is_online(cpu), 11)?;
    need(others != 0, 12)?;
    *t.online = others;
    record.take_out(cpu);
    if first == NOTHING {
        return Ok(Few::NONE);
    }
    evacuate(t, record, cpu, coming);
    let row = &t.rows[t.cpu[first as usize % TASKS] as usize];
    Ok(Few {
        fallen: NOWHERE,
        new: if row[0] == first { row[1] } else { first },
    })
}

/// The CPU is as one whose level fell.
pub fn bring_online(t: &mut Lent, record: &mut Record, e: &Event) -> Result<Few, u8> {
    let (cpu, _) = cpu(t, e)?;
    need(!t.is_online(cpu), 11)?;
    *t.online |= 1 << cpu;
    record.bring_in(cpu, t.flags[cpu]);
    Ok(Few {
        fallen: cpu as u8,
        new: NOTHING,
    })
}

/// A number for each CPU.
type Numbers = [u16; CPUS];

/// How many of a CPU's tasks come to each of the others; or one of them may use none. They are counted in runs that go to
/// the same CPU.
fn coming(t: &Lent, cpu: usize, others: u64) -> Option<Numbers> {
    let mut coming = [0; CPUS];
    let (mut to, mut run) = (0, 0);
    for &task in &t.rows[cpu][..t.counts[cpu] as usize] {
        let next = target(t, task, others);
        if next != to {
            *coming.get_mut(to)? += run;
            (to, run) = (next, 0);
        }
        run += 1;
    }
    *coming.get_mut(to)? += run;
    Some(coming)
}

/// The lowest-numbered of the other CPUs that the task may use, or 64.
fn target(t: &Lent, task: u16, others: u64) -> usize {
    (t.mask[task as usize % TASKS] & others).trailing_zeros() as usize
}

/// The tasks of a CPU go to the online ones. They enter front to back, so each row becomes a merge of itself and of those
/// that come to it. It is made from the end on: every task moves once.
fn evacuate(t: &mut Lent, record: &mut Record, cpu: usize, coming: Numbers) {
    let (others, count) = (*t.online, t.counts[cpu] as usize);
    let (mut stay, mut come) = ([0; CPUS], coming);
    stay[..t.n].copy_from_slice(t.counts);
    let mut merge = Merge::of(0, &stay, &come);
    for at in (0..count).rev() {
        let task = t.rows[cpu][at];
        let to = target(t, task, others) % CPUS;
        if to != merge.to {
            stay[merge.to] = merge.stay as u16;
            come[merge.to] = merge.come as u16;
            merge = Merge::of(to, &stay, &come);
        }
        let prio = prio_of(t.prio, task);
        let place = merge.make_place(&mut t.rows[to], t.prio, prio);
        t.rows[to][place] = task;
        t.cpu[task as usize % TASKS] = to as u8;
        if place == 0 {
            record.set_level(to, level_of(prio));
        }
    }
    t.rows[cpu][..count].fill(NOTHING);
    t.counts[cpu] = 0;
    for (count, coming) in t.counts.iter_mut().zip(coming) {
        *count += coming;
    }
}

/// Of the row of CPU `to` the first `stay` tasks are not merged yet, and `come` are to come.
struct Merge {
    to: usize,
    stay: usize,
    come: usize,
}

impl Merge {
    fn of(to: usize, stay: &Numbers, come: &Numbers) -> Merge {
        Merge {
            to,
            stay: stay[to].into(),
            come: come[to].into(),
        }
    }

    /// The place of the last of those to come, which has this priority: who is below it stands back.
    fn make_place(&mut self, row: &mut Row, prios: &[u8; TASKS], prio: u8) -> usize {
        while self.stay > 0 && prio_of(prios, row[self.stay - 1]) < prio {
            self.stay -= 1;
            row[self.stay + self.come] = row[self.stay];
        }
        self.come -= 1;
        self.stay + self.come
    }
}
