//! Random well-formed machines, settled or not.

use crate::plan::{Plan, TaskPlan};
use crate::rng::Rng;
use binding::{NOTHING, TASKS};

#[derive(Clone, Copy, PartialEq, Eq)]
enum Masks {
    All,
    Any,
    One,
    Two,
    /// CPU c and the next: long chains of moves.
    Neighbours,
    Mixed,
}

/// What the tasks of a machine have in common.
pub struct Style {
    pub n: usize,
    pub full_slice: u32,
    prios: Vec<u8>,
    masks: Masks,
    rr: usize,
    short_slices: bool,
    /// Everything waits on the lowest allowed CPU.
    piled: bool,
    runnable: usize,
}

/// Every bit below N.
pub fn full(n: usize) -> u64 {
    u64::MAX >> (64 - n)
}

/// Which CPUs are online: all, all but one, any, or one. Never none.
fn online(rng: &mut Rng, n: usize) -> u64 {
    let one = 1u64 << rng.below(n);
    let some = match rng.below(10) {
        0..=3 => full(n),
        4 | 5 => full(n) & !one,
        6..=8 => rng.bits() & full(n),
        _ => one,
    };
    match some {
        0 => one,
        some => some,
    }
}

/// A full slice: one at a limit, the default, the paper's 100, or any.
fn full_slice(rng: &mut Rng) -> u32 {
    let any = rng.within(1, 1000) as u32;
    rng.pick(&[1, 1, 2, 3, 25, 25, 100, 100, 999, 1000, 1000, any])
}

impl Style {
    pub fn random(rng: &mut Rng) -> Style {
        let n = match rng.below(10) {
            0..=4 => rng.within(1, 4),
            5..=7 => rng.within(5, 16),
            8 => rng.within(17, 64),
            _ => rng.pick(&[32, 33, 62, 63, 64]),
        };
        let many = rng.pick(&[1, 2, 3, 8, 99]);
        let prios = match many {
            99 => (1..=99).collect(),
            few => (0..few).map(|_| rng.within(1, 99) as u8).collect(),
        };
        let lively = rng.percent(30);
        let full_slice = full_slice(rng);
        if lively {
            return Style {
                n: rng.within(n, 64),
                full_slice,
                prios: (1..=99).collect(),
                masks: rng.pick(&[Masks::Two, Masks::Neighbours]),
                rr: 50,
                short_slices: true,
                piled: rng.percent(50),
                runnable: 90,
            };
        }
        Style {
            n,
            full_slice,
            prios,
            masks: rng.pick(&[
                Masks::All,
                Masks::Any,
                Masks::One,
                Masks::Two,
                Masks::Neighbours,
                Masks::Mixed,
            ]),
            rr: rng.pick(&[0, 50, 100]),
            short_slices: rng.percent(70),
            piled: rng.percent(40),
            runnable: rng.pick(&[0, 50, 80, 100]),
        }
    }

    pub fn prio(&self, rng: &mut Rng) -> u8 {
        rng.pick(&self.prios)
    }

    pub fn policy(&self, rng: &mut Rng) -> u8 {
        if rng.percent(self.rr) {
            2
        } else {
            1
        }
    }

    /// A mask that W2 accepts.
    pub fn mask(&self, rng: &mut Rng) -> u64 {
        let masks = match self.masks {
            Masks::Mixed => rng.pick(&[Masks::All, Masks::Any, Masks::One, Masks::Two]),
            masks => masks,
        };
        let one = |rng: &mut Rng| 1u64 << rng.below(self.n);
        let mask = match masks {
            Masks::All => full(self.n),
            Masks::Any | Masks::Mixed => rng.bits() & full(self.n),
            Masks::One => one(rng),
            Masks::Two => one(rng) | one(rng),
            Masks::Neighbours => (3 << rng.below(self.n)) & full(self.n),
        };
        match mask {
            0 => one(rng),
            mask => mask,
        }
    }

    /// A slice that W2 accepts: few ticks, or any number of them, often the last one or all.
    fn slice(&self, rng: &mut Rng) -> u16 {
        let full = self.full_slice as usize;
        let slice = match self.short_slices {
            true => rng.within(1, full.min(3)),
            false => {
                let any = rng.within(1, full);
                rng.pick(&[1, full, any])
            }
        };
        slice as u16
    }

    /// A task that is runnable only if some of these online CPUs is allowed.
    fn task(&self, rng: &mut Rng, id: u16, online: u64) -> TaskPlan {
        let mask = self.mask(rng);
        let allowed = mask & online;
        let runnable = allowed != 0 && rng.percent(self.runnable);
        let cpu = match (runnable, self.piled) {
            (true, true) => allowed.trailing_zeros() as usize,
            (true, false) => {
                let cpus: Vec<usize> = (0..self.n).filter(|c| allowed >> c & 1 == 1).collect();
                rng.pick(&cpus)
            }
            (false, true) => mask.trailing_zeros() as usize,
            (false, false) => rng.below(self.n),
        };
        TaskPlan {
            id,
            runnable,
            policy: self.policy(rng),
            prio: self.prio(rng),
            cpu: cpu as u8,
            slice: self.slice(rng),
            mask,
        }
    }
}

/// How many task places a machine uses: few, about as many as CPUs, or up to all 512.
fn task_count(rng: &mut Rng, n: usize) -> usize {
    match rng.below(10) {
        0 => 0,
        1..=3 => rng.within(1, 6),
        4..=7 => rng.within(1, 3 * n),
        8 => rng.within(0, TASKS),
        _ => rng.pick(&[TASKS - 1, TASKS, 100]),
    }
}

/// A chain: CPU c runs a task that may use c and c+1, each lower than the one before. One that takes the first
/// CPU pushes all the others on: task 511, which sleeps yet or waits already. So does the first one if its CPU goes offline.
pub fn chain(rng: &mut Rng, style: &Style, asleep: bool) -> (Plan, Vec<u16>) {
    let mut plan = Plan::empty(style.n, style.full_slice);
    let full_slice = style.full_slice as u16;
    for c in 0..style.n {
        plan.tasks.push(TaskPlan {
            id: c as u16,
            runnable: true,
            policy: 1,
            prio: 95 - c as u8,
            cpu: c as u8,
            slice: full_slice,
            mask: (3 << c) & full(style.n),
        });
    }
    plan.tasks.push(TaskPlan {
        id: 511,
        runnable: !asleep,
        policy: style.policy(rng),
        prio: 99,
        cpu: 0,
        slice: full_slice.min(7),
        mask: 1,
    });
    let pool = plan.tasks.iter().map(|task| task.id).collect();
    (plan, pool)
}

/// A machine and the task numbers its events will mostly speak of.
pub fn machine(rng: &mut Rng, style: &Style) -> (Plan, Vec<u16>) {
    let mut ids: Vec<u16> = (0..TASKS as u16).collect();
    if rng.percent(50) {
        rng.shuffle(&mut ids);
    }
    let count = task_count(rng, style.n);
    let pool: Vec<u16> = ids[..(count + 4).min(TASKS)].to_vec();
    if rng.percent(4) {
        let asleep = rng.percent(50);
        return chain(rng, style, asleep);
    }
    let mut plan = Plan::empty(style.n, style.full_slice);
    let some = rng.bits();
    plan.flags = rng.pick(&[0, u64::MAX, some]) & full(style.n);
    plan.online = online(rng, style.n);
    plan.tasks = ids[..count]
        .iter()
        .map(|&id| style.task(rng, id, plan.online))
        .collect();
    rng.shuffle(&mut plan.tasks);
    plan.log = rng.pick(&[NOTHING, 0, 40_000]);
    (plan, pool)
}
