//! The check of all tables, W1 to W6: one pass over the rows, one over the columns.

use crate::consistent::is_consistent;
use crate::find::mask_fits;
use crate::record::{level_of, Record, INVALID};
use crate::tables::{Tables, ASLEEP, FREE, NOTHING, RUNNABLE, TASKS};

/// Which tasks stand in rows, 64 to a word.
type Placed = [u64; TASKS / 64];

/// 0, 1 or 2.
pub fn check(t: &Tables, record: &Record) -> u8 {
    if !t.sizes_fit() {
        return 1;
    }
    let mut placed = [0; TASKS / 64];
    let fits = mask_fits(t.n, t.online)
        && (0..t.n).all(|cpu| row_fits(t, record, cpu, &mut placed))
        && columns_fit(t, &placed)
        && is_consistent(t.n, record);
    if fits {
        0
    } else {
        2
    }
}

fn row_fits(t: &Tables, record: &Record, cpu: usize, placed: &mut Placed) -> bool {
    let count = t.counts[cpu] as usize;
    if count > TASKS || t.flags[cpu] > 1 {
        return false;
    }
    let (tasks, unused) = t.rows[cpu].split_at(count);
    if !tasks_fit(t, cpu, tasks, placed) || !empty(unused) {
        return false;
    }
    let online = t.online >> cpu & 1 == 1;
    match tasks.first() {
        Some(&first) => online && record.levels[cpu] == level_of(t.prio[first as usize]),
        None if online => record.levels[cpu] == t.flags[cpu],
        None => record.levels[cpu] == INVALID,
    }
}

/// No unused place of a row holds a task. It looks at all of them before it decides, which the compiler makes many at a
/// time: 65535 has every bit.
fn empty(unused: &[u16]) -> bool {
    unused.iter().fold(NOTHING, |all, &place| all & place) == NOTHING
}

/// Each task of a row may stand there, and stood in none before.
fn tasks_fit(t: &Tables, cpu: usize, tasks: &[u16], placed: &mut Placed) -> bool {
    let mut bound = 99;
    for &task in tasks {
        let task = task as usize;
        if task >= TASKS
            || t.state[task] != RUNNABLE
            || t.cpu[task] as usize != cpu
            || t.prio[task] > bound
        {
            return false;
        }
        let bit = 1 << (task % 64);
        if placed[task / 64] & bit != 0 {
            return false;
        }
        placed[task / 64] |= bit;
        bound = t.prio[task];
    }
    true
}

/// The task columns of a machine of n CPUs, with their lengths known.
struct Columns<'a> {
    n: usize,
    full_slice: u16,
    state: &'a [u8; TASKS],
    policy: &'a [u8; TASKS],
    prio: &'a [u8; TASKS],
    cpu: &'a [u8; TASKS],
    slice: &'a [u16; TASKS],
    mask: &'a [u64; TASKS],
}

fn columns_fit(t: &Tables, placed: &Placed) -> bool {
    let checked = "lengths were checked";
    let columns = Columns {
        n: t.n,
        full_slice: t.full_slice as u16,
        state: t.state[..].try_into().expect(checked),
        policy: t.policy[..].try_into().expect(checked),
        prio: t.prio[..].try_into().expect(checked),
        cpu: t.cpu[..].try_into().expect(checked),
        slice: t.slice[..].try_into().expect(checked),
        mask: t.mask[..].try_into().expect(checked),
    };
    (0..TASKS).all(|task| columns.task_fits(task, placed))
}

impl Columns<'_> {
    /// W1 and W2 of one task, and a runnable one stands in a row whose CPU is allowed.
    fn task_fits(&self, task: usize, placed: &Placed) -> bool {
        let (policy, prio, cpu) = (self.policy[task], self.prio[task], self.cpu[task]);
        let (slice, mask) = (self.slice[task], self.mask[task]);
        if self.state[task] == FREE {
            return policy == 0 && prio == 0 && cpu == 0 && slice == 0 && mask == 0;
        }
        let in_range = matches!(policy, 1 | 2)
            && (1..=99).contains(&prio)
            && (cpu as usize) < self.n
            && (1..=self.full_slice).contains(&slice)
            && mask_fits(self.n, mask);
        match self.state[task] {
            ASLEEP => in_range,
            RUNNABLE => {
                let stands = placed[task / 64] >> (task % 64) & 1 == 1;
                in_range && stands && mask >> cpu & 1 == 1
            }
            _ => false,
        }
    }
}
