//! What can be done to good tables.

use crate::generate::full;
use crate::plan::enter_level;
use crate::rng::Rng;
use crate::tables::{get, len, resize, right_lengths, set, COUNT, LENT, NAMES, ONLINE, SLICE};
use binding::{Tables, CPUS, INVALID, LEVELS, NOTHING, TASKS};
use std::fmt;

#[derive(Clone, Debug, PartialEq, Eq)]
pub enum Damage {
    /// One number of one table.
    Set {
        table: usize,
        index: usize,
        value: u64,
    },
    Resize {
        table: usize,
        len: usize,
    },
    /// N, with the tables as they are.
    Cpus(usize),
    /// The full slice, with the tables as they are.
    FullSlice(u32),
    /// A CPU place at another level, in all four tables of the record: consistent in itself, if the level may be.
    Relevel {
        cpu: usize,
        level: u8,
    },
    /// Another online mask, and each CPU at the level that it then has: tasks may be left in the row of an offline one.
    Replug(u64),
    /// Two places of one row change their tasks.
    Swap {
        cpu: usize,
        i: usize,
        j: usize,
    },
    /// A task stands also at the end of a row.
    Append {
        cpu: usize,
        task: u16,
    },
    /// The last of a row is lost.
    Drop {
        cpu: usize,
    },
    /// The first of a row gets another priority, and the CPU the level of it.
    Reprio {
        cpu: usize,
        prio: u8,
    },
}

impl Damage {
    /// Does what the tables' lengths allow; else nothing.
    pub fn apply(&self, t: &mut Tables) {
        match *self {
            Damage::Set {
                table,
                index,
                value,
            } => set(t, table, index, value),
            Damage::Resize { table, len } => resize(t, table, len),
            Damage::Cpus(n) => t.n = n,
            Damage::FullSlice(full_slice) => t.full_slice = full_slice,
            _ if !right_lengths(t) => (),
            Damage::Relevel { cpu, level } => relevel(t, cpu, level),
            Damage::Replug(online) => replug(t, online),
            Damage::Swap { cpu, i, j } => t.rows.swap(TASKS * cpu + i, TASKS * cpu + j),
            Damage::Append { cpu, task } => append(t, cpu, task),
            Damage::Drop { cpu } => drop_last(t, cpu),
            Damage::Reprio { cpu, prio } => reprio(t, cpu, prio),
        }
    }
}

fn relevel(t: &mut Tables, cpu: usize, level: u8) {
    let mut levels = t.levels.clone();
    levels[cpu] = level;
    make_record(t, &levels);
}

/// The record of these levels of 64 CPUs.
fn make_record(t: &mut Tables, levels: &[u8]) {
    t.level_masks.fill(0);
    t.level_counts.fill(0);
    t.level_words.fill(0);
    t.levels.copy_from_slice(levels);
    for (c, &l) in levels.iter().enumerate() {
        if (l as usize) < LEVELS {
            enter_level(t, c, l);
        }
    }
}

fn replug(t: &mut Tables, online: u64) {
    t.online = online;
    let level = |c: usize| match c < t.n && t.is_online(c) {
        true => level_by_row(t, c),
        false => INVALID,
    };
    let levels: Vec<u8> = (0..CPUS).map(level).collect();
    make_record(t, &levels);
}

/// The level that the first task or the flag gives, whatever they are.
fn level_by_row(t: &Tables, cpu: usize) -> u8 {
    let first = t.rows[TASKS * cpu] as usize;
    match t.prio.get(first) {
        Some(prio) if t.counts[cpu] > 0 => prio.saturating_add(2),
        _ => t.flags[cpu],
    }
}

fn append(t: &mut Tables, cpu: usize, task: u16) {
    let count = t.counts[cpu] as usize;
    if count < TASKS {
        t.rows[TASKS * cpu + count] = task;
        t.counts[cpu] += 1;
    }
}

fn drop_last(t: &mut Tables, cpu: usize) {
    let count = t.counts[cpu] as usize;
    if (1..=TASKS).contains(&count) {
        t.rows[TASKS * cpu + count - 1] = NOTHING;
        t.counts[cpu] -= 1;
    }
}

fn reprio(t: &mut Tables, cpu: usize, prio: u8) {
    let first = t.rows[TASKS * cpu] as usize;
    if t.counts[cpu] > 0 && first < TASKS {
        t.prio[first] = prio;
        relevel(t, cpu, prio.saturating_add(2));
    }
}

const EDGES: [u64; 26] = [
    0,
    1,
    2,
    3,
    63,
    64,
    65,
    98,
    99,
    100,
    101,
    102,
    103,
    128,
    254,
    255,
    256,
    511,
    512,
    513,
    1000,
    1001,
    65534,
    65535,
    1 << 63,
    u64::MAX,
];

/// A number near the old one, or far from it.
fn other_value(rng: &mut Rng, old: u64) -> u64 {
    match rng.below(6) {
        0 => old.wrapping_add(1),
        1 => old.wrapping_sub(1),
        2 => old ^ (1 << rng.below(64)),
        3 => old ^ (1 << rng.below(8)),
        4 => rng.pick(&EDGES),
        _ => rng.bits() >> rng.below(64),
    }
}

fn other_number(rng: &mut Rng, t: &Tables) -> Damage {
    let table = rng.below(COUNT);
    let top = len(t, table).max(1);
    // Half of the time a place that is in use, near the front.
    let index = match rng.percent(50) {
        true => rng.below(top),
        false => rng.below(top.min(8)) + TASKS * usize::from(table == 6) * rng.below(t.n.max(1)),
    };
    let old = match index < len(t, table) {
        true => get(t, table, index),
        false => 0,
    };
    Damage::Set {
        table,
        index,
        value: other_value(rng, old),
    }
}

/// Something that keeps the lengths. `t` has the right ones.
pub fn wrong_number(rng: &mut Rng, t: &Tables) -> Damage {
    let cpu = rng.below(t.n);
    let count = (t.counts[cpu] as usize).clamp(1, TASKS);
    match rng.below(22) {
        0 => Damage::Relevel {
            cpu: rng.below(CPUS),
            level: rng.pick(&[0, 1, 2, 3, 52, 63, 64, 101, 102, 254, 255]),
        },
        1 => Damage::Relevel {
            cpu,
            level: rng.below(104) as u8,
        },
        2 | 3 => Damage::Swap {
            cpu,
            i: rng.below(count),
            j: rng.below(count),
        },
        4 => Damage::Append {
            cpu,
            task: rng.below(TASKS) as u16,
        },
        5 => Damage::Append {
            cpu: rng.below(t.n),
            task: t.rows[TASKS * cpu].min(TASKS as u16),
        },
        6 => Damage::Drop { cpu },
        7 => Damage::Reprio {
            cpu,
            prio: rng.within(0, 100) as u8,
        },
        8 => word_bit(rng, t),
        9..=13 => task_column(rng, t),
        14 | 15 => Damage::Replug(other_online(rng, t)),
        16 => Damage::Set {
            table: ONLINE,
            index: 0,
            value: other_online(rng, t),
        },
        17 => offline_level(rng, t),
        _ => other_number(rng, t),
    }
}

/// An online mask of no CPU, with bits at N or above, or with one CPU or some the other way.
fn other_online(rng: &mut Rng, t: &Tables) -> u64 {
    let past = 1u64.checked_shl(t.n as u32).unwrap_or(0);
    let above = !full(t.n) & rng.bits();
    let one = 1u64 << rng.below(t.n);
    match rng.below(8) {
        0 => 0,
        1 => rng.pick(&[past, above, !full(t.n)]),
        2 => t.online | rng.pick(&[past, above, 1 << 63]),
        3..=5 => t.online ^ one,
        6 => one,
        _ => rng.bits() & full(t.n),
    }
}

/// An offline CPU at a level, or an online one at INVALID.
fn offline_level(rng: &mut Rng, t: &Tables) -> Damage {
    let cpu = rng.below(t.n);
    let level = match t.is_online(cpu) {
        true => INVALID,
        false => rng.pick(&[t.flags[cpu], 0, 1, 52, 101]),
    };
    Damage::Relevel { cpu, level }
}

/// One of the word bits 102 to 127 too many, or another bit changed.
fn word_bit(rng: &mut Rng, t: &Tables) -> Damage {
    let (index, bit) = match rng.percent(70) {
        true => (1, rng.within(102, 127) % 64),
        false => (rng.below(2), rng.below(64)),
    };
    Damage::Set {
        table: 12,
        index,
        value: t.level_words[index] ^ (1 << bit),
    }
}

/// A column of a place that has a task, or of the one after it.
fn task_column(rng: &mut Rng, t: &Tables) -> Damage {
    let table = rng.pick(&[0, 1, 2, 3, 4, 5, 5]);
    let used: Vec<usize> = (0..TASKS).filter(|&i| t.state[i] != 0).collect();
    let index = match used.is_empty() {
        true => rng.below(TASKS),
        false => (rng.pick(&used) + usize::from(rng.percent(20))) % TASKS,
    };
    let value = match rng.percent(70) {
        true => at_limit(rng, t, table, index),
        false => other_value(rng, get(t, table, index)),
    };
    Damage::Set {
        table,
        index,
        value,
    }
}

/// The last good number of a column, or the first bad one.
fn at_limit(rng: &mut Rng, t: &Tables, column: usize, task: usize) -> u64 {
    let (n, full_slice) = (t.n as u64, u64::from(t.full_slice));
    let past = 1u64.checked_shl(t.n as u32).unwrap_or(0);
    let own = 1u64 << (t.cpu[task] % 64);
    let old = t.mask[task];
    match column {
        0 | 1 => rng.pick(&[0, 1, 2, 3]),
        2 => rng.pick(&[0, 1, 99, 100]),
        3 => rng.pick(&[0, n - 1, n, 255]),
        SLICE => rng.pick(&[0, 1, full_slice, full_slice + 1]),
        _ => rng.pick(&[0, old | past, old & !own, old & !own, own]),
    }
}

/// A table of another length, or another N.
pub fn wrong_size(rng: &mut Rng, t: &Tables) -> Damage {
    if rng.percent(25) {
        return Damage::Cpus(other_n(rng, t.n));
    }
    let table = rng.below(LENT);
    let right = len(t, table);
    let lengths = [
        0,
        1,
        right - 1,
        right + 1,
        right / 2,
        three_of_four(right),
        right * 2,
        right + 511,
    ];
    let len = match rng.percent(80) {
        true => rng.pick(&lengths),
        false => rng.below(2 * right + 2),
    };
    Damage::Resize { table, len }
}

/// A full slice out of range, or in range and not the one that the tables were made with: W2 then decides by the largest
/// slice that they hold.
pub fn other_full_slice(rng: &mut Rng, t: &Tables) -> Damage {
    let (full, longest) = (t.full_slice, u32::from(longest_slice(t)));
    let any = rng.bits() as u32 >> rng.below(32);
    let wide = [65535, 65536, 65536 + full, 65536 + 25, any, u32::MAX];
    let others = [full - 1, full + 1, longest, longest.saturating_sub(1)];
    Damage::FullSlice(match rng.below(4) {
        0 => rng.pick(&[0, 1001]),
        1 => rng.pick(&wide),
        2 => rng.pick(&others),
        _ => rng.pick(&[1, 2, 25, 100, 999, 1000]),
    })
}

/// The largest slice that the tables hold.
fn longest_slice(t: &Tables) -> u16 {
    t.slice.iter().copied().max().unwrap_or(0)
}

/// Of a log of entries of four numbers, its length with entries of three; of another table, just a wrong one.
pub fn three_of_four(right: usize) -> usize {
    right / 4 * 3
}

/// N that is not the tables', small, large and such that 512 times it wraps around to a small number.
pub fn other_n(rng: &mut Rng, n: usize) -> usize {
    let wraps = (1usize << (usize::BITS - 9)) + n;
    let edges = [
        0,
        1,
        63,
        64,
        65,
        66,
        128,
        256,
        512,
        n + 1,
        n - 1,
        wraps,
        usize::MAX,
        usize::MAX - 1,
    ];
    match rng.percent(80) {
        true => rng.pick(&edges),
        false => rng.bits() as usize >> rng.below(64),
    }
}

impl fmt::Display for Damage {
    fn fmt(&self, f: &mut fmt::Formatter) -> fmt::Result {
        match self {
            Damage::Set {
                table,
                index,
                value,
            } => write!(f, "{}[{index}] := {value:#x}", NAMES[*table]),
            Damage::Resize { table, len } => write!(f, "{} has length {len}", NAMES[*table]),
            Damage::Cpus(n) => write!(f, "N := {n}"),
            Damage::FullSlice(full_slice) => write!(f, "full slice := {full_slice}"),
            Damage::Replug(online) => write!(f, "online := {online:#x}, and the levels by it"),
            other => write!(f, "{other:?}"),
        }
    }
}
