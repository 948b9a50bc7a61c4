//! The fourteen tables by number, so that any of them can be damaged, resized or compared; and the online mask as one more, of
//! one number.

use binding::{Tables, CPUS};

pub const COUNT: usize = 15;

/// The tables that have a length: all but the online mask, which is the last.
pub const LENT: usize = COUNT - 1;

/// The numbers of the slice column, of the log and of the online mask.
pub const SLICE: usize = 4;
pub const LOG: usize = 9;
pub const ONLINE: usize = 14;

pub const NAMES: [&str; COUNT] = [
    "state",
    "policy",
    "prio",
    "cpu",
    "slice",
    "mask",
    "rows",
    "counts",
    "flags",
    "log",
    "level_masks",
    "level_counts",
    "level_words",
    "levels",
    "online",
];

/// A number of a table, from the low bits of a wide one.
trait Cut: Copy + Default + Into<u64> {
    fn cut(wide: u64) -> Self;
}

impl Cut for u8 {
    fn cut(wide: u64) -> u8 {
        wide as u8
    }
}

impl Cut for u16 {
    fn cut(wide: u64) -> u16 {
        wide as u16
    }
}

impl Cut for u64 {
    fn cut(wide: u64) -> u64 {
        wide
    }
}

/// A table, whatever its numbers' width.
trait Table {
    fn len(&self) -> usize;
    fn get(&self, index: usize) -> u64;
    fn set(&mut self, index: usize, value: u64);
    fn resize(&mut self, len: usize);
}

impl<T: Cut> Table for Vec<T> {
    fn len(&self) -> usize {
        self.len()
    }

    fn get(&self, index: usize) -> u64 {
        self[index].into()
    }

    fn set(&mut self, index: usize, value: u64) {
        if let Some(place) = self.get_mut(index) {
            *place = T::cut(value);
        }
    }

    fn resize(&mut self, len: usize) {
        let filler = self.last().copied().unwrap_or_default();
        self.resize(len, filler);
    }
}

/// A word that is lent alone keeps its length.
impl Table for u64 {
    fn len(&self) -> usize {
        1
    }

    fn get(&self, _: usize) -> u64 {
        *self
    }

    fn set(&mut self, index: usize, value: u64) {
        if index == 0 {
            *self = value;
        }
    }

    fn resize(&mut self, _: usize) {}
}

fn ours(t: &Tables) -> [&dyn Table; COUNT] {
    [
        &t.state,
        &t.policy,
        &t.prio,
        &t.cpu,
        &t.slice,
        &t.mask,
        &t.rows,
        &t.counts,
        &t.flags,
        &t.log,
        &t.level_masks,
        &t.level_counts,
        &t.level_words,
        &t.levels,
        &t.online,
    ]
}

fn ours_mut(t: &mut Tables) -> [&mut dyn Table; COUNT] {
    [
        &mut t.state,
        &mut t.policy,
        &mut t.prio,
        &mut t.cpu,
        &mut t.slice,
        &mut t.mask,
        &mut t.rows,
        &mut t.counts,
        &mut t.flags,
        &mut t.log,
        &mut t.level_masks,
        &mut t.level_counts,
        &mut t.level_words,
        &mut t.levels,
        &mut t.online,
    ]
}

fn theirs(t: &reference::Tables) -> [&dyn Table; COUNT] {
    [
        &t.state,
        &t.policy,
        &t.prio,
        &t.cpu,
        &t.slice,
        &t.mask,
        &t.rows,
        &t.counts,
        &t.flags,
        &t.log,
        &t.level_masks,
        &t.level_counts,
        &t.level_words,
        &t.levels,
        &t.online,
    ]
}

pub fn len(t: &Tables, table: usize) -> usize {
    ours(t)[table].len()
}

/// The number at a place, widened. The place is there.
pub fn get(t: &Tables, table: usize, index: usize) -> u64 {
    ours(t)[table].get(index)
}

/// Puts the low bits of a number at a place, if the place is there.
pub fn set(t: &mut Tables, table: usize, index: usize, value: u64) {
    ours_mut(t)[table].set(index, value);
}

/// Cuts a table, or lengthens it with copies of its last number.
pub fn resize(t: &mut Tables, table: usize, len: usize) {
    ours_mut(t)[table].resize(len);
}

/// The same tables for the reference.
pub fn for_reference(t: &Tables) -> reference::Tables {
    let t = t.clone();
    reference::Tables {
        n: t.n,
        full_slice: t.full_slice,
        state: t.state,
        policy: t.policy,
        prio: t.prio,
        cpu: t.cpu,
        slice: t.slice,
        mask: t.mask,
        rows: t.rows,
        counts: t.counts,
        flags: t.flags,
        online: t.online,
        log: t.log,
        level_masks: t.level_masks,
        level_counts: t.level_counts,
        level_words: t.level_words,
        levels: t.levels,
    }
}

/// The reference's tables as ours.
pub fn from_reference(t: &reference::Tables) -> Tables {
    let t = t.clone();
    Tables {
        n: t.n,
        full_slice: t.full_slice,
        state: t.state,
        policy: t.policy,
        prio: t.prio,
        cpu: t.cpu,
        slice: t.slice,
        mask: t.mask,
        rows: t.rows,
        counts: t.counts,
        flags: t.flags,
        online: t.online,
        log: t.log,
        level_masks: t.level_masks,
        level_counts: t.level_counts,
        level_words: t.level_words,
        levels: t.levels,
    }
}

/// The ticks that are left to the task that runs on a CPU, if it is RR: at 1 the next tick ends its slice. Of well-formed
/// tables.
pub fn ticks_left(t: &Tables, cpu: usize) -> Option<u16> {
    let runs = usize::from(*t.row(cpu).first()?);
    (t.policy[runs] == 2).then_some(t.slice[runs])
}

/// Whether N is 1 to 64 and each table has the length that it asks for.
pub fn right_lengths(t: &Tables) -> bool {
    let good = Tables::zeroed(t.n);
    (1..=CPUS).contains(&t.n) && (0..COUNT).all(|table| len(t, table) == len(&good, table))
}

/// All tables, byte by byte, and the online mask.
fn same(a: &Tables, b: &reference::Tables) -> bool {
    a.state == b.state
        && a.policy == b.policy
        && a.prio == b.prio
        && a.cpu == b.cpu
        && a.slice == b.slice
        && a.mask == b.mask
        && a.rows == b.rows
        && a.counts == b.counts
        && a.flags == b.flags
        && a.online == b.online
        && a.log == b.log
        && a.level_masks == b.level_masks
        && a.level_counts == b.level_counts
        && a.level_words == b.level_words
        && a.levels == b.levels
}

/// The first place at which the tables differ: table, index, ours, theirs. A length that differs has no index.
pub fn first_difference(
    a: &Tables,
    b: &reference::Tables,
) -> Option<(usize, Option<usize>, u64, u64)> {
    if same(a, b) {
        return None;
    }
    let both = ours(a).into_iter().zip(theirs(b)).enumerate();
    both.into_iter().find_map(|(table, (a, b))| {
        if a.len() != b.len() {
            return Some((table, None, a.len() as u64, b.len() as u64));
        }
        let at = (0..a.len()).find(|&i| a.get(i) != b.get(i))?;
        Some((table, Some(at), a.get(at), b.get(at)))
    })
}
