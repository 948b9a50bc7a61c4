//! The mover: of the waiting tasks the foremost that passes a test.

use crate::record::{level_of, Record};
use crate::row::prio_of;
use crate::tables::{Lent, Row, NOTHING};

/// Rows that are passed over at once.
const BLOCK: usize = 16;

/// Of these rows the foremost waiting task that is above a priority and passes a test, and its CPU: that of highest priority,
/// among equals the one on the lowest-numbered CPU, among those the earliest in its row. `first` gives the first of a row
/// that is above a priority and passes. The rows before the one in which there is such a task leave the mask.
#[inline(always)]
pub fn foremost(
    t: &Lent,
    record: &Record,
    floor: u8,
    rows: &mut u64,
    mut first: impl FnMut(&Row, u8) -> Option<(u16, u8)>,
) -> Option<(u16, u8)> {
    let mut best = None;
    let mut floor = floor;
    let mut cpus = *rows;
    while cpus != 0 {
        let cpu = cpus.trailing_zeros() as usize;
        cpus &= cpus - 1;
        // Nobody there is above the first of the row.
        if record.levels[cpu] <= level_of(floor) {
            continue;
        }
        if let Some((task, prio)) = first(&t.rows[cpu], floor) {
            if best.is_none() {
                *rows &= u64::MAX << cpu;
            }
            best = Some((task, cpu as u8));
            floor = prio;
        }
    }
    best
}

/// The first of a row's waiting tasks that is above a priority and passes a test, and its priority. Priorities fall along a
/// row, and the places behind its tasks hold no task's number.
#[inline(always)]
pub fn first(
    t: &Lent,
    row: &Row,
    floor: u8,
    mut test: impl FnMut(u16, u8) -> bool,
) -> Option<(u16, u8)> {
    for &task in &row[1..] {
        let prio = *t.prio.get(task as usize)?;
        if prio <= floor {
            return None;
        }
        if test(task, prio) {
            return Some((task, prio));
        }
    }
    None
}

/// The CPUs on which somebody waits who is above a priority, as a mask. All counts of a block are looked at before it is
/// decided, which the compiler makes many at a time, and of a block no row is touched in which nobody waits.
pub fn rows_above(t: &Lent, floor: u8) -> u64 {
    let above = |row: &Row| prio_of(t.prio, row[1]) > floor;
    let rows = t.rows.chunks_exact(BLOCK);
    let rest = rows.remainder();
    let from = (t.n - rest.len()) as u32;
    let of_rest = bits(rest.iter().map(|row| row[1] != NOTHING && above(row)));
    let mut cpus = of_rest.wrapping_shl(from);
    for (i, (counts, rows)) in t.counts.chunks_exact(BLOCK).zip(rows).enumerate() {
        if counts
            .iter()
            .fold(false, |waits, &count| waits | (count > 1))
        {
            let block = counts.iter().zip(rows);
            let of_block = bits(block.map(|(&count, row)| count > 1 && above(row)));
            cpus |= of_block << (BLOCK * i);
        }
    }
    cpus
}

fn bits(flags: impl Iterator<Item = bool>) -> u64 {
    let mut bits = 0;
    for (i, flag) in flags.enumerate() {
        if flag {
            bits |= 1 << i;
        }
    }
    bits
}
