//! The event without its check of the tables, which is no public entry. What it requires is in the types: tables that
//! passed the check, of a settled machine or of any.

mod settled;

use binding::{Event, Outcome, Tables};
use settled::is_settled;

extern "C" {
    /// The record's four tables have fixed lengths, and are lent without them.
    fn qoriwesh_inner_event(
        settled: bool,
        n: usize,
        state: *mut u8,
        state_len: usize,
        policy: *mut u8,
        policy_len: usize,
        prio: *mut u8,
        prio_len: usize,
        cpu: *mut u8,
        cpu_len: usize,
        slice: *mut u16,
        slice_len: usize,
        mask: *mut u64,
        mask_len: usize,
        rows: *mut u16,
        rows_len: usize,
        counts: *mut u16,
        counts_len: usize,
        flags: *mut u8,
        flags_len: usize,
        online: *mut u64,
        log: *mut u16,
        log_len: usize,
        level_masks: *mut u64,
        level_counts: *mut u8,
        level_words: *mut u64,
        levels: *mut u8,
        full_slice: u16,
        kind: u32,
        who: u32,
        a: u32,
        b: u32,
        k: u64,
        moves: *mut u32,
    ) -> u8;
}

/// Tables that passed the check. An event leaves them such.
#[derive(Clone)]
pub struct Checked(Tables);

/// Such tables of a settled machine: no task is movable. An event leaves them such.
#[derive(Clone)]
pub struct Settled(Tables);

impl Checked {
    /// # Panics
    /// If the tables do not pass.
    pub fn new(tables: Tables) -> Checked {
        assert_eq!(tables.check(), 0, "tables that pass the check");
        Checked(tables)
    }

    pub fn tables(&self) -> &Tables {
        &self.0
    }

    /// The event, with nothing said of the machine.
    pub fn event(&mut self, e: Event) -> Outcome {
        // Safety: the tables passed the check.
        unsafe { event(false, &mut self.0, e) }
    }
}

impl Settled {
    /// # Panics
    /// If the tables do not pass the check, or a task is movable.
    pub fn new(tables: Tables) -> Settled {
        assert_eq!(tables.check(), 0, "tables that pass the check");
        assert!(is_settled(&tables), "a settled machine");
        Settled(tables)
    }

    pub fn tables(&self) -> &Tables {
        &self.0
    }

    /// Takes over what the other tables hold. They have the same lengths.
    pub fn copy_from(&mut self, other: &Settled) {
        copy(&other.0, &mut self.0);
    }

    /// The public entry.
    pub fn checked_event(&mut self, e: Event) -> Outcome {
        self.0.event(e)
    }

    /// The event, which is told that the machine is settled.
    pub fn event(&mut self, e: Event) -> Outcome {
        // Safety: the tables passed the check, and the machine is settled.
        unsafe { event(true, &mut self.0, e) }
    }
}

/// # Safety
/// The tables pass the check. If `settled` is said, no task is movable.
unsafe fn event(settled: bool, t: &mut Tables, e: Event) -> Outcome {
    let mut moves = 0;
    // Safety: the tables pass the check, so the record's four have their lengths and the full slice, at most 1000, is whole
    // in 16 bits; each pointer is a vector's own, with its length, or the online mask's, and no two overlap; `moves` is a local
    // of this function.
    let answer = unsafe {
        qoriwesh_inner_event(
            settled,
            t.n,
            t.state.as_mut_ptr(),
            t.state.len(),
            t.policy.as_mut_ptr(),
            t.policy.len(),
            t.prio.as_mut_ptr(),
            t.prio.len(),
            t.cpu.as_mut_ptr(),
            t.cpu.len(),
            t.slice.as_mut_ptr(),
            t.slice.len(),
            t.mask.as_mut_ptr(),
            t.mask.len(),
            t.rows.as_mut_ptr(),
            t.rows.len(),
            t.counts.as_mut_ptr(),
            t.counts.len(),
            t.flags.as_mut_ptr(),
            t.flags.len(),
            &mut t.online,
            t.log.as_mut_ptr(),
            t.log.len(),
            t.level_masks.as_mut_ptr(),
            t.level_counts.as_mut_ptr(),
            t.level_words.as_mut_ptr(),
            t.levels.as_mut_ptr(),
            t.full_slice as u16,
            e.kind,
            e.who,
            e.a,
            e.b,
            e.mask,
            &mut moves,
        )
    };
    Outcome { answer, moves }
}

/// Copies the full slice, the online mask and every table in place.
fn copy(from: &Tables, to: &mut Tables) {
    to.full_slice = from.full_slice;
    to.state.copy_from_slice(&from.state);
    to.policy.copy_from_slice(&from.policy);
    to.prio.copy_from_slice(&from.prio);
    to.cpu.copy_from_slice(&from.cpu);
    to.slice.copy_from_slice(&from.slice);
    to.mask.copy_from_slice(&from.mask);
    to.rows.copy_from_slice(&from.rows);
    to.counts.copy_from_slice(&from.counts);
    to.flags.copy_from_slice(&from.flags);
    to.online = from.online;
    to.log.copy_from_slice(&from.log);
    to.level_masks.copy_from_slice(&from.level_masks);
    to.level_counts.copy_from_slice(&from.level_counts);
    to.level_words.copy_from_slice(&from.level_words);
    to.levels.copy_from_slice(&from.levels);
}

#[cfg(test)]
mod tests {
    use super::*;

    /// Taken over with the tables, and handed in with either event.
    #[test]
    fn the_full_slice_is_copied_too() {
        let fresh = |ticks| Settled::new(Tables::fresh_with_slice(1, ticks).expect("1 CPU"));
        let mut now = fresh(2);
        now.copy_from(&fresh(40));
        let add = |who| Event {
            kind: 1,
            who,
            a: 1,
            b: 50,
            mask: 1,
        };
        assert_eq!(now.event(add(0)).answer, 0);
        assert_eq!(now.checked_event(add(1)).answer, 0);
        assert_eq!(now.tables().slice[..2], [40, 40]);
    }
}
