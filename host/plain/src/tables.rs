//! The ten tables and the online mask that a caller lends, their lengths, and the two numbers of the machine.

use crate::find::all;
use crate::record::{Record, CPUS};
use std::mem::replace;

pub const TASKS: usize = 512;
/// Entries of the log, and the numbers of one.
pub const ENTRIES: usize = 63;
pub const ENTRY: usize = 4;
/// An unused place of a row, and each number of a fresh log.
pub const NOTHING: u16 = 65535;

pub const FREE: u8 = 0;
pub const ASLEEP: u8 = 1;
pub const RUNNABLE: u8 = 2;
pub const RR: u8 = 2;

/// Ticks of a full slice at most, and where none are named.
pub const SLICE_MAX: u32 = 1000;
pub const SLICE_DEFAULT: u32 = 25;

/// The places of one CPU: who runs, who waits, and 65535 in the rest.
pub type Row = [u16; TASKS];

/// A move in the log: the task, where it came from, where it went, and that CPU's level before.
pub type Entry = [u16; ENTRY];

/// Tables of any length.
#[derive(Clone, Debug, PartialEq, Eq)]
pub struct Tables {
    pub n: usize,
    pub full_slice: u32,
    pub state: Vec<u8>,
    pub policy: Vec<u8>,
    pub prio: Vec<u8>,
    pub cpu: Vec<u8>,
    pub slice: Vec<u16>,
    pub mask: Vec<u64>,
    pub rows: Vec<Row>,
    pub counts: Vec<u16>,
    pub flags: Vec<u8>,
    /// Bit c is set if CPU c is online.
    pub online: u64,
    pub log: Vec<Entry>,
}

/// The same tables, lent with the lengths that n CPUs ask for: there are n rows, counts and flags.
pub struct Lent<'a> {
    pub n: usize,
    pub full_slice: u16,
    pub state: &'a mut [u8; TASKS],
    pub policy: &'a mut [u8; TASKS],
    pub prio: &'a mut [u8; TASKS],
    pub cpu: &'a mut [u8; TASKS],
    pub slice: &'a mut [u16; TASKS],
    pub mask: &'a mut [u64; TASKS],
    pub rows: &'a mut [Row],
    pub counts: &'a mut [u16],
    pub flags: &'a mut [u8],
    pub online: &'a mut u64,
    pub log: &'a mut [Entry; ENTRIES],
}

impl<'a> Lent<'a> {
    pub fn is_online(&self, cpu: usize) -> bool {
        *self.online >> cpu & 1 == 1
    }

    /// The tables of a machine of the first n CPUs, with this full slice.
    pub fn first_cpus(self, n: usize, full_slice: u16) -> Lent<'a> {
        Lent {
            n,
            full_slice,
            rows: &mut self.rows[..n],
            counts: &mut self.counts[..n],
            flags: &mut self.flags[..n],
            ..self
        }
    }

    /// A fresh machine, whatever the tables held.
    pub fn make_fresh(&mut self, record: &mut Record) {
        self.state.fill(0);
        self.policy.fill(0);
        self.prio.fill(0);
        self.cpu.fill(0);
        self.slice.fill(0);
        self.mask.fill(0);
        self.rows.fill([NOTHING; TASKS]);
        self.counts.fill(0);
        self.flags.fill(0);
        *self.online = all(self.n);
        self.log.fill([NOTHING; ENTRY]);
        *record = Record::fresh(self.n);
    }
}

/// What a maker answers: 0 and the machine's full slice, or 1 and 0.
#[derive(Clone, Copy, Debug, PartialEq, Eq)]
pub struct Made {
    pub answer: u8,
    pub full_slice: u32,
}

impl Made {
    const REFUSED: Made = Made {
        answer: 1,
        full_slice: 0,
    };
}

impl Tables {
    /// N is 1 to 64, the full slice is 1 to 1000, and each table has its length.
    pub fn sizes_fit(&self) -> bool {
        (1..=CPUS).contains(&self.n)
            && (1..=SLICE_MAX).contains(&self.full_slice)
            && self.lengths_fit(self.n)
    }

    /// Each table has the length that so many CPUs ask for.
    fn lengths_fit(&self, cpus: usize) -> bool {
        [self.state.len(), self.policy.len(), self.prio.len()] == [TASKS; 3]
            && [self.cpu.len(), self.slice.len(), self.mask.len()] == [TASKS; 3]
            && [self.rows.len(), self.counts.len(), self.flags.len()] == [cpus; 3]
            && self.log.len() == ENTRIES
    }

    /// Lends the tables, if their sizes fit.
    pub fn lend(&mut self) -> Option<Lent<'_>> {
        match self.sizes_fit() {
            true => self.lend_for(self.n),
            false => None,
        }
    }

    /// Lends tables that have the lengths for so many CPUs, whatever N is.
    pub fn lend_for(&mut self, cpus: usize) -> Option<Lent<'_>> {
        if !self.lengths_fit(cpus) {
            return None;
        }
        Some(Lent {
            n: cpus,
            full_slice: self.full_slice as u16,
            state: self.state.as_mut_slice().try_into().ok()?,
            policy: self.policy.as_mut_slice().try_into().ok()?,
            prio: self.prio.as_mut_slice().try_into().ok()?,
            cpu: self.cpu.as_mut_slice().try_into().ok()?,
            slice: self.slice.as_mut_slice().try_into().ok()?,
            mask: self.mask.as_mut_slice().try_into().ok()?,
            rows: &mut self.rows,
            counts: &mut self.counts,
            flags: &mut self.flags,
            online: &mut self.online,
            log: self.log.as_mut_slice().try_into().ok()?,
        })
    }

    /// A fresh machine with the full slice that the tables have, whatever else they held; or nothing is changed.
    pub fn make_fresh(&mut self, record: &mut Record) -> Made {
        let Some(mut t) = self.lend() else {
            return Made::REFUSED;
        };
        t.make_fresh(record);
        Made {
            answer: 0,
            full_slice: t.full_slice.into(),
        }
    }

    /// The same with the default full slice, which they then have.
    pub fn make_fresh_default(&mut self, record: &mut Record) -> Made {
        let before = replace(&mut self.full_slice, SLICE_DEFAULT);
        let made = self.make_fresh(record);
        if made.answer != 0 {
            self.full_slice = before;
        }
        made
    }
}
