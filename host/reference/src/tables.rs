//! The tables as lent, of any length, and the lengths they should have.

use crate::mutant::Mutant;

pub const TASKS: usize = 512;
pub const CPUS: usize = 64;
pub const LEVELS: usize = 102;
pub const WORDS: usize = 2;
/// "63 entries of four"
pub const ENTRIES: usize = 63;
pub const ENTRY: usize = 4;
/// "The log becomes 252 numbers"
pub const LOG: usize = ENTRIES * ENTRY;
/// "unused places hold 65535"
pub const NOTHING: u16 = 65535;
/// "INVALID is 255, held by CPU places N and up, in no mask", and by offline CPUs
pub const INVALID: u8 = 255;
/// "25 by a second maker told none"
pub const DEFAULT_SLICE: u32 = 25;

/// "An event is five numbers: kind, who, a, b, mask."
#[derive(Clone, Copy, Debug, PartialEq, Eq)]
pub struct Event {
    pub kind: u32,
    pub who: u32,
    pub a: u32,
    pub b: u32,
    pub mask: u64,
}

/// N, the full slice, the fourteen tables and the online mask.
#[derive(Clone, Debug, PartialEq, Eq)]
pub struct Tables {
    pub n: usize,
    /// "The full slice becomes a number of the machine": any number here, as it is handed in.
    pub full_slice: u32,
    pub state: Vec<u8>,
    pub policy: Vec<u8>,
    pub prio: Vec<u8>,
    pub cpu: Vec<u8>,
    pub slice: Vec<u16>,
    pub mask: Vec<u64>,
    pub rows: Vec<u16>,
    pub counts: Vec<u16>,
    pub flags: Vec<u8>,
    /// "the machine gains an online mask": any number here, as it is handed in.
    pub online: u64,
    pub log: Vec<u16>,
    pub level_masks: Vec<u64>,
    pub level_counts: Vec<u8>,
    pub level_words: Vec<u64>,
    pub levels: Vec<u8>,
}

impl Tables {
    /// Tables of the right lengths for `n` CPUs, with nothing sensible in them. `n` is 1 to 64.
    pub fn blank(n: usize, full_slice: u32) -> Tables {
        Tables {
            n,
            full_slice,
            state: vec![7; TASKS],
            policy: vec![7; TASKS],
            prio: vec![7; TASKS],
            cpu: vec![7; TASKS],
            slice: vec![7; TASKS],
            mask: vec![7; TASKS],
            rows: vec![7; TASKS * n],
            counts: vec![7; n],
            flags: vec![7; n],
            online: 7,
            log: vec![7; LOG],
            level_masks: vec![7; LEVELS],
            level_counts: vec![7; LEVELS],
            level_words: vec![7; WORDS],
            levels: vec![7; CPUS],
        }
    }

    /// "N is 0 or over 64" is what a good N is not.
    pub(crate) fn cpus_right(&self) -> bool {
        (1..=64).contains(&self.n)
    }

    /// The record's part of "a lent table has another length than above".
    pub(crate) fn record_sizes_right(&self) -> bool {
        self.level_masks.len() == 102
            && self.level_counts.len() == 102
            && self.level_words.len() == 2
            && self.levels.len() == 64
    }

    /// "N is 0 or over 64, or a lent table has another length than above", denied.
    pub(crate) fn sizes_right(&self) -> bool {
        self.cpus_right() && self.lengths_right(self.n)
    }

    /// Whether each table has the length that so many CPUs ask for.
    pub(crate) fn lengths_right(&self, n: usize) -> bool {
        let columns = [
            self.state.len(),
            self.policy.len(),
            self.prio.len(),
            self.cpu.len(),
            self.slice.len(),
            self.mask.len(),
        ];
        columns.iter().all(|&len| len == 512)
            && self.rows.len() == 512 * n
            && self.counts.len() == n
            && self.flags.len() == n
            && self.log.len() == LOG
            && self.record_sizes_right()
    }

    /// "a number of the machine, 1 to 1,000"; none if it is out of range.
    pub(crate) fn full_slice(&self, m: Mutant) -> Option<u16> {
        let (least, most) = match m {
            Mutant::FullSliceZeroPasses => (0, 1000),
            Mutant::FullSlicePastPasses => (1, 1001),
            _ => (1, 1000),
        };
        let number = match m {
            Mutant::FullSliceCut => self.full_slice % 65536,
            _ => self.full_slice,
        };
        (least..=most).contains(&number).then_some(number as u16)
    }

    /// "row c begins at place 512 times c"; all its 512 places. Of tables of the right lengths.
    pub(crate) fn places(&self, cpu: usize) -> &[u16] {
        &self.rows[512 * cpu..512 * (cpu + 1)]
    }

    /// The places of row c before its count. Of tables whose counts are at most 512.
    pub(crate) fn listed(&self, cpu: usize) -> &[u16] {
        &self.places(cpu)[..self.counts[cpu] as usize]
    }
}

/// "mask not 0 and without bits at N or above"
pub(crate) fn mask_right(mask: u64, n: usize) -> bool {
    mask != 0 && (n..CPUS).all(|c| !allows(mask, c))
}

/// "bit c is CPU c": the CPUs of a mask, ascending.
pub(crate) fn cpus_of(mask: u64) -> Vec<usize> {
    (0..CPUS).filter(|&c| allows(mask, c)).collect()
}

pub(crate) fn allows(mask: u64, cpu: usize) -> bool {
    (mask >> cpu) & 1 == 1
}
