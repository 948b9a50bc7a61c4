//! The lowest-priority search.

use crate::consistent::is_consistent;
use crate::record::{Record, CPUS, INVALID, LEVELS};

#[derive(Clone, Copy, Debug, PartialEq, Eq)]
pub struct Found {
    pub answer: u8,
    pub level: u8,
    pub mask: u64,
    pub masks_read: u32,
}

/// The lowest level below the asked one that has a CPU of the mask, those CPUs, and how many masks were read.
pub fn find(n: usize, record: &Record, level: u32, mask: u64) -> Found {
    let refused = |answer| Found {
        answer,
        level: INVALID,
        mask: 0,
        masks_read: 0,
    };
    if !(1..=CPUS).contains(&n) {
        return refused(1);
    }
    if !is_consistent(n, record) {
        return refused(2);
    }
    if level as usize >= LEVELS {
        return refused(7);
    }
    if !mask_fits(n, mask) {
        return refused(8);
    }
    let mut passed = 0;
    match lowest(record, level as usize, mask, &mut passed) {
        Some((level, mask)) => Found {
            answer: 0,
            level: level as u8,
            mask,
            masks_read: passed + 1,
        },
        None => Found {
            masks_read: passed,
            ..refused(0)
        },
    }
}

/// The search itself, below one of the 102 levels: from one level that has a CPU to the next. Adds how many it passes over.
#[inline(always)]
pub fn lowest(record: &Record, below: usize, mask: u64, passed: &mut u32) -> Option<(usize, u64)> {
    let [low, high] = record.words;
    let (low_masks, high_masks) = record.masks.split_at(64);
    let part = (1 << (below % 64)) - 1;
    if below < 64 {
        return among(low_masks, low & part, mask, passed);
    }
    among(low_masks, low, mask, passed).or_else(|| {
        let (level, cpus) = among(high_masks, high & part, mask, passed)?;
        Some((64 + level, cpus))
    })
}

/// The same among the levels of one word.
#[inline(always)]
fn among(masks: &[u64], levels: u64, mask: u64, passed: &mut u32) -> Option<(usize, u64)> {
    let mut levels = levels;
    while levels != 0 {
        let level = levels.trailing_zeros() as usize;
        let cpus = masks[level] & mask;
        if cpus != 0 {
            return Some((level, cpus));
        }
        *passed += 1;
        levels &= levels - 1;
    }
    None
}

/// The mask of all n CPUs, 1 to 64 of them.
pub fn all(n: usize) -> u64 {
    u64::MAX >> (CPUS - n)
}

/// A mask of n CPUs: not 0, and no bit at n or above.
pub fn mask_fits(n: usize, mask: u64) -> bool {
    mask != 0 && (n == CPUS || mask >> n == 0)
}
