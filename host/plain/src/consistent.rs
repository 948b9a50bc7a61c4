//! Whether a record is consistent in itself.

use crate::record::{Record, CPUS, INVALID, LEVELS};

/// No CPU runs at this level.
const UNUSED: usize = 2;
/// CPUs, or counts, that are looked at together.
const BLOCK: usize = 8;
/// Counts of all levels, in whole blocks.
const COUNTS: usize = LEVELS.next_multiple_of(BLOCK);

/// Masks, counts, words and levels say the same, for n CPUs: what the levels determine is gathered and compared whole.
pub fn is_consistent(n: usize, record: &Record) -> bool {
    let (here, absent) = record.levels.split_at(n);
    let mut right = Gathered {
        masks: [0; LEVELS],
        counts: [0; COUNTS],
    };
    right.gather(here)
        && right.counts[UNUSED] == 0
        && right.words() == record.words
        && right.masks == record.masks
        && right.counts[..LEVELS] == record.counts
        && *absent == [INVALID; CPUS][n..]
}

struct Gathered {
    masks: [u64; LEVELS],
    counts: [u8; COUNTS],
}

impl Gathered {
    /// Puts each CPU into the mask and the count of its level. Whether all levels fit. Idle CPUs often stand together, so
    /// that a block of CPUs that are alike is put in at once.
    fn gather(&mut self, levels: &[u8]) -> bool {
        // The bit of the next CPU.
        let mut cpu = 1;
        for block in levels.chunks(BLOCK) {
            if alike(block) {
                if !self.enter(block[0], 0xff * cpu, BLOCK as u8) {
                    return false;
                }
                cpu <<= BLOCK;
                continue;
            }
            for &level in block {
                if !self.enter(level, cpu, 1) {
                    return false;
                }
                cpu <<= 1;
            }
        }
        true
    }

    fn enter(&mut self, level: u8, cpus: u64, count: u8) -> bool {
        let l = level as usize;
        if l >= LEVELS {
            return level == INVALID;
        }
        self.masks[l] |= cpus;
        self.counts[l] += count;
        true
    }

    /// Which counts are not 0. Eight of them make eight bits: none is above 64, so that with 127 more the highest bit of
    /// each byte says it, and a product brings these together.
    fn words(&self) -> [u64; 2] {
        let mut words = [0; 2];
        for (i, block) in self.counts.chunks_exact(BLOCK).enumerate() {
            let counts = block.try_into().map_or(0, u64::from_le_bytes);
            let some = (counts + 0x7f7f_7f7f_7f7f_7f7f) >> 7 & 0x0101_0101_0101_0101;
            let bits = some.wrapping_mul(0x0102_0408_1020_4080) >> 56;
            words[i / 8] |= bits << (8 * (i % 8));
        }
        words
    }
}

/// A whole block of CPUs at one level.
fn alike(block: &[u8]) -> bool {
    let levels = block.try_into().map(u64::from_le_bytes);
    levels.is_ok_and(|levels| levels == levels.rotate_left(8))
}
