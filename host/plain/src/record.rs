//! The CPU-priority record: which CPUs run at a level, and at which level a CPU runs.

pub const LEVELS: usize = 102;
pub const CPUS: usize = 64;
/// The level of a CPU that is not there, or offline.
pub const INVALID: u8 = 255;

#[derive(Clone, Debug, PartialEq, Eq)]
pub struct Record {
    pub masks: [u64; LEVELS],
    pub counts: [u8; LEVELS],
    pub words: [u64; 2],
    pub levels: [u8; CPUS],
}

/// The level of a CPU that runs a task of this priority.
pub fn level_of(prio: u8) -> u8 {
    prio + 2
}

impl Record {
    /// All n CPUs idle.
    pub fn fresh(n: usize) -> Record {
        let mut record = Record {
            masks: [0; LEVELS],
            counts: [0; LEVELS],
            words: [0; 2],
            levels: [INVALID; CPUS],
        };
        for cpu in 0..n {
            record.enter(cpu, 0);
        }
        record
    }

    /// The lowest level that a CPU has.
    pub fn lowest(&self) -> u8 {
        let [low, high] = self.words.map(u64::trailing_zeros);
        let level = if low < 64 { low } else { 64 + high };
        level as u8
    }

    /// Moves a CPU to another level. The level before.
    pub fn set_level(&mut self, cpu: usize, level: u8) -> u8 {
        let before = self.leave(cpu);
        self.enter(cpu, level);
        before
    }

    /// The CPU goes offline: it is at no level.
    pub fn take_out(&mut self, cpu: usize) {
        self.leave(cpu);
        self.levels[cpu] = INVALID;
    }

    /// The CPU, which was at no level, comes to one.
    pub fn bring_in(&mut self, cpu: usize, level: u8) {
        self.enter(cpu, level);
    }

    /// The CPU leaves its level: which it is.
    fn leave(&mut self, cpu: usize) -> u8 {
        let level = self.levels[cpu];
        let l = level as usize;
        self.masks[l] &= !(1 << cpu);
        self.counts[l] -= 1;
        if self.counts[l] == 0 {
            self.words[l / 64] &= !(1 << (l % 64));
        }
        level
    }

    fn enter(&mut self, cpu: usize, level: u8) {
        let l = level as usize;
        self.masks[l] |= 1 << cpu;
        self.counts[l] += 1;
        self.words[l / 64] |= 1 << (l % 64);
        self.levels[cpu] = level;
    }
}
