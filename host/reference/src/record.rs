//! The CPU-priority record, made from levels alone.

use crate::mutant::Mutant;
use crate::tables::{allows, Tables, CPUS, INVALID, LEVELS};
use std::collections::BTreeSet;
use std::ops::Range;

/// "for each of 102 levels a 64-bit mask of the CPUs at that level and a count of them; two 64-bit words [...];
/// and a level for each of 64 CPUs"
#[derive(Clone, Debug, PartialEq, Eq)]
pub struct Record {
    pub masks: Vec<u64>,
    pub counts: Vec<u8>,
    pub words: Vec<u64>,
    pub levels: Vec<u8>,
}

impl Record {
    /// The one record in which CPU c has level `levels[c]`, and the CPU places after them none.
    pub fn of(levels: &[u8]) -> Record {
        let at = |level: usize| (0..levels.len()).filter(move |&c| levels[c] as usize == level);
        let masks: Vec<u64> = (0..LEVELS)
            .map(|level| at(level).map(|c| 1u64 << c).sum())
            .collect();
        let counts = (0..LEVELS).map(|level| at(level).count() as u8).collect();
        let word = |w: usize| -> u64 {
            let mine = (0..LEVELS).filter(|level| level / 64 == w && masks[*level] != 0);
            mine.map(|level| 1u64 << (level % 64)).sum()
        };
        let words = vec![word(0), word(1)];
        let mut levels = levels.to_vec();
        levels.resize(CPUS, INVALID);
        Record {
            masks,
            counts,
            words,
            levels,
        }
    }

    pub(crate) fn lent(t: &Tables) -> Record {
        Record {
            masks: t.level_masks.clone(),
            counts: t.level_counts.clone(),
            words: t.level_words.clone(),
            levels: t.levels.clone(),
        }
    }

    /// "The CPU-priority record is handed in and back whole"
    pub(crate) fn hand_back(self, t: &mut Tables) {
        t.level_masks = self.masks;
        t.level_counts = self.counts;
        t.level_words = self.words;
        t.levels = self.levels;
    }

    /// "The record is consistent in itself for N (masks, counts, words and levels say the same; levels of CPUs
    /// below N are 0 to 101 but never 2; word bits 102 to 127 are clear)"; and "a record may now hold INVALID below N"
    ///
    /// Levels leave no choice for the rest, so the rest is compared with what the levels make it.
    pub(crate) fn consistent(&self, n: usize, m: Mutant) -> bool {
        let used = |&l: &u8| l == INVALID || l <= 101 && (l != 2 || m == Mutant::LevelTwoPasses);
        let mut given = self.clone();
        match m {
            Mutant::HighBitsUnchecked => given.words[1] &= (1 << (LEVELS - 64)) - 1,
            Mutant::MissingCpusUnchecked => given.levels[n..].fill(INVALID),
            _ => (),
        }
        self.levels[..n].iter().all(used) && given == Record::of(&self.levels[..n])
    }

    /// Whether some CPU below N is at INVALID.
    pub(crate) fn has_offline(&self, n: usize) -> bool {
        self.levels[..n].contains(&INVALID)
    }

    /// "the lowest level below the asked one that has an allowed CPU, with those CPUs as a mask, or none"
    pub(crate) fn lowest_below(&self, level: u32, mask: u64, m: Mutant) -> Option<(u8, u64)> {
        let below = |l: u8| {
            u32::from(l) < level || (m == Mutant::FinderTakesEqual && u32::from(l) == level)
        };
        let allowed = |c: &usize| allows(mask, *c) && self.levels[*c] != INVALID;
        let mut reached: Vec<u8> = (0..CPUS).filter(allowed).map(|c| self.levels[c]).collect();
        reached.retain(|&l| below(l));
        let lowest = match m {
            Mutant::FinderHighest => reached.into_iter().max()?,
            _ => reached.into_iter().min()?,
        };
        let there = |c: &usize| {
            self.levels[*c] == lowest && (allows(mask, *c) || m == Mutant::FinderForgetsMask)
        };
        Some((lowest, (0..CPUS).filter(there).map(|c| 1u64 << c).sum()))
    }

    /// "how many masks the search read: one for each level with a CPU below the asked one, up to the answered one (all of them
    /// on none [...])"
    ///
    /// Neither masks nor words are looked at: a level has a CPU if some CPU has that level.
    pub(crate) fn masks_read(&self, asked: u32, mask: u64, answered: Option<u8>, m: Mutant) -> u32 {
        let counted = counted(asked, answered, m);
        let there = |c: &usize| m != Mutant::FinderCountsAllowed || allows(mask, *c);
        let cpus = (0..self.levels.len()).filter(there);
        let mut read: Vec<u8> = cpus.map(|c| self.levels[c]).collect();
        read.retain(|&l| counted.contains(&l.into()));
        let count = match m {
            Mutant::FinderCountsCpus => read.len(),
            Mutant::FinderCountsEmpty => counted.len(),
            _ => BTreeSet::from_iter(read).len(),
        };
        count as u32
    }
}

/// The levels "below the asked one, up to the answered one (all of them on none [...])"
fn counted(asked: u32, answered: Option<u8>, m: Mutant) -> Range<u32> {
    let end = match answered.map(u32::from) {
        Some(answered) => match m {
            Mutant::FinderCountsPast => asked,
            Mutant::FinderUncountsAnswered => answered,
            _ => answered + 1,
        },
        None => match m {
            Mutant::FinderCountsAsked => asked + 1,
            Mutant::FinderNoneReadsZero => 0,
            _ => asked,
        },
    };
    match m {
        Mutant::FinderCountsFirstWord => 0..end.min(64),
        Mutant::FinderCountsAnew if end > 64 => 64..end,
        _ => 0..end,
    }
}
