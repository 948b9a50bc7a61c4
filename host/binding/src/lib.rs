//! include/qoriwesh.h for Rust: the declarations, and a safe struct of tables over them.
//!
//! The tables are vectors, so that any length can be lent.

/// Declares an entry that is handed the numbers of the machine that are named first, then lent the fourteen tables and the
/// online mask, `mut` or `const`, and then handed what is named after them.
#[macro_export]
macro_rules! entry {
    ($name:ident($($number:ident: $width:ty),*), $pointer:tt $(, $more:ident: $type:ty)*) => {
        extern "C" {
            fn $name(
                $($number: $width,)*
                state: *$pointer u8,
                state_len: usize,
                policy: *$pointer u8,
                policy_len: usize,
                prio: *$pointer u8,
                prio_len: usize,
                cpu: *$pointer u8,
                cpu_len: usize,
                slice: *$pointer u16,
                slice_len: usize,
                mask: *$pointer u64,
                mask_len: usize,
                rows: *$pointer u16,
                rows_len: usize,
                counts: *$pointer u16,
                counts_len: usize,
                flags: *$pointer u8,
                flags_len: usize,
                online: *$pointer u64,
                log: *$pointer u16,
                log_len: usize,
                level_masks: *$pointer u64,
                level_masks_len: usize,
                level_counts: *$pointer u8,
                level_counts_len: usize,
                level_words: *$pointer u64,
                level_words_len: usize,
                levels: *$pointer u8,
                levels_len: usize,
                $($more: $type),*
            ) -> u8;
        }
    };
}

/// Calls such an entry: the machine's numbers are fields of the tables, and each table is lent as its pointer, from `as_ptr`
/// or `as_mut_ptr`, and its length; the online mask is lent as its pointer alone.
#[macro_export]
macro_rules! lend {
    ($name:ident($($number:ident),*), $tables:expr, $pointer:ident $(, $more:expr)*) => {
        $name(
            $($tables.$number,)*
            $tables.state.$pointer(),
            $tables.state.len(),
            $tables.policy.$pointer(),
            $tables.policy.len(),
            $tables.prio.$pointer(),
            $tables.prio.len(),
            $tables.cpu.$pointer(),
            $tables.cpu.len(),
            $tables.slice.$pointer(),
            $tables.slice.len(),
            $tables.mask.$pointer(),
            $tables.mask.len(),
            $tables.rows.$pointer(),
            $tables.rows.len(),
            $tables.counts.$pointer(),
            $tables.counts.len(),
            $tables.flags.$pointer(),
            $tables.flags.len(),
            $crate::word!($tables.online, $pointer),
            $tables.log.$pointer(),
            $tables.log.len(),
            $tables.level_masks.$pointer(),
            $tables.level_masks.len(),
            $tables.level_counts.$pointer(),
            $tables.level_counts.len(),
            $tables.level_words.$pointer(),
            $tables.level_words.len(),
            $tables.levels.$pointer(),
            $tables.levels.len(),
            $($more),*
        )
    };
}

/// A reference to a word, as the methods of vectors give pointers.
#[macro_export]
macro_rules! word {
    ($word:expr, as_ptr) => {
        &$word
    };
    ($word:expr, as_mut_ptr) => {
        &mut $word
    };
}

entry!(qoriwesh_make_fresh(n: usize, full_slice: u32), mut, made_slice: *mut u32);
entry!(qoriwesh_make_fresh_default(n: usize), mut, made_slice: *mut u32);
entry!(qoriwesh_check(n: usize, full_slice: u32), const);
entry!(
    qoriwesh_event(n: usize, full_slice: u32),
    mut,
    kind: u32,
    who: u32,
    a: u32,
    b: u32,
    k: u64,
    moves: *mut u32
);

extern "C" {
    fn qoriwesh_find(
        n: usize,
        level_masks: *const u64,
        level_masks_len: usize,
        level_counts: *const u8,
        level_counts_len: usize,
        level_words: *const u64,
        level_words_len: usize,
        levels: *const u8,
        levels_len: usize,
        level: u32,
        mask: u64,
        found_level: *mut u8,
        found_mask: *mut u64,
        masks_read: *mut u32,
    ) -> u8;
}

pub const TASKS: usize = 512;
pub const CPUS: usize = 64;
pub const LEVELS: usize = 102;
pub const WORDS: usize = 2;
/// Entries of the log, and the numbers of one, which are those of a [`Move`].
pub const LOG_ENTRIES: usize = 63;
pub const LOG_WIDTH: usize = 4;
pub const LOG: usize = LOG_ENTRIES * LOG_WIDTH;
/// An unused place of a row, and each number of a fresh log.
pub const NOTHING: u16 = 65535;
/// The level of a CPU that is not there or is offline, and of a search that finds nothing.
pub const INVALID: u8 = 255;
/// Ticks of a full slice: the least, the most, and those of a machine for which none are named.
pub const SLICE_MIN: u32 = 1;
pub const SLICE_MAX: u32 = 1000;
pub const SLICE_DEFAULT: u32 = 25;
/// What stands where a maker must write the full slice and the finder how many masks it read, also when they refuse: no number
/// that they may write.
const UNWRITTEN: u32 = u32::MAX;

/// The five numbers of an event.
#[derive(Clone, Copy, Debug, PartialEq, Eq)]
pub struct Event {
    pub kind: u32,
    pub who: u32,
    pub a: u32,
    pub b: u32,
    pub mask: u64,
}

impl Event {
    /// The numbers in document 01's order.
    pub const fn new(kind: u32, who: u32, a: u32, b: u32, mask: u64) -> Event {
        Event {
            kind,
            who,
            a,
            b,
            mask,
        }
    }
}

/// What a maker answers: 0 and the machine's full slice, or a refusal and 0.
#[derive(Clone, Copy, Debug, PartialEq, Eq)]
pub struct Made {
    pub answer: u8,
    pub full_slice: u32,
}

/// What an event answers: 0 and the number of moves, or a refusal.
#[derive(Clone, Copy, Debug, PartialEq, Eq)]
pub struct Outcome {
    pub answer: u8,
    pub moves: u32,
}

/// An entry of the log, in the order of its numbers: the task, the CPU that it waited on, the CPU that it went to, and
/// what it displaced there, the level of that CPU before the move.
#[derive(Clone, Copy, Debug, PartialEq, Eq)]
pub struct Move {
    pub task: u16,
    pub from: u16,
    pub to: u16,
    pub displaced: u16,
}

/// What the finder answers: 0 with a level, its CPUs of the asked mask and how many masks were read, or with [`INVALID`], 0 and
/// how many were; or a refusal, with [`INVALID`], 0 and 0.
#[derive(Clone, Copy, Debug, PartialEq, Eq)]
pub struct Found {
    pub answer: u8,
    pub level: u8,
    pub mask: u64,
    pub masks_read: u32,
}

/// A machine's number of CPUs, its full slice in ticks, its fourteen tables and its online mask: any numbers, and any lengths.
#[derive(Clone, Debug, PartialEq, Eq)]
pub struct Tables {
    pub n: usize,
    pub full_slice: u32,
    pub state: Vec<u8>,
    pub policy: Vec<u8>,
    pub prio: Vec<u8>,
    pub cpu: Vec<u8>,
    pub slice: Vec<u16>,
    pub mask: Vec<u64>,
    pub rows: Vec<u16>,
    pub counts: Vec<u16>,
    pub flags: Vec<u8>,
    pub online: u64,
    pub log: Vec<u16>,
    pub level_masks: Vec<u64>,
    pub level_counts: Vec<u8>,
    pub level_words: Vec<u64>,
    pub levels: Vec<u8>,
}

impl Tables {
    /// Tables of the lengths that `n` CPUs ask for, filled with 0: no machine's yet. Over 64 CPUs the lengths
    /// are those of 64.
    pub fn zeroed(n: usize) -> Tables {
        let cpus = n.min(CPUS);
        Tables {
            n,
            full_slice: 0,
            state: vec![0; TASKS],
            policy: vec![0; TASKS],
            prio: vec![0; TASKS],
            cpu: vec![0; TASKS],
            slice: vec![0; TASKS],
            mask: vec![0; TASKS],
            rows: vec![0; TASKS * cpus],
            counts: vec![0; cpus],
            flags: vec![0; cpus],
            online: 0,
            log: vec![0; LOG],
            level_masks: vec![0; LEVELS],
            level_counts: vec![0; LEVELS],
            level_words: vec![0; WORDS],
            levels: vec![0; CPUS],
        }
    }

    /// A fresh machine of `n` CPUs with the default full slice, or the refusal.
    pub fn fresh(n: usize) -> Result<Tables, u8> {
        let mut tables = Tables::zeroed(n);
        match tables.make_fresh_default().answer {
            0 => Ok(tables),
            refused => Err(refused),
        }
    }

    /// The same with a full slice of so many ticks.
    pub fn fresh_with_slice(n: usize, full_slice: u32) -> Result<Tables, u8> {
        let mut tables = Tables::zeroed(n);
        tables.full_slice = full_slice;
        match tables.make_fresh().answer {
            0 => Ok(tables),
            refused => Err(refused),
        }
    }

    /// Makes the tables a fresh machine's, with the full slice that they have.
    pub fn make_fresh(&mut self) -> Made {
        let mut full_slice = UNWRITTEN;
        // Safety: each pointer is a vector's own, with its length, or the online mask's, and no two overlap; `full_slice` is a
        // local of this function.
        let answer = unsafe {
            lend!(
                qoriwesh_make_fresh(n, full_slice),
                self,
                as_mut_ptr,
                &mut full_slice
            )
        };
        Made { answer, full_slice }
    }

    /// The same with the default full slice, which they then have.
    pub fn make_fresh_default(&mut self) -> Made {
        let mut full_slice = UNWRITTEN;
        // Safety: as in `make_fresh`.
        let answer = unsafe {
            lend!(
                qoriwesh_make_fresh_default(n),
                self,
                as_mut_ptr,
                &mut full_slice
            )
        };
        if answer == 0 {
            self.full_slice = full_slice;
        }
        Made { answer, full_slice }
    }

    pub fn check(&self) -> u8 {
        // Safety: as in `make_fresh`; nothing is written.
        unsafe { lend!(qoriwesh_check(n, full_slice), self, as_ptr) }
    }

    pub fn event(&mut self, e: Event) -> Outcome {
        let mut moves = 0;
        // Safety: as in `make_fresh`; `moves` is a local of this function.
        let answer = unsafe {
            lend!(
                qoriwesh_event(n, full_slice),
                self,
                as_mut_ptr,
                e.kind,
                e.who,
                e.a,
                e.b,
                e.mask,
                &mut moves
            )
        };
        Outcome { answer, moves }
    }

    pub fn find(&self, level: u32, mask: u64) -> Found {
        let mut found = Found {
            answer: 0,
            level: 0,
            mask: 0,
            masks_read: UNWRITTEN,
        };
        // Safety: as in `make_fresh`; `found` is a local of this function.
        found.answer = unsafe {
            qoriwesh_find(
                self.n,
                self.level_masks.as_ptr(),
                self.level_masks.len(),
                self.level_counts.as_ptr(),
                self.level_counts.len(),
                self.level_words.as_ptr(),
                self.level_words.len(),
                self.levels.as_ptr(),
                self.levels.len(),
                level,
                mask,
                &mut found.level,
                &mut found.mask,
                &mut found.masks_read,
            )
        };
        found
    }

    /// The first `count` entries of the log, or as many as it has. After an accepted event, with its number of moves,
    /// these are its moves.
    pub fn moves(&self, count: u32) -> impl ExactSizeIterator<Item = Move> + '_ {
        let entries = self.log.chunks_exact(LOG_WIDTH).take(count as usize);
        entries.map(|entry| Move {
            task: entry[0],
            from: entry[1],
            to: entry[2],
            displaced: entry[3],
        })
    }

    /// Whether CPU `c` is online.
    pub fn is_online(&self, c: usize) -> bool {
        c < CPUS && self.online >> c & 1 == 1
    }

    /// The tasks of CPU `c`'s row, in run order. Of well-formed tables.
    pub fn row(&self, c: usize) -> &[u16] {
        let from = TASKS * c;
        &self.rows[from..from + self.counts[c] as usize]
    }
}

#[cfg(test)]
mod tests {
    use super::*;

    /// Places 0 to 3 of the log are entry 0, places 4 to 7 entry 1, and there are 63.
    #[test]
    fn moves_are_the_first_entries_of_the_log() {
        let mut t = Tables::zeroed(1);
        t.log = (0..LOG as u16).collect();
        let entry = |i: u16| Move {
            task: 4 * i,
            from: 4 * i + 1,
            to: 4 * i + 2,
            displaced: 4 * i + 3,
        };
        assert!(t.moves(0).eq([]));
        assert!(t.moves(2).eq([entry(0), entry(1)]));
        assert!(t.moves(63).eq((0..63).map(entry)));
        assert_eq!(t.moves(64).len(), 63);
    }

    /// A maker that accepts hands back the full slice, which the tables then have; a refusal hands back 0, and they keep theirs.
    #[test]
    fn makers_hand_back_the_full_slice() {
        let made = |answer, full_slice| Made { answer, full_slice };
        let mut t = Tables::zeroed(2);
        t.full_slice = SLICE_MAX;
        assert_eq!(t.make_fresh(), made(0, 1000));
        assert_eq!(t.make_fresh_default(), made(0, 25));
        assert_eq!(t.full_slice, SLICE_DEFAULT);
        t.full_slice = 65536 + 25;
        assert_eq!(t.make_fresh(), made(1, 0));
        t.n = 65;
        assert_eq!(t.make_fresh_default(), made(1, 0));
        assert_eq!(t.full_slice, 65536 + 25);
        assert_eq!(Tables::fresh(65), Err(1));
        assert_eq!(Tables::fresh_with_slice(64, SLICE_MIN - 1), Err(1));
    }

    /// CPU 0 has ordinary work and CPU 1 is idle. Each number is written, also if nothing is found and on a refusal.
    #[test]
    fn the_finder_says_how_many_masks_it_read() {
        let mut t = Tables::fresh(2).expect("2 CPUs");
        assert_eq!(t.event(Event::new(9, 0, 0, 1, 0)).answer, 0);
        let found = |level, mask, masks_read| Found {
            answer: 0,
            level,
            mask,
            masks_read,
        };
        assert_eq!(t.find(101, 3), found(0, 2, 1));
        assert_eq!(t.find(101, 1), found(1, 1, 2));
        assert_eq!(t.find(1, 1), found(INVALID, 0, 1));
        assert_eq!(t.find(0, 3), found(INVALID, 0, 0));
        let refused = |answer| Found {
            answer,
            ..found(INVALID, 0, 0)
        };
        assert_eq!(t.find(102, 3), refused(7));
        assert_eq!(t.find(101, 4), refused(8));
    }
}
