//! The replay of a recording on a fresh machine: include/qoriwesh.h's entry for Rust.

use binding::{entry, Tables, CPUS, TASKS};

entry!(
    qoriwesh_replay(bytes: *const u8, bytes_len: usize),
    mut,
    times: *mut u64,
    times_len: usize,
    ending: *mut u8,
    place: *mut usize,
    n: *mut usize,
    full_slice: *mut u32,
    moves: *mut u64,
    refused: *mut u32
);

/// Records of a recording, at most, the first included.
pub const RECORDS: usize = 65536;
/// The full slice of a recording whose first record names none.
pub const RECORDED_SLICE: u32 = 100;

/// How a recording ends.
#[derive(Clone, Copy, Debug, PartialEq, Eq)]
pub enum Ending {
    /// Behind a record.
    Whole,
    /// Within a record, or before its first one is whole.
    Cut,
    /// At a record that stops the replay.
    Stopped,
}

impl Ending {
    /// The ending of a number; there are three.
    pub fn of(number: u8) -> Option<Ending> {
        match number {
            0 => Some(Ending::Whole),
            1 => Some(Ending::Cut),
            2 => Some(Ending::Stopped),
            _ => None,
        }
    }
}

/// What a replay reports.
#[derive(Clone, Debug, PartialEq, Eq)]
pub struct Report {
    pub answer: u8,
    pub ending: Ending,
    /// The byte where the whole records end.
    pub place: usize,
    /// 0 without a good first record.
    pub cpus: usize,
    pub full_slice: u32,
    /// Microseconds with a real-time task; 0 from `cpus` on.
    pub times: [u64; CPUS],
    pub moves: u64,
    pub refused: u32,
}

/// The same as the C function gives it, without the times, which stand in a table that it is lent.
#[derive(Clone, Debug, PartialEq, Eq)]
pub struct Answer {
    pub answer: u8,
    pub ending: u8,
    pub place: usize,
    pub cpus: usize,
    pub full_slice: u32,
    pub moves: u64,
    pub refused: u32,
}

impl Answer {
    /// What stands where the function must write, also when it refuses: nothing that it may write.
    const UNWRITTEN: Answer = Answer {
        answer: u8::MAX,
        ending: u8::MAX,
        place: usize::MAX,
        cpus: usize::MAX,
        full_slice: u32::MAX,
        moves: u64::MAX,
        refused: u32::MAX,
    };
}

/// Replays a recording. The machine is then the one after its last event, with the recording's CPUs and full slice; without
/// a good first record it is as it was.
///
/// # Panics
/// If the library's ending is none of the three.
pub fn replay(bytes: &[u8], machine: &mut Tables) -> Report {
    let mut tables = Tables::zeroed(CPUS);
    let mut times = [0; CPUS];
    let said = replay_lent(bytes, &mut tables, &mut times);
    if said.cpus != 0 {
        *machine = first_cpus(tables, said.cpus, said.full_slice);
    }
    Report {
        answer: said.answer,
        ending: Ending::of(said.ending).expect("one of three endings"),
        place: said.place,
        cpus: said.cpus,
        full_slice: said.full_slice,
        times,
        moves: said.moves,
        refused: said.refused,
    }
}

/// The machine of the first CPUs of tables for 64.
pub fn first_cpus(mut tables: Tables, cpus: usize, full_slice: u32) -> Tables {
    tables.n = cpus;
    tables.full_slice = full_slice;
    tables.rows.truncate(TASKS * cpus);
    tables.counts.truncate(cpus);
    tables.flags.truncate(cpus);
    tables
}

/// The C function on tables and times of any lengths; only those for 64 CPUs are accepted. The tables' own two numbers are
/// neither read nor written.
pub fn replay_lent(bytes: &[u8], t: &mut Tables, times: &mut [u64]) -> Answer {
    let mut said = Answer::UNWRITTEN;
    // Safety: each pointer is a slice's or a vector's own, with its length, or that of a number alone, and no two overlap;
    // `said` is a local of this function.
    said.answer = unsafe {
        qoriwesh_replay(
            bytes.as_ptr(),
            bytes.len(),
            t.state.as_mut_ptr(),
            t.state.len(),
            t.policy.as_mut_ptr(),
            t.policy.len(),
            t.prio.as_mut_ptr(),
            t.prio.len(),
            t.cpu.as_mut_ptr(),
            t.cpu.len(),
            t.slice.as_mut_ptr(),
            t.slice.len(),
            t.mask.as_mut_ptr(),
            t.mask.len(),
            t.rows.as_mut_ptr(),
            t.rows.len(),
            t.counts.as_mut_ptr(),
            t.counts.len(),
            t.flags.as_mut_ptr(),
            t.flags.len(),
            &mut t.online,
            t.log.as_mut_ptr(),
            t.log.len(),
            t.level_masks.as_mut_ptr(),
            t.level_masks.len(),
            t.level_counts.as_mut_ptr(),
            t.level_counts.len(),
            t.level_words.as_mut_ptr(),
            t.level_words.len(),
            t.levels.as_mut_ptr(),
            t.levels.len(),
            times.as_mut_ptr(),
            times.len(),
            &mut said.ending,
            &mut said.place,
            &mut said.cpus,
            &mut said.full_slice,
            &mut said.moves,
            &mut said.refused,
        )
    };
    said
}

#[cfg(test)]
mod tests {
    use super::*;
    use binding::Event;

    /// Two CPUs and a full slice of 7 ticks, named by the first record; then task 0 is added and wakes.
    const NIGHT: [u8; 28] = [
        12, 2, 7, 0, // CPUs, slice
        1, 10, 0, 0, 0, 0, 0, 1, 50, 3, 0, 0, 0, 0, 0, 0, 0, // add
        3, 20, 0, 0, 0, 0, 0, // wake
    ];

    #[test]
    fn the_machine_is_the_recording_s() {
        let mut machine = Tables::fresh(5).expect("5 CPUs");
        let report = replay(&NIGHT, &mut machine);
        assert_eq!((report.answer, report.ending), (0, Ending::Whole));
        assert_eq!((report.cpus, report.full_slice), (2, 7));
        assert_eq!((machine.n, machine.full_slice, machine.check()), (2, 7, 0));
        assert_eq!(machine.event(Event::new(4, 0, 0, 0, 0)).answer, 0);
    }

    #[test]
    fn without_a_good_first_record_it_is_as_it_was() {
        let mut machine = Tables::fresh(5).expect("5 CPUs");
        let before = machine.clone();
        let report = replay(&NIGHT[..1], &mut machine);
        assert_eq!((report.ending, report.cpus), (Ending::Cut, 0));
        assert_eq!(machine, before);
    }
}
