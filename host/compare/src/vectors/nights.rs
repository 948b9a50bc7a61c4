//! Recordings of request L1, byte by byte, with what they give worked out by hand.

use super::{same, Side};
use crate::recordings::case::as_answer;
use crate::tables::{for_reference, from_reference};
use binding::{Tables, CPUS, TASKS};
use replay::{replay_lent, Answer};

/// What rows, counts and flags hold before, and keep beyond N.
const OLD: u8 = 9;

const WHOLE: u8 = 0;
const CUT: u8 = 1;
const STOPPED: u8 = 2;

struct Night {
    name: &'static str,
    bytes: &'static [u8],
    /// How it ends, and where.
    end: (u8, usize),
    /// N and the full slice.
    first: (usize, u32),
    /// The totals of moves and of refused events.
    totals: (u64, u32),
    /// Of each of the N CPUs.
    times: &'static [u64],
    rows: &'static [&'static [u16]],
}

/// Two CPUs. Task 1 wakes at -224 microseconds on CPU 0 and moves at -16 to CPU 1, when task 0 wakes. Then the stamps begin
/// again at 0: the second wake of task 0 is refused at 16, it sleeps at 48, and at the same time is a tick. The yield on the
/// empty CPU is refused, one microsecond before that: 2^32 - 1 later.
/// CPU 0: 208 + 32 + 32. CPU 1: 32 + 32 + 0 + 4294967295.
const WRAPS: Night = Night {
    name: "night-wraps",
    bytes: &[
        0, 2, // N
        1, 0, 255, 255, 255, 0, 0, 1, 50, 3, 0, 0, 0, 0, 0, 0, 0, // add 0
        1, 16, 255, 255, 255, 1, 0, 1, 40, 3, 0, 0, 0, 0, 0, 0, 0, // add 1
        3, 32, 255, 255, 255, 1, 0, // wake 1
        3, 240, 255, 255, 255, 0, 0, // wake 0
        3, 16, 0, 0, 0, 0, 0, // wake 0
        4, 48, 0, 0, 0, 0, 0, // sleep 0
        7, 48, 0, 0, 0, 1, // tick on 1
        8, 47, 0, 0, 0, 0, // yield on 0
    ],
    end: (WHOLE, 76),
    first: (2, 100),
    totals: (1, 2),
    times: &[272, 4_294_967_359],
    rows: &[&[], &[1]],
};

/// One CPU with slices of 2 ticks, and two RR tasks, 0 and 256, that wake at 100 and 200. The second of the ticks at 1000 and
/// 2000 sends task 0 behind task 256. Of the tick at 3000 the CPU is missing.
const IS_CUT: Night = Night {
    name: "night-cut",
    bytes: &[
        12, 1, 2, 0, // N, slice
        1, 0, 0, 0, 0, 0, 0, 2, 20, 1, 0, 0, 0, 0, 0, 0, 0, // add 0
        1, 0, 0, 0, 0, 0, 1, 2, 20, 1, 0, 0, 0, 0, 0, 0, 0, // add 256
        3, 100, 0, 0, 0, 0, 0, // wake 0
        3, 200, 0, 0, 0, 0, 1, // wake 256
        7, 232, 3, 0, 0, 0, // tick
        7, 208, 7, 0, 0, 0, // tick
        7, 184, 11, 0, 0, // tick, cut
    ],
    end: (CUT, 64),
    first: (1, 2),
    totals: (0, 0),
    times: &[1900],
    rows: &[&[256, 0]],
};

/// Three CPUs, CPU 1 with ordinary work. Task 0 wakes on CPU 0 at 20, task 1 at 30 and moves to CPU 2. That goes offline at 50:
/// the task leaves it for CPU 0 and moves to CPU 1. It may not go again at 60, comes back at 100, and task 0 sleeps at 110. A
/// later 12 stops the replay.
/// CPU 0: 10 + 20 + 10 + 40 + 10. CPU 1: 10 + 40 + 10. CPU 2: 20.
const IS_STOPPED: Night = Night {
    name: "night-stopped",
    bytes: &[
        0, 3, // N
        9, 10, 0, 0, 0, 1, 1, // ordinary work on 1
        1, 10, 0, 0, 0, 0, 0, 1, 50, 7, 0, 0, 0, 0, 0, 0, 0, // add 0
        1, 10, 0, 0, 0, 1, 0, 1, 40, 7, 0, 0, 0, 0, 0, 0, 0, // add 1
        3, 20, 0, 0, 0, 0, 0, // wake 0
        3, 30, 0, 0, 0, 1, 0, // wake 1
        10, 50, 0, 0, 0, 2, // 2 goes offline
        10, 60, 0, 0, 0, 2, // again
        11, 100, 0, 0, 0, 2, // 2 comes back
        4, 110, 0, 0, 0, 0, 0, // sleep 0
        12, 3, 100, 0, // N, slice
    ],
    end: (STOPPED, 82),
    first: (3, 100),
    totals: (2, 1),
    times: &[90, 60, 20],
    rows: &[&[], &[1], &[]],
};

/// A recording that has no events, or none that is replayed.
const fn short(
    name: &'static str,
    bytes: &'static [u8],
    end: (u8, usize),
    first: (usize, u32),
    rows: &'static [&'static [u16]],
) -> Night {
    Night {
        name,
        bytes,
        end,
        first,
        totals: (0, 0),
        times: &[],
        rows,
    }
}

const NIGHTS: [Night; 17] = [
    WRAPS,
    IS_CUT,
    IS_STOPPED,
    short("night-empty", &[], (CUT, 0), (0, 0), &[]),
    short("night-no-cpus", &[0], (CUT, 0), (0, 0), &[]),
    short("night-no-cpus-12", &[12], (CUT, 0), (0, 0), &[]),
    short("night-no-slice", &[12, 2], (CUT, 0), (0, 0), &[]),
    short("night-half-slice", &[12, 2, 1], (CUT, 0), (0, 0), &[]),
    short("night-bad-cpus", &[0, 65], (STOPPED, 0), (0, 0), &[]),
    short("night-bad-cpus-12", &[12, 0], (STOPPED, 0), (0, 0), &[]),
    short(
        "night-bad-slice",
        &[12, 1, 233, 3],
        (STOPPED, 0),
        (0, 0),
        &[],
    ),
    short("night-first-kind", &[1], (STOPPED, 0), (0, 0), &[]),
    short("night-no-event", &[0, 1], (WHOLE, 2), (1, 100), &[&[]]),
    short(
        "night-slice",
        &[12, 1, 232, 3],
        (WHOLE, 4),
        (1, 1000),
        &[&[]],
    ),
    short("night-later-0", &[0, 1, 0], (STOPPED, 2), (1, 100), &[&[]]),
    short("night-unknown", &[0, 1, 13], (STOPPED, 2), (1, 100), &[&[]]),
    short("night-one-byte", &[0, 1, 11], (CUT, 2), (1, 100), &[&[]]),
];

/// Tables for 64 CPUs and the times, after a replay by one side, and its report.
fn replayed(side: Side, bytes: &[u8]) -> (Answer, Tables, [u64; CPUS]) {
    let mut t = Tables::zeroed(CPUS);
    t.rows.fill(OLD.into());
    t.counts.fill(OLD.into());
    t.flags.fill(OLD);
    let mut times = [OLD.into(); CPUS];
    let report = match side {
        Side::Ours => replay_lent(bytes, &mut t, &mut times),
        Side::Theirs(m) => {
            let mut theirs = for_reference(&t);
            let replayed = reference::replay(bytes, &mut theirs, &mut times, m);
            t = from_reference(&theirs);
            as_answer(replayed.report)
        }
    };
    (report, t, times)
}

impl Night {
    /// What is not as worked out, if anything.
    fn check(&self, side: Side) -> Result<(), String> {
        let (report, t, times) = replayed(side, self.bytes);
        let Answer { cpus, moves, .. } = report;
        same("answer", report.answer, 0)?;
        same("end", (report.ending, report.place), self.end)?;
        same("first record", (cpus, report.full_slice), self.first)?;
        same("moves", moves, self.totals.0)?;
        same("refused events", report.refused, self.totals.1)?;
        let mut by_hand = self.times.to_vec();
        by_hand.resize(CPUS, 0);
        same("times", &times[..], &by_hand)?;
        let rows: Vec<&[u16]> = (0..cpus).map(|c| t.row(c)).collect();
        same("rows", rows, self.rows.to_vec())?;
        let kept = t.rows[TASKS * cpus..]
            .iter()
            .all(|&place| place == OLD.into())
            && t.counts[cpus..].iter().all(|&count| count == OLD.into())
            && t.flags[cpus..].iter().all(|&flag| flag == OLD);
        same("what is beyond N stays", kept, true)
    }
}

/// The recordings that a side gets wrong, by name, and how.
pub fn wrong(side: Side) -> Vec<String> {
    let says = |night: &Night| {
        let says = night.check(side).err()?;
        Some(format!("{} {says}", night.name))
    };
    NIGHTS.iter().filter_map(says).collect()
}
