//! The replay of a recording on a fresh machine, in tables for 64 CPUs.

use crate::event::dispatch;
use crate::record::{Record, CPUS};
use crate::recording::{first, Ending, Events};
use crate::tables::{Lent, Tables};

#[derive(Clone, Debug, PartialEq, Eq)]
pub struct Report {
    pub answer: u8,
    pub ending: Ending,
    /// The byte where the whole records end.
    pub place: usize,
    /// 0 without a good first record.
    pub cpus: usize,
    pub full_slice: u32,
    /// Microseconds with a real-time task; 0 from `cpus` on.
    pub times: [u64; CPUS],
    pub moves: u64,
    pub refused: u32,
}

impl Report {
    /// Of a replay that is refused, or without a good first record.
    pub fn unplayed(answer: u8, ending: Ending) -> Report {
        Report {
            answer,
            ending,
            place: 0,
            cpus: 0,
            full_slice: 0,
            times: [0; CPUS],
            moves: 0,
            refused: 0,
        }
    }
}

/// Replays a recording. The tables' own two numbers are neither read nor written.
pub fn replay(bytes: &[u8], t: &mut Tables, record: &mut Record) -> Report {
    let Some(t) = t.lend_for(CPUS) else {
        return Report::unplayed(1, Ending::Stopped);
    };
    match first(bytes) {
        Ok((n, full_slice, from)) => {
            let events = Events::new(bytes, from);
            play(events, &mut t.first_cpus(n, full_slice), record)
        }
        Err(ending) => Report::unplayed(0, ending),
    }
}

fn play(mut events: Events, t: &mut Lent, record: &mut Record) -> Report {
    t.make_fresh(record);
    let mut times = Times::default();
    let (mut moves, mut refused) = (0, 0);
    let ending = loop {
        let (stamp, e) = match events.next() {
            Ok(event) => event,
            Err(ending) => break ending,
        };
        times.advance(stamp);
        let outcome = dispatch(t, record, &e, true);
        moves += u64::from(outcome.moves);
        refused += u32::from(outcome.answer != 0);
        times.now_busy(busy(t, record));
    };
    Report {
        answer: 0,
        ending,
        place: events.place(),
        cpus: t.n,
        full_slice: t.full_slice.into(),
        times: times.end(),
        moves,
        refused,
    }
}

/// The CPUs that have a task: online, and neither idle nor with ordinary work only.
fn busy(t: &Lent, record: &Record) -> u64 {
    *t.online & !(record.masks[0] | record.masks[1])
}

/// How long each CPU had a task. Its time is touched only when it gets its first task or loses its last one: the clock is
/// taken off, and added again.
struct Times {
    clock: u64,
    stamp: u32,
    busy: u64,
    times: [u64; CPUS],
}

impl Default for Times {
    /// No CPU has a task before the first event, so that it does not matter when the clock starts.
    fn default() -> Times {
        Times {
            clock: 0,
            stamp: 0,
            busy: 0,
            times: [0; CPUS],
        }
    }
}

impl Times {
    /// Stamps run past their end to zero.
    fn advance(&mut self, stamp: u32) {
        self.clock += u64::from(stamp.wrapping_sub(self.stamp));
        self.stamp = stamp;
    }

    fn now_busy(&mut self, busy: u64) {
        let mut changed = busy ^ self.busy;
        while changed != 0 {
            let cpu = changed.trailing_zeros();
            let time = &mut self.times[cpu as usize];
            *time = match busy >> cpu & 1 {
                1 => time.wrapping_sub(self.clock),
                _ => time.wrapping_add(self.clock),
            };
            changed &= changed - 1;
        }
        self.busy = busy;
    }

    fn end(mut self) -> [u64; CPUS] {
        self.now_busy(0);
        self.times
    }
}
