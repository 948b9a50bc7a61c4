//! Nights to be replayed: full recordings of a machine that began fresh, as a node would write them.

use crate::machines::{
    event, fresh, full, some_mask, ADD, AFFINITY, OFFLINE, ONLINE, ORDINARY, PRIORITY, SLEEP, TICK,
    WAKE, YIELD,
};
use crate::rng::Rng;
use binding::{Event, Tables};
use compare::recordings::write;
use inner::Settled;

/// As many as can stand behind the first record.
pub const EVENTS: usize = 65_535;

/// From one event to the next there are fewer microseconds: nine hours in all, in which stamps run past their end seven times.
const PAUSE: usize = 1_000_000;

/// Of so many events one takes a CPU offline.
const GONE: usize = 4096;
/// Of so many then one brings it back.
const BACK: usize = 512;

/// Of so many wakes and sleeps one does not look at what the task does.
const STRAY: usize = 50;

/// A recording, and what happens in it.
pub struct Night {
    pub bytes: Vec<u8>,
    pub refused: usize,
    pub moves: usize,
    /// Tasks that are runnable, and CPUs that have one, on average after an event.
    pub runnable: f64,
    pub running: f64,
}

/// So many tasks, of a hundred of which `share` are runnable.
pub fn night(n: usize, tasks: usize, share: usize) -> Night {
    let mut recorder = Recorder::new(n, tasks, share);
    recorder.open();
    while recorder.events < EVENTS {
        recorder.go_on();
    }
    recorder.end()
}

/// Writes a night down while it happens.
struct Recorder {
    rng: Rng,
    machine: Settled,
    tasks: usize,
    share: usize,
    bytes: Vec<u8>,
    stamp: u32,
    events: usize,
    refused: usize,
    moves: usize,
    /// Sums over all events.
    runnable: usize,
    running: usize,
}

impl Recorder {
    fn new(n: usize, tasks: usize, share: usize) -> Recorder {
        Recorder {
            rng: Rng::new((n * 1000 + tasks) as u64),
            machine: Settled::new(fresh(n)),
            tasks,
            share,
            bytes: write::first(n as u8, None),
            stamp: 0,
            events: 0,
            refused: 0,
            moves: 0,
            runnable: 0,
            running: 0,
        }
    }

    fn tables(&self) -> &Tables {
        self.machine.tables()
    }

    /// An event happens, if the recording has room for it.
    fn happens(&mut self, e: Event) {
        if self.events == EVENTS {
            return;
        }
        self.bytes.extend(write::record(self.stamp, e));
        self.stamp = self.stamp.wrapping_add(self.rng.below(PAUSE) as u32);
        let outcome = self.machine.event(e);
        self.events += 1;
        self.refused += usize::from(outcome.answer != 0);
        self.moves += outcome.moves as usize;
        let counts = &self.machine.tables().counts;
        self.runnable += counts
            .iter()
            .map(|&count| usize::from(count))
            .sum::<usize>();
        self.running += counts.iter().filter(|&&count| count > 0).count();
    }

    /// All tasks are added; half of them are RR.
    fn open(&mut self) {
        for who in 0..self.tasks {
            let e = Event {
                a: 1 + self.rng.below(2) as u32,
                b: 1 + self.rng.below(99) as u32,
                mask: self.some_mask(),
                ..event(ADD, who)
            };
            self.happens(e);
            if self.rng.below(100) < self.share {
                self.happens(event(WAKE, who));
            }
        }
    }

    /// Of ten events three are ticks, four wake a task or put it to sleep, and one each sets a priority and a mask.
    fn go_on(&mut self) {
        let complete = self.tables().online == full(self.tables().n);
        if self.rng.below(if complete { GONE } else { BACK }) == 0 {
            return self.replug(complete);
        }
        let who = self.rng.below(self.tasks);
        let e = match self.rng.below(20) {
            0..=5 => event(TICK, self.some_cpu(Tables::is_online)),
            6..=13 => self.wake_or_sleep(),
            14..=15 => Event {
                b: 1 + self.rng.below(99) as u32,
                ..event(PRIORITY, who)
            },
            16..=17 => Event {
                mask: self.some_mask(),
                ..event(AFFINITY, who)
            },
            18 => event(YIELD, self.some_cpu(|t, c| t.counts[c] > 0)),
            _ => Event {
                b: self.rng.below(2) as u32,
                ..event(ORDINARY, self.some_cpu(Tables::is_online))
            },
        };
        self.happens(e);
    }

    fn some_mask(&mut self) -> u64 {
        let n = self.tables().n;
        some_mask(&mut self.rng, n)
    }

    /// Such a CPU; if there is none, any.
    fn some_cpu(&mut self, such: impl Fn(&Tables, usize) -> bool) -> usize {
        let n = self.tables().n;
        let from = self.rng.below(n);
        let mut from_there_on = (from..n).chain(0..from);
        let found = from_there_on.find(|&c| such(self.tables(), c));
        found.unwrap_or(from)
    }

    /// In the long run the share of tasks is runnable.
    fn wake_or_sleep(&mut self) -> Event {
        let stray = self.rng.below(STRAY) == 0;
        loop {
            let who = self.rng.below(self.tasks);
            let runnable = self.tables().state[who] == 2;
            let wakes = self.rng.below(100) < self.share;
            if stray || wakes != runnable {
                return event(if wakes { WAKE } else { SLEEP }, who);
            }
        }
    }

    /// A CPU goes offline, after the tasks in its row that may use no other are allowed all; or comes back.
    fn replug(&mut self, complete: bool) {
        let (n, online) = (self.tables().n, self.tables().online);
        if !complete {
            return self.happens(event(ONLINE, online.trailing_ones() as usize));
        }
        let cpu = self.rng.below(n);
        for who in self.tables().row(cpu).to_vec() {
            if self.tables().mask[who as usize] == 1 << cpu {
                let e = Event {
                    mask: full(n),
                    ..event(AFFINITY, who.into())
                };
                self.happens(e);
            }
        }
        self.happens(event(OFFLINE, cpu));
    }

    fn end(self) -> Night {
        let average = |sum: usize| sum as f64 / EVENTS as f64;
        Night {
            bytes: self.bytes,
            refused: self.refused,
            moves: self.moves,
            runnable: average(self.runnable),
            running: average(self.running),
        }
    }
}

#[cfg(test)]
mod tests {
    use super::*;
    use replay::{replay, Ending};

    /// It has all the records that it may have, of all kinds but remove, and a replay of it counts what was counted.
    #[test]
    fn a_night_is_a_full_recording() {
        let night = night(4, 60, 70);
        let report = replay(&night.bytes, &mut fresh(1));
        assert_eq!(
            (report.ending, report.place),
            (Ending::Whole, night.bytes.len())
        );
        assert_eq!(report.refused as usize, night.refused);
        assert_eq!(report.moves as usize, night.moves);
        let records = write::divide(&night.bytes);
        assert_eq!(records.len(), 1 + EVENTS);
        let happens = |kind: u32| records[1..].iter().any(|r| u32::from(r[0]) == kind);
        let kinds: Vec<u32> = (1..=11).filter(|&kind| happens(kind)).collect();
        assert_eq!(kinds, [1, 3, 4, 5, 6, 7, 8, 9, 10, 11]);
    }

    /// As many as asked for, or nearly.
    #[test]
    fn the_share_is_runnable() {
        for share in [30, 70, 90] {
            let runnable = night(64, 200, share).runnable;
            let asked = 2.0 * share as f64;
            assert!((runnable - asked).abs() < 6.0, "{runnable} of {asked}");
        }
    }
}
