//! The proved library.

use crate::side::{found, outcome, sum, Side, Work};
use binding::Tables;
use inner::{Checked, Settled};
use std::hint::black_box;

pub struct Ours {
    start: Settled,
    now: Settled,
}

impl Ours {
    pub fn new(start: &Tables) -> Ours {
        let start = Settled::new(start.clone());
        let now = start.clone();
        Ours { start, now }
    }
}

impl Side for Ours {
    fn restart(&mut self) {
        self.now.copy_from(&self.start);
    }

    fn run(&mut self, work: &Work) -> u64 {
        let t = &mut self.now;
        match work {
            Work::Check(times) => sum((0..*times).map(|_| black_box(&*t).tables().check().into())),
            Work::Events(events) => sum(events.iter().map(|&e| {
                let o = t.checked_event(e);
                outcome(o.answer, o.moves)
            })),
            Work::Inner(events) => sum(events.iter().map(|&e| {
                let o = t.event(e);
                outcome(o.answer, o.moves)
            })),
            Work::Apart(events) => sum(events.iter().map(|&e| {
                let answer = u64::from(t.tables().check());
                let o = t.event(e);
                answer + outcome(o.answer, o.moves)
            })),
            Work::Find { times, level, mask } => sum((0..*times).map(|_| {
                let f = black_box(&*t).tables().find(*level, *mask);
                found(f.answer, f.level, f.mask)
            })),
        }
    }

    fn tables(&self) -> Tables {
        self.now.tables().clone()
    }
}

/// The same, which is not told that the machine is settled: inner events alone.
pub struct Untold {
    start: Checked,
    now: Checked,
}

impl Untold {
    pub fn new(start: &Tables) -> Untold {
        let start = Checked::new(start.clone());
        let now = start.clone();
        Untold { start, now }
    }
}

impl Side for Untold {
    fn restart(&mut self) {
        self.now = self.start.clone();
    }

    fn run(&mut self, work: &Work) -> u64 {
        let Work::Inner(events) = work else {
            panic!("inner events alone");
        };
        sum(events.iter().map(|&e| {
            let o = self.now.event(e);
            outcome(o.answer, o.moves)
        }))
    }

    fn tables(&self) -> Tables {
        self.now.tables().clone()
    }
}
