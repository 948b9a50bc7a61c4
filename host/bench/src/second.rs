//! The second scheduler, which is slow by design. It has no inner event.

use crate::side::{found, outcome, sum, Side, Work};
use binding::Tables;
use compare::pair::for_reference_event;
use compare::tables::{for_reference, from_reference};
use reference::Mutant;
use std::hint::black_box;

pub struct Second {
    start: reference::Tables,
    now: reference::Tables,
}

impl Second {
    pub fn new(start: &Tables) -> Second {
        let start = for_reference(start);
        let now = start.clone();
        Second { start, now }
    }
}

impl Side for Second {
    fn restart(&mut self) {
        self.now = self.start.clone();
    }

    fn run(&mut self, work: &Work) -> u64 {
        let t = &mut self.now;
        match work {
            Work::Check(times) => {
                sum((0..*times).map(|_| reference::check(black_box(&*t), Mutant::None).into()))
            }
            Work::Events(events) | Work::Inner(events) | Work::Apart(events) => {
                sum(events.iter().map(|e| {
                    let o = reference::event(t, for_reference_event(*e), Mutant::None);
                    outcome(o.answer, o.moves)
                }))
            }
            Work::Find { times, level, mask } => sum((0..*times).map(|_| {
                let f = reference::find(black_box(&*t), *level, *mask, Mutant::None);
                found(f.answer, f.level, f.mask)
            })),
        }
    }

    fn tables(&self) -> Tables {
        from_reference(&self.now)
    }
}
