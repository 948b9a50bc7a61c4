//! What an event takes over its check, both on the same tables: three ways to run the same events, in turn.

use crate::by_hand::ByHand;
use crate::keep::Row;
use crate::machines::Scene;
use crate::ours::Ours;
use crate::side::{Side, Timed, Work};
use binding::{Event, Tables};

/// The same events: with their checks, each after a check by itself, and without.
pub struct Ways {
    event: Work,
    apart: Work,
    inner: Work,
}

impl Ways {
    pub fn new(events: &[Event]) -> Ways {
        Ways {
            event: Work::Events(events.into()),
            apart: Work::Apart(events.into()),
            inner: Work::Inner(events.into()),
        }
    }
}

impl Timed for Ways {
    fn parts(&self) -> Vec<Ways> {
        let apart = self.apart.parts().into_iter();
        let inner = self.inner.parts().into_iter();
        let others = apart.zip(inner);
        let event = self.event.parts().into_iter();
        let parts = event.zip(others).map(|(event, (apart, inner))| Ways {
            event,
            apart,
            inner,
        });
        parts.collect()
    }

    fn calls(&self) -> usize {
        self.event.calls()
    }
}

/// A version that runs the events one of these ways.
struct By {
    side: Box<dyn Side>,
    way: fn(&Ways) -> &Work,
}

impl Side<Ways> for By {
    fn restart(&mut self) {
        self.side.restart();
    }

    fn run(&mut self, ways: &Ways) -> u64 {
        self.side.run((self.way)(ways))
    }

    fn tables(&self) -> Tables {
        self.side.tables()
    }
}

const WAYS: [fn(&Ways) -> &Work; 3] = [|w| &w.event, |w| &w.apart, |w| &w.inner];

/// Library and plain, first with their checks, then with a check by itself, then without.
pub fn sides(scene: &Scene) -> Vec<Box<dyn Side<Ways>>> {
    let mut sides: Vec<Box<dyn Side<Ways>>> = Vec::new();
    for way in WAYS {
        let both: [Box<dyn Side>; 2] = [
            Box::new(Ours::new(&scene.start)),
            Box::new(ByHand::new(&scene.start)),
        ];
        sides.extend(both.map(|side| Box::new(By { side, way }) as Box<dyn Side<Ways>>));
    }
    sides
}

/// Of a row of these sides, for the library (0) or plain (1): the event, its check, and what the event takes over it.
pub fn parts(row: &Row, side: usize) -> [f64; 3] {
    let [event, apart, inner] = [0, 2, 4].map(|way| row.times[way + side]);
    let check = apart - inner;
    [event, check, event - check]
}
