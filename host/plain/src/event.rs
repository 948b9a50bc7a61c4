//! One event: the checks, its own effect, then migration steps.

use crate::check::check;
use crate::effect;
use crate::hotplug;
use crate::record::Record;
use crate::settle::{settle, settle_few, Few};
use crate::tables::{Lent, Tables};

#[derive(Clone, Copy, Debug, PartialEq, Eq)]
pub struct Event {
    pub kind: u32,
    pub who: u32,
    pub a: u32,
    pub b: u32,
    pub mask: u64,
}

#[derive(Clone, Copy, Debug, PartialEq, Eq)]
pub struct Outcome {
    pub answer: u8,
    pub moves: u32,
}

impl Outcome {
    fn refused(answer: u8) -> Outcome {
        Outcome { answer, moves: 0 }
    }
}

/// One event on any tables.
pub fn event(t: &mut Tables, record: &mut Record, e: &Event) -> Outcome {
    match (check(t, record), t.lend()) {
        (0, Some(mut t)) => handle(&mut t, record, e, false),
        (answer, _) => Outcome::refused(answer),
    }
}

/// One event on well-formed tables: nothing is checked but the event. `settled` says that no task is movable, as on
/// a fresh machine and after an accepted event: then few tasks are looked at.
pub fn handle(t: &mut Lent, record: &mut Record, e: &Event, settled: bool) -> Outcome {
    dispatch(t, record, e, settled)
}

/// The same as a part of the caller, for the replay's loop.
#[inline(always)]
pub(crate) fn dispatch(t: &mut Lent, record: &mut Record, e: &Event, settled: bool) -> Outcome {
    match e.kind {
        1 => run(t, record, e, settled, effect::add),
        2 => run(t, record, e, settled, effect::remove),
        3 => run(t, record, e, settled, effect::wake),
        4 => run(t, record, e, settled, effect::sleep),
        5 => run(t, record, e, settled, effect::set_priority),
        6 => run(t, record, e, settled, effect::set_affinity),
        7 => run(t, record, e, settled, effect::tick),
        8 => run(t, record, e, settled, effect::yield_cpu),
        9 => run(t, record, e, settled, effect::set_ordinary),
        10 => run(t, record, e, settled, hotplug::take_offline),
        11 => run(t, record, e, settled, hotplug::bring_online),
        _ => Outcome::refused(3),
    }
}

/// An event of one kind. Each kind has a copy of its own.
#[inline(never)]
fn run(
    t: &mut Lent,
    record: &mut Record,
    e: &Event,
    settled: bool,
    effect: impl FnOnce(&mut Lent, &mut Record, &Event) -> Result<Few, u8>,
) -> Outcome {
    let few = match effect(t, record, e) {
        Ok(few) => few,
        Err(answer) => return Outcome::refused(answer),
    };
    let moves = match settled {
        true if few == Few::NONE => 0,
        true => settle_few(t, record, few),
        false => settle(t, record),
    };
    Outcome { answer: 0, moves }
}
