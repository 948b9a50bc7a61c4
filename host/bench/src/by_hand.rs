//! The plain version.

use crate::side::{found, outcome, sum, Side, Work};
use binding::{Event, Tables, LOG_WIDTH, TASKS};
use plain::Record;
use std::hint::black_box;

pub struct ByHand {
    start: (plain::Tables, Record),
    tables: plain::Tables,
    record: Record,
    /// Whether inner events are told that the machine is settled.
    told: bool,
}

impl ByHand {
    pub fn new(start: &Tables) -> ByHand {
        let start = (tables(start), record(start));
        let (tables, record) = start.clone();
        ByHand {
            start,
            tables,
            record,
            told: true,
        }
    }

    pub fn untold(start: &Tables) -> ByHand {
        ByHand {
            told: false,
            ..ByHand::new(start)
        }
    }
}

impl Side for ByHand {
    fn restart(&mut self) {
        copy(&self.start.0, &mut self.tables);
        self.record = self.start.1.clone();
    }

    fn run(&mut self, work: &Work) -> u64 {
        match work {
            Work::Check(times) => sum((0..*times).map(|_| {
                let side = black_box(&*self);
                plain::check(&side.tables, &side.record).into()
            })),
            Work::Events(events) => sum(events.iter().map(|e| {
                let o = plain::event(&mut self.tables, &mut self.record, &event(e));
                outcome(o.answer, o.moves)
            })),
            Work::Inner(events) => {
                let mut t = self.tables.lend().expect("right lengths");
                sum(events.iter().map(|e| {
                    let o = plain::handle(&mut t, &mut self.record, &event(e), self.told);
                    outcome(o.answer, o.moves)
                }))
            }
            Work::Apart(events) => sum(events.iter().map(|e| {
                let answer = u64::from(plain::check(&self.tables, &self.record));
                let mut t = self.tables.lend().expect("right lengths");
                let o = plain::handle(&mut t, &mut self.record, &event(e), self.told);
                answer + outcome(o.answer, o.moves)
            })),
            Work::Find { times, level, mask } => sum((0..*times).map(|_| {
                let side = black_box(&*self);
                let f = plain::find(side.tables.n, &side.record, *level, *mask);
                found(f.answer, f.level, f.mask)
            })),
        }
    }

    fn tables(&self) -> Tables {
        joined(&self.tables, &self.record)
    }
}

/// The tables and the record as the library's.
pub fn joined(t: &plain::Tables, r: &Record) -> Tables {
    let t = t.clone();
    Tables {
        n: t.n,
        full_slice: t.full_slice,
        state: t.state,
        policy: t.policy,
        prio: t.prio,
        cpu: t.cpu,
        slice: t.slice,
        mask: t.mask,
        rows: t.rows.concat(),
        counts: t.counts,
        flags: t.flags,
        online: t.online,
        log: t.log.concat(),
        level_masks: r.masks.to_vec(),
        level_counts: r.counts.to_vec(),
        level_words: r.words.to_vec(),
        levels: r.levels.to_vec(),
    }
}

fn event(e: &Event) -> plain::Event {
    plain::Event {
        kind: e.kind,
        who: e.who,
        a: e.a,
        b: e.b,
        mask: e.mask,
    }
}

pub fn record(t: &Tables) -> Record {
    let right = "a record's lengths";
    Record {
        masks: t.level_masks[..].try_into().expect(right),
        counts: t.level_counts[..].try_into().expect(right),
        words: t.level_words[..].try_into().expect(right),
        levels: t.levels[..].try_into().expect(right),
    }
}

pub fn tables(t: &Tables) -> plain::Tables {
    let t = t.clone();
    let row = |places: &[u16]| places.try_into().expect("a whole row");
    let entry = |numbers: &[u16]| numbers.try_into().expect("a whole entry");
    plain::Tables {
        n: t.n,
        full_slice: t.full_slice,
        state: t.state,
        policy: t.policy,
        prio: t.prio,
        cpu: t.cpu,
        slice: t.slice,
        mask: t.mask,
        rows: t.rows.chunks(TASKS).map(row).collect(),
        counts: t.counts,
        flags: t.flags,
        online: t.online,
        log: t.log.chunks(LOG_WIDTH).map(entry).collect(),
    }
}

/// Copies the full slice, the online mask and every table in place.
fn copy(from: &plain::Tables, to: &mut plain::Tables) {
    to.full_slice = from.full_slice;
    to.state.copy_from_slice(&from.state);
    to.policy.copy_from_slice(&from.policy);
    to.prio.copy_from_slice(&from.prio);
    to.cpu.copy_from_slice(&from.cpu);
    to.slice.copy_from_slice(&from.slice);
    to.mask.copy_from_slice(&from.mask);
    to.rows.copy_from_slice(&from.rows);
    to.counts.copy_from_slice(&from.counts);
    to.flags.copy_from_slice(&from.flags);
    to.online = from.online;
    to.log.copy_from_slice(&from.log);
}
