//! The library and the plain version side by side.

use compare::call::Call;
use plain::record::CPUS;
use plain::tables::{ENTRY, TASKS};
use plain::{Ending, Event, Made, Outcome, Record, Report, Tables};
use replay::replay_lent;

/// Both on equal tables. The plain side has no tables if rows of 512 places and log entries of four cannot be made of
/// them, and no record if the four tables of one have other lengths.
pub struct Pair {
    pub ours: binding::Tables,
    tables: Option<Tables>,
    record: Option<Record>,
}

impl Pair {
    pub fn new(ours: binding::Tables) -> Pair {
        let tables = tables(&ours);
        let record = record(&ours);
        Pair {
            ours,
            tables,
            record,
        }
    }

    /// Makes the call on both sides, and answers how many moves there were.
    pub fn call(&mut self, call: Call) -> usize {
        let before = self.ours.clone();
        let inner = self.inner(call);
        let (ours, moves) = self.ours(call);
        let plain = self.plain(call);
        assert_eq!(ours, plain, "{call:?}");
        assert!(self.same(&before), "{call:?} leaves other tables");
        if let Some((answer, tables, record)) = inner {
            assert_eq!(answer, ours, "unchecked: {call:?}");
            assert!(Some(tables) == self.tables, "unchecked: {call:?}");
            assert_eq!(Some(record), self.record);
        }
        moves as usize
    }

    /// The same for an event on a settled machine: the plain side is told so, and checks the event alone.
    pub fn settled_event(&mut self, e: binding::Event) -> Outcome {
        let before = self.ours.clone();
        let ours = self.ours.event(e);
        let right = "tables that pass the check";
        let (t, record) = (self.tables.as_mut(), self.record.as_mut());
        let outcome = handle(t.expect(right), record.expect(right), e, true);
        assert_eq!((outcome.answer, outcome.moves), (ours.answer, ours.moves));
        assert!(self.same(&before), "{e:?} leaves other tables");
        outcome
    }

    /// Replays a recording on both sides, in the tables as they are.
    pub fn replay(&mut self, bytes: &[u8]) -> Report {
        let before = self.ours.clone();
        let mut times = [u64::MAX; CPUS];
        let said = replay_lent(bytes, &mut self.ours, &mut times);
        let ours = Report {
            answer: said.answer,
            ending: ending(said.ending),
            place: said.place,
            cpus: said.cpus,
            full_slice: said.full_slice,
            times,
            moves: said.moves,
            refused: said.refused,
        };
        let plain = match (&mut self.tables, &mut self.record) {
            (Some(t), Some(record)) => plain::replay(bytes, t, record),
            _ => Report::unplayed(1, Ending::Stopped),
        };
        assert_eq!(ours, plain);
        assert!(self.same(&before), "the replay leaves other tables");
        plain
    }

    fn ours(&mut self, call: Call) -> (Vec<u64>, u32) {
        match call {
            Call::MakeFresh => {
                let m = self.ours.make_fresh();
                (vec![m.answer.into(), m.full_slice.into()], 0)
            }
            Call::MakeFreshDefault => {
                let m = self.ours.make_fresh_default();
                (vec![m.answer.into(), m.full_slice.into()], 0)
            }
            Call::Check => (vec![self.ours.check().into()], 0),
            Call::Event(e) => {
                let o = self.ours.event(e);
                (vec![o.answer.into(), o.moves.into()], o.moves)
            }
            Call::Find(level, mask) => {
                let f = self.ours.find(level, mask);
                let numbers = [f.answer.into(), f.level.into(), f.mask, f.masks_read.into()];
                (numbers.to_vec(), 0)
            }
        }
    }

    fn plain(&mut self, call: Call) -> Vec<u64> {
        match (call, &mut self.tables, &mut self.record) {
            (Call::MakeFresh, Some(t), Some(record)) => made(t.make_fresh(record)),
            (Call::MakeFreshDefault, Some(t), Some(record)) => made(t.make_fresh_default(record)),
            (Call::Check, Some(t), Some(record)) => vec![plain::check(t, record).into()],
            (Call::Event(e), Some(t), Some(record)) => {
                let o = plain::event(t, record, &event(e));
                vec![o.answer.into(), o.moves.into()]
            }
            (Call::Find(level, mask), _, Some(record)) => {
                let f = plain::find(self.ours.n, record, level, mask);
                vec![f.answer.into(), f.level.into(), f.mask, f.masks_read.into()]
            }
            (Call::Check, ..) => vec![1],
            (Call::MakeFresh | Call::MakeFreshDefault | Call::Event(_), ..) => vec![1, 0],
            (Call::Find(..), ..) => vec![1, 255, 0, 0],
        }
    }

    /// An event on well-formed tables without their check, on copies.
    fn inner(&self, call: Call) -> Option<(Vec<u64>, Tables, Record)> {
        let (Call::Event(e), Some(t), Some(record)) = (call, &self.tables, &self.record) else {
            return None;
        };
        if plain::check(t, record) != 0 {
            return None;
        }
        let (mut t, mut record) = (t.clone(), record.clone());
        let o = handle(&mut t, &mut record, e, false);
        Some((vec![o.answer.into(), o.moves.into()], t, record))
    }

    /// What the plain side has is as in our tables. If it lacks something, the call was refused and they are as before.
    fn same(&self, before: &binding::Tables) -> bool {
        let whole = self.tables.is_some() && self.record.is_some();
        self.tables == tables(&self.ours)
            && self.record == record(&self.ours)
            && (whole || self.ours == *before)
    }
}

fn ending(number: u8) -> Ending {
    match number {
        0 => Ending::Whole,
        1 => Ending::Cut,
        2 => Ending::Stopped,
        _ => panic!("{number} is no ending"),
    }
}

fn made(made: Made) -> Vec<u64> {
    vec![made.answer.into(), made.full_slice.into()]
}

fn handle(t: &mut Tables, record: &mut Record, e: binding::Event, settled: bool) -> Outcome {
    let mut t = t.lend().expect("right lengths");
    plain::handle(&mut t, record, &event(e), settled)
}

fn event(e: binding::Event) -> Event {
    Event {
        kind: e.kind,
        who: e.who,
        a: e.a,
        b: e.b,
        mask: e.mask,
    }
}

fn tables(t: &binding::Tables) -> Option<Tables> {
    let rows = t.rows.chunks(TASKS).map(|row| row.try_into().ok());
    let log = t.log.chunks(ENTRY).map(|entry| entry.try_into().ok());
    Some(Tables {
        n: t.n,
        full_slice: t.full_slice,
        state: t.state.clone(),
        policy: t.policy.clone(),
        prio: t.prio.clone(),
        cpu: t.cpu.clone(),
        slice: t.slice.clone(),
        mask: t.mask.clone(),
        rows: rows.collect::<Option<_>>()?,
        counts: t.counts.clone(),
        flags: t.flags.clone(),
        online: t.online,
        log: log.collect::<Option<_>>()?,
    })
}

fn record(t: &binding::Tables) -> Option<Record> {
    Some(Record {
        masks: t.level_masks[..].try_into().ok()?,
        counts: t.level_counts[..].try_into().ok()?,
        words: t.level_words[..].try_into().ok()?,
        levels: t.levels[..].try_into().ok()?,
    })
}
