//! The same event again and again. What the library does depends on the tables and the event alone (that is proved), so
//! tables that come a second time bring all that followed the first time: of many ticks only the first round is run, and
//! then the few that lead from remembered tables to where they end.

use binding::{Event, Tables};

/// The most tables that are remembered.
const MOST_MET: usize = 256;

/// Looks for tables that come again, while the same event comes and makes no move.
pub struct Cycle {
    event: Event,
    /// Tables that were met, one every `stride` events. The first of them is the mark.
    met: Vec<Tables>,
    stride: u64,
    /// How many events ago the mark was met.
    since: u64,
    /// After so many events the mark is set anew: 1, 2, 4, .., so that a round is found wherever it begins.
    until: u64,
    /// The length of a round, once the mark came again.
    round: Option<u64>,
}

impl Cycle {
    pub fn new(event: Event, tables: &Tables) -> Cycle {
        Cycle {
            event,
            met: vec![tables.clone()],
            stride: 1,
            since: 0,
            until: 1,
            round: None,
        }
    }

    pub fn is_of(&self, event: Event) -> bool {
        self.event == event
    }

    /// Sees the tables after one more event.
    pub fn see(&mut self, tables: &Tables) {
        self.since += 1;
        if let Some(round) = self.round {
            self.since %= round;
        } else if *tables == self.met[0] {
            self.round = Some(self.since);
            self.since = 0;
        } else if self.since == self.until {
            let until = 2 * self.until;
            *self = Cycle {
                until,
                ..Cycle::new(self.event, tables)
            };
        } else {
            self.remember(tables);
        }
    }

    /// Remembers the tables, if it is their turn. If there are too many already, every other one goes.
    fn remember(&mut self, tables: &Tables) {
        if self.since < self.met.len() as u64 * self.stride {
            return;
        }
        if self.met.len() == MOST_MET {
            let mut stays = false;
            self.met.retain(|_| {
                stays = !stays;
                stays
            });
            self.stride *= 2;
        }
        self.met.push(tables.clone());
    }

    /// Of so many events, how many need not be run. The tables are then such that the others lead to the same end: as they
    /// are, for whole rounds, or the last ones that are remembered before that end.
    pub fn skip(&mut self, times: u64, tables: &mut Tables) -> u64 {
        let Some(round) = self.round else {
            return 0;
        };
        let end = (self.since + times) % round;
        let last = (end / self.stride).min(self.met.len() as u64 - 1);
        let (from_here, from_last) = (times % round, end - last * self.stride);
        if from_here <= from_last {
            return times - from_here;
        }
        tables.clone_from(&self.met[last as usize]);
        self.since = last * self.stride;
        times - from_last
    }
}
