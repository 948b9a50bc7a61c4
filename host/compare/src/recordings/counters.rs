//! What a run of recordings has done, and the least it must have done.

use super::case::{Agreed, Case, TIMES};
use super::ways::{Seen, WAYS};
use crate::tables::NAMES;
use binding::CPUS;
use std::fmt;

/// Kinds of events are 1 to 11, and answers 0 to 12.
const KINDS: usize = 11;
const NUMBERS: usize = 13;

/// Refusals of an event that a recording can have: its tables are well-formed, and its kinds known.
const REFUSALS: std::ops::RangeInclusive<usize> = 4..=12;

#[derive(Clone, Debug)]
pub struct Counters {
    pub recordings: u64,
    pub bytes: u64,
    pub events: u64,
    /// By kind of event.
    pub accepted: [u64; KINDS + 1],
    /// By refusal of an event.
    pub refused: [u64; NUMBERS],
    /// Recordings refused with 1 for one table of another length, by that table.
    pub lengths: [u64; TIMES + 1],
    /// By N.
    pub cpus: [u64; CPUS + 1],
    /// By each of `WAYS`.
    pub ways: [u64; WAYS.len()],
}

impl Default for Counters {
    fn default() -> Counters {
        Counters {
            recordings: 0,
            bytes: 0,
            events: 0,
            accepted: [0; KINDS + 1],
            refused: [0; NUMBERS],
            lengths: [0; TIMES + 1],
            cpus: [0; CPUS + 1],
            ways: [0; WAYS.len()],
        }
    }
}

impl Counters {
    pub fn count(&mut self, case: &Case, agreed: &Agreed) {
        self.recordings += 1;
        self.bytes += case.bytes.len() as u64;
        self.events += agreed.events.len() as u64;
        self.cpus[agreed.report.cpus] += 1;
        for (recorded, outcome) in &agreed.events {
            match outcome.answer {
                0 => self.accepted[recorded.event.kind as usize] += 1,
                number => self.refused[number as usize] += 1,
            }
        }
        if let (1, &[(table, _)]) = (agreed.report.answer, &case.resized[..]) {
            self.lengths[table] += 1;
        }
        let seen = Seen {
            bytes: &case.bytes,
            agreed,
        };
        for (times, (_, _, is)) in self.ways.iter_mut().zip(WAYS) {
            *times += u64::from(is(&seen));
        }
    }

    /// Each way so often as it says, each kind and each refusal of an event so often, and each N and each table of another
    /// length a few times; else what was not, in words.
    pub fn reached(&self, least: u64) -> Result<(), String> {
        const FEW: u64 = 3;
        let enough = |what: String, times: u64, least: u64| match times < least {
            true => Err(format!("{what} only {times} times, {least} are asked for")),
            false => Ok(()),
        };
        for ((way, least, _), times) in WAYS.iter().zip(self.ways) {
            enough(format!("recordings: {way}"), times, *least)?;
        }
        for kind in 1..=KINDS {
            let what = format!("recordings: kind {kind} accepted");
            enough(what, self.accepted[kind], least)?;
        }
        for number in REFUSALS {
            let what = format!("recordings: an event refused with {number}");
            enough(what, self.refused[number], least)?;
        }
        for n in 1..=CPUS {
            enough(format!("recordings: N {n}"), self.cpus[n], FEW)?;
        }
        for (table, &times) in self.lengths.iter().enumerate() {
            let what = format!("recordings: {} of another length", lent_name(table));
            enough(what, times, FEW)?;
        }
        Ok(())
    }
}

/// A table that has a length, or the times.
pub fn lent_name(table: usize) -> &'static str {
    match table {
        TIMES => "times",
        table => NAMES[table],
    }
}

fn numbered(numbers: &[u64], which: impl Iterator<Item = usize>) -> String {
    let list: Vec<String> = which.map(|i| format!("{i}: {}", numbers[i])).collect();
    list.join(", ")
}

impl fmt::Display for Counters {
    fn fmt(&self, f: &mut fmt::Formatter) -> fmt::Result {
        let (recordings, bytes, events) = (self.recordings, self.bytes, self.events);
        writeln!(
            f,
            "  {recordings} recordings, {bytes} bytes, {events} events"
        )?;
        let kinds = numbered(&self.accepted, 1..=KINDS);
        writeln!(f, "  accepted by kind {kinds}")?;
        let numbers = numbered(&self.refused, REFUSALS);
        writeln!(f, "  events refused by number {numbers}")?;
        let alike: Vec<String> = (0..=TIMES)
            .map(|table| format!("{} {}", lent_name(table), self.lengths[table]))
            .collect();
        writeln!(
            f,
            "  refused with 1 for another length: {}",
            alike.join(", ")
        )?;
        let least = self.cpus[1..].iter().min().expect("64 CPUs");
        writeln!(f, "  each N at least {least} times")?;
        for ((way, _, _), times) in WAYS.iter().zip(self.ways) {
            writeln!(f, "  {way}: {times}")?;
        }
        Ok(())
    }
}

#[cfg(test)]
mod tests {
    use super::*;

    /// What is said if one thing came up too seldom.
    fn said(spoil: impl FnOnce(&mut Counters)) -> String {
        let mut counters = Counters {
            accepted: [2000; KINDS + 1],
            refused: [2000; NUMBERS],
            lengths: [2000; TIMES + 1],
            cpus: [2000; CPUS + 1],
            ways: [2000; WAYS.len()],
            ..Counters::default()
        };
        assert_eq!(counters.reached(2000), Ok(()));
        spoil(&mut counters);
        counters.reached(2000).expect_err("too seldom")
    }

    #[test]
    fn each_is_asked_for() {
        for (i, (way, least, _)) in WAYS.iter().enumerate() {
            let seldom = least - 1;
            let words = format!("recordings: {way} only {seldom} times, {least} are asked for");
            assert_eq!(said(|c| c.ways[i] = seldom), words);
        }
        let words = "recordings: kind 11 accepted only 1999 times, 2000 are asked for";
        assert_eq!(said(|c| c.accepted[11] = 1999), words);
        let words = "recordings: an event refused with 12 only 1999 times, 2000 are asked for";
        assert_eq!(said(|c| c.refused[12] = 1999), words);
        let words = "recordings: N 64 only 2 times, 3 are asked for";
        assert_eq!(said(|c| c.cpus[64] = 2), words);
        let words = "recordings: times of another length only 2 times, 3 are asked for";
        assert_eq!(said(|c| c.lengths[TIMES] = 2), words);
    }
}
