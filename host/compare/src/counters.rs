//! What a run has done, and the least it must have done.

use crate::call::{Agreed, Call, Inner};
use crate::{finder, hotplug};
use std::fmt;

#[derive(Clone, Debug)]
pub struct Counters {
    pub calls: u64,
    pub cases: u64,
    /// By entry and answer.
    pub answers: [[u64; NUMBERS]; ENTRIES.len()],
    /// Refused with 1 for the full slice alone, by entry.
    pub slice_alone: [u64; ENTRIES.len()],
    /// By kind of event.
    pub accepted: [u64; KINDS + 1],
    /// Adds accepted with a full slice other than 100, the number that document 01 has.
    pub added_other: u64,
    /// Ticks that gave a task a full slice: with each of `SLICES`, and with others.
    pub refilled: [u64; SLICES.len() + 1],
    /// New priorities for a runnable task that has others of this priority in its row: lowered, unchanged, raised.
    pub among_equals: [u64; 3],
    /// By each of `hotplug::WAYS`, and of `finder::WAYS`.
    pub hotplug: [u64; hotplug::WAYS.len()],
    pub finder: [u64; finder::WAYS.len()],
    /// By number of moves.
    pub moves: [u64; 64],
    /// Events also run without their check, on any machine; and on settled ones, told so, with the accepted of these by
    /// number of moves.
    pub inner: u64,
    pub settled: u64,
    pub settled_moves: [u64; 64],
    /// Finder: a level found, and none.
    pub found: u64,
    pub found_none: u64,
}

impl Default for Counters {
    fn default() -> Counters {
        Counters {
            calls: 0,
            cases: 0,
            answers: [[0; NUMBERS]; ENTRIES.len()],
            slice_alone: [0; ENTRIES.len()],
            accepted: [0; KINDS + 1],
            added_other: 0,
            refilled: [0; SLICES.len() + 1],
            among_equals: [0; 3],
            hotplug: [0; hotplug::WAYS.len()],
            finder: [0; finder::WAYS.len()],
            moves: [0; 64],
            inner: 0,
            settled: 0,
            settled_moves: [0; 64],
            found: 0,
            found_none: 0,
        }
    }
}

const ENTRIES: [&str; 5] = ["make_fresh", "make_fresh_default", "check", "event", "find"];

/// Answers are 0 to 12, and kinds of events 1 to 11.
const NUMBERS: usize = 13;
const KINDS: usize = 11;

/// The entries' numbers.
pub const MAKE_FRESH: usize = 0;
pub const MAKE_FRESH_DEFAULT: usize = 1;
pub const CHECK: usize = 2;
pub const EVENT: usize = 3;
pub const FIND: usize = 4;

/// Every refusal there is: entry, number.
pub const REFUSALS: [(usize, usize); 20] = [
    (MAKE_FRESH, 1),
    (MAKE_FRESH_DEFAULT, 1),
    (CHECK, 1),
    (CHECK, 2),
    (EVENT, 1),
    (EVENT, 2),
    (EVENT, 3),
    (EVENT, 4),
    (EVENT, 5),
    (EVENT, 6),
    (EVENT, 7),
    (EVENT, 8),
    (EVENT, 9),
    (EVENT, 10),
    (EVENT, 11),
    (EVENT, 12),
    (FIND, 1),
    (FIND, 2),
    (FIND, 7),
    (FIND, 8),
];

/// Full slices whose ticks are counted by themselves: the limits, the default, and the one of document 01.
const SLICES: [u32; 4] = [1, 25, 100, 1000];

impl Counters {
    pub fn count(&mut self, call: Call, agreed: Agreed) {
        let answer = agreed.answer;
        let entry = match call {
            Call::MakeFresh => MAKE_FRESH,
            Call::MakeFreshDefault => MAKE_FRESH_DEFAULT,
            Call::Check => CHECK,
            Call::Event(_) => EVENT,
            Call::Find(..) => FIND,
        };
        self.calls += 1;
        self.answers[entry][answer.number as usize] += 1;
        self.slice_alone[entry] += u64::from(agreed.slice_alone);
        match call {
            Call::Event(e) if answer.number == 0 => {
                self.accepted[e.kind as usize] += 1;
                self.moves[answer.moves as usize] += 1;
                self.added_other += u64::from(e.kind == 1 && agreed.full_slice != 100);
            }
            Call::Find(..) if answer.number == 0 && answer.mask == 0 => self.found_none += 1,
            Call::Find(..) if answer.number == 0 => self.found += 1,
            _ => (),
        }
        if let Some(way) = agreed.among_equals {
            self.among_equals[(way as i8 + 1) as usize] += 1;
        }
        if agreed.refilled {
            let own = SLICES.iter().position(|&slice| slice == agreed.full_slice);
            self.refilled[own.unwrap_or(SLICES.len())] += 1;
        }
        add_each(&mut self.hotplug, &agreed.hotplug.map(u64::from));
        add_each(&mut self.finder, &agreed.finder.map(u64::from));
        self.inner += u64::from(agreed.inner != Inner::No);
        if agreed.inner == Inner::Settled {
            self.settled += 1;
            self.settled_moves[answer.moves as usize] += u64::from(answer.number == 0);
        }
    }

    /// Each refusal, each kind's acceptance, each way of a new priority among equals, each with CPUs offline and each of the
    /// finder was reached so often, and 63 moves once; else what was not, in words.
    pub fn reached(&self, least: u64) -> Result<(), String> {
        for (entry, number) in REFUSALS {
            let times = self.answers[entry][number];
            if times < least {
                let entry = ENTRIES[entry];
                return Err(format!("{entry} refused with {number} only {times} times"));
            }
        }
        for kind in 1..=KINDS {
            let times = self.accepted[kind];
            if times < least {
                return Err(format!("kind {kind} was accepted only {times} times"));
            }
        }
        for (way, times) in ["lowered", "unchanged", "raised"]
            .iter()
            .zip(self.among_equals)
        {
            if times < least {
                return Err(format!("among equals {way} only {times} times"));
            }
        }
        for (way, times) in self.ways() {
            if times < least {
                return Err(format!("{way} only {times} times"));
            }
        }
        self.slices_reached(least)?;
        match (0..ENTRIES.len()).find(|&entry| self.answers[entry][0] < least) {
            Some(entry) => Err(format!("{} was accepted too seldom", ENTRIES[entry])),
            None if self.most_moves() < 63 => Err(String::from("no event had 63 moves")),
            None => self.inner_reached(least),
        }
    }

    /// The ways with CPUs offline and those of the finder, in words, and how often each came up.
    fn ways(&self) -> impl Iterator<Item = (&'static str, u64)> {
        let hotplug = hotplug::WAYS.map(|(way, _)| way).into_iter();
        let finder = finder::WAYS.map(|(way, _)| way).into_iter();
        hotplug.zip(self.hotplug).chain(finder.zip(self.finder))
    }

    /// The same of full slices: refused for them alone by each entry that is handed one, added with others than 100, and
    /// ticks that end a slice.
    fn slices_reached(&self, least: u64) -> Result<(), String> {
        for entry in [MAKE_FRESH, CHECK, EVENT] {
            let (entry, times) = (ENTRIES[entry], self.slice_alone[entry]);
            if times < least {
                return Err(format!(
                    "{entry} refused for the full slice alone only {times} times"
                ));
            }
        }
        for (slice, times) in self.refilled_by_slice() {
            if times < least {
                return Err(format!(
                    "a tick refilled with full slice {slice} only {times} times"
                ));
            }
        }
        match self.added_other {
            times if times < least => Err(format!(
                "an add had a full slice other than 100 only {times} times"
            )),
            _ => Ok(()),
        }
    }

    /// The full slices in words, and how many ticks refilled with each.
    fn refilled_by_slice(&self) -> impl Iterator<Item = (String, u64)> + '_ {
        let slices = SLICES.iter().map(u32::to_string);
        slices
            .chain([String::from("another")])
            .zip(self.refilled.iter().copied())
    }

    /// The same of the inner event: on any machine, on settled ones, and there with moves.
    fn inner_reached(&self, least: u64) -> Result<(), String> {
        let moved: u64 = self.settled_moves[1..].iter().sum();
        for (what, times) in [
            ("ran", self.inner),
            ("ran on a settled machine", self.settled),
            ("moved a task there", moved),
        ] {
            if times < least {
                return Err(format!("the inner event {what} only {times} times"));
            }
        }
        match most(&self.settled_moves) {
            63 => Ok(()),
            _ => Err(String::from("no event on a settled machine had 63 moves")),
        }
    }

    pub fn most_moves(&self) -> usize {
        most(&self.moves)
    }

    pub fn add(&mut self, other: &Counters) {
        self.calls += other.calls;
        self.cases += other.cases;
        self.inner += other.inner;
        self.settled += other.settled;
        self.found += other.found;
        self.found_none += other.found_none;
        self.added_other += other.added_other;
        for (mine, others) in self.answers.iter_mut().zip(&other.answers) {
            add_each(mine, others);
        }
        add_each(&mut self.slice_alone, &other.slice_alone);
        add_each(&mut self.accepted, &other.accepted);
        add_each(&mut self.refilled, &other.refilled);
        add_each(&mut self.among_equals, &other.among_equals);
        add_each(&mut self.hotplug, &other.hotplug);
        add_each(&mut self.finder, &other.finder);
        add_each(&mut self.moves, &other.moves);
        add_each(&mut self.settled_moves, &other.settled_moves);
    }
}

fn add_each(mine: &mut [u64], others: &[u64]) {
    for (mine, other) in mine.iter_mut().zip(others) {
        *mine += other;
    }
}

impl fmt::Display for Counters {
    fn fmt(&self, f: &mut fmt::Formatter) -> fmt::Result {
        writeln!(f, "  {} calls in {} cases", self.calls, self.cases)?;
        for (entry, name) in ENTRIES.iter().enumerate() {
            let some = (0..NUMBERS).filter(|&i| self.answers[entry][i] > 0);
            let list: Vec<String> = some
                .map(|i| format!("{i}: {}", self.answers[entry][i]))
                .collect();
            writeln!(f, "  {name} answered {}", list.join(", "))?;
        }
        let kinds: Vec<String> = (1..=KINDS)
            .map(|k| format!("{k}: {}", self.accepted[k]))
            .collect();
        writeln!(f, "  accepted by kind {}", kinds.join(", "))?;
        self.write_slices(f)?;
        let [lowered, unchanged, raised] = self.among_equals;
        writeln!(
            f,
            "  new priorities among equals: lowered {lowered}, unchanged {unchanged}, raised {raised}"
        )?;
        let ways: Vec<String> = self
            .ways()
            .map(|(way, times)| format!("{way}: {times}"))
            .collect();
        writeln!(f, "  {}", ways.join("\n  "))?;
        writeln!(f, "  finder found {}, none {}", self.found, self.found_none)?;
        writeln!(f, "  events by moves {}", by_moves(&self.moves))?;
        let (inner, settled) = (self.inner, self.settled);
        writeln!(
            f,
            "  inner event {inner}, also told that the machine is settled {settled}"
        )?;
        writeln!(f, "  these by moves {}", by_moves(&self.settled_moves))
    }
}

impl Counters {
    fn write_slices(&self, f: &mut fmt::Formatter) -> fmt::Result {
        let alone: Vec<String> = [MAKE_FRESH, CHECK, EVENT]
            .map(|entry| format!("{} {}", ENTRIES[entry], self.slice_alone[entry]))
            .to_vec();
        writeln!(
            f,
            "  refused for the full slice alone: {}",
            alone.join(", ")
        )?;
        let refilled: Vec<String> = self
            .refilled_by_slice()
            .map(|(slice, times)| format!("{slice}: {times}"))
            .collect();
        writeln!(
            f,
            "  ticks that refill by full slice {}; adds with another than 100 {}",
            refilled.join(", "),
            self.added_other
        )
    }
}

/// The most moves of an event.
fn most(moves: &[u64; 64]) -> usize {
    (0..64).rev().find(|&i| moves[i] > 0).unwrap_or(0)
}

fn by_moves(moves: &[u64; 64]) -> String {
    let band = |from: usize, to: usize| moves[from..=to].iter().sum::<u64>();
    format!(
        "0: {}, 1: {}, 2: {}, 3: {}, 4-7: {}, 8-15: {}, 16-31: {}, 32-63: {}; most {}",
        moves[0],
        moves[1],
        moves[2],
        moves[3],
        band(4, 7),
        band(8, 15),
        band(16, 31),
        band(32, 63),
        most(moves)
    )
}

#[cfg(test)]
mod tests {
    use super::*;

    /// A run in which all came up so often.
    fn all(times: u64) -> Counters {
        Counters {
            answers: [[times; NUMBERS]; ENTRIES.len()],
            slice_alone: [times; ENTRIES.len()],
            accepted: [times; KINDS + 1],
            added_other: times,
            refilled: [times; SLICES.len() + 1],
            among_equals: [times; 3],
            hotplug: [times; hotplug::WAYS.len()],
            finder: [times; finder::WAYS.len()],
            moves: [times; 64],
            inner: times,
            settled: times,
            settled_moves: [times; 64],
            ..Counters::default()
        }
    }

    /// What is said if one thing came up once too seldom.
    fn said(spoil: impl FnOnce(&mut Counters)) -> String {
        let mut counters = all(9);
        spoil(&mut counters);
        counters.reached(9).expect_err("too seldom")
    }

    #[test]
    fn each_way_with_full_slices_is_asked_for() {
        assert_eq!(all(9).reached(9), Ok(()));
        for (entry, name) in [
            (MAKE_FRESH, "make_fresh"),
            (CHECK, "check"),
            (EVENT, "event"),
        ] {
            let words = format!("{name} refused for the full slice alone only 8 times");
            assert_eq!(said(|c| c.slice_alone[entry] = 8), words);
        }
        for (i, slice) in ["1", "25", "100", "1000", "another"]
            .into_iter()
            .enumerate()
        {
            let words = format!("a tick refilled with full slice {slice} only 8 times");
            assert_eq!(said(|c| c.refilled[i] = 8), words);
        }
        let words = "an add had a full slice other than 100 only 8 times";
        assert_eq!(said(|c| c.added_other = 8), words);
        let words = "make_fresh_default refused with 1 only 8 times";
        assert_eq!(said(|c| c.answers[MAKE_FRESH_DEFAULT][1] = 8), words);
    }

    #[test]
    fn each_way_with_cpus_offline_is_asked_for() {
        for (i, (way, _)) in hotplug::WAYS.iter().enumerate() {
            assert_eq!(said(|c| c.hotplug[i] = 8), format!("{way} only 8 times"));
        }
        for number in 10..=12 {
            let words = format!("event refused with {number} only 8 times");
            assert_eq!(said(|c| c.answers[EVENT][number] = 8), words);
        }
        for kind in 10..=11 {
            let words = format!("kind {kind} was accepted only 8 times");
            assert_eq!(said(|c| c.accepted[kind] = 8), words);
        }
    }

    #[test]
    fn each_way_of_the_finder_is_asked_for() {
        for (i, (way, _)) in finder::WAYS.iter().enumerate() {
            assert_eq!(said(|c| c.finder[i] = 8), format!("{way} only 8 times"));
        }
    }
}
