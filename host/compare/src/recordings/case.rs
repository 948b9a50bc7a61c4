//! A recording, and the tables that it is replayed in. It can be run again, cut down and printed.

use super::counters::{lent_name, Counters};
use super::write::divide;
use crate::case::Origin;
use crate::difference::Difference;
use crate::generate::full;
use crate::plan::{Plan, TaskPlan};
use crate::rng::Rng;
use crate::tables::{first_difference, for_reference, len, resize, set, COUNT, LENT};
use binding::{Tables, CPUS, TASKS};
use reference::{Ending, Mutant, Recorded};
use replay::{first_cpus, replay_lent, Answer};
use std::fmt;
use std::sync::OnceLock;

/// The number of the times, behind the tables that have a length.
pub const TIMES: usize = LENT;

/// What the tables hold before.
#[derive(Clone, Copy, Debug, PartialEq, Eq)]
pub enum Held {
    Zeros,
    Rubbish,
    /// A machine of 64 CPUs in use.
    Machine,
}

#[derive(Clone, Debug)]
pub struct Case {
    pub bytes: Vec<u8>,
    pub held: Held,
    /// Tables, or the times, each with the length that it has instead of the one that 64 CPUs ask for.
    pub resized: Vec<(usize, usize)>,
}

/// What a replay gave: the same on both sides.
pub struct Agreed {
    pub report: Answer,
    pub times: Vec<u64>,
    /// Each event and its answer, 0 if it was accepted, with its number of moves.
    pub events: Vec<(Recorded, reference::Outcome)>,
}

impl Held {
    pub const ALL: [Held; 3] = [Held::Zeros, Held::Rubbish, Held::Machine];

    fn tables(self) -> &'static Tables {
        static MADE: OnceLock<[Tables; 3]> = OnceLock::new();
        let made = || [Tables::zeroed(CPUS), rubbish(), machine().tables()];
        &MADE.get_or_init(made)[self as usize]
    }

    fn time(self) -> u64 {
        [0, 0x5a5a_5a5a_5a5a_5a5a, 7][self as usize]
    }
}

fn rubbish() -> Tables {
    let mut rng = Rng::for_case(0, 0);
    let mut t = Tables::zeroed(CPUS);
    for table in 0..COUNT {
        for index in 0..len(&t, table) {
            set(&mut t, table, index, rng.bits());
        }
    }
    t
}

/// Each CPU runs a task and keeps others waiting, or is offline; all have ordinary work.
fn machine() -> Plan {
    let task = |id: u16| TaskPlan {
        id,
        runnable: true,
        policy: 1 + (id % 2) as u8,
        prio: 1 + (id % 99) as u8,
        cpu: 2 * (id % 32) as u8,
        slice: 1,
        mask: full(CPUS),
    };
    Plan {
        flags: full(CPUS),
        online: 0x5555_5555_5555_5555,
        tasks: (0..TASKS as u16).map(task).collect(),
        log: 40_000,
        ..Plan::empty(CPUS, 1)
    }
}

/// The report of the reference as the library gives it.
pub fn as_answer(report: reference::Report) -> Answer {
    Answer {
        answer: report.answer,
        ending: match report.ending {
            Ending::Whole => 0,
            Ending::Cut => 1,
            Ending::Stopped => 2,
        },
        place: report.place,
        cpus: report.cpus,
        full_slice: report.full_slice,
        moves: report.moves,
        refused: report.refused,
    }
}

impl Case {
    /// A recording alone, in tables that hold rubbish.
    pub fn of(bytes: Vec<u8>) -> Case {
        Case {
            bytes,
            held: Held::Rubbish,
            resized: Vec::new(),
        }
    }

    /// The tables and the times, each in a block of its own length.
    fn lent(&self) -> (Tables, Vec<u64>) {
        let mut tables = self.held.tables().clone();
        let mut times = vec![self.held.time(); CPUS];
        for &(table, len) in &self.resized {
            match table {
                TIMES => times = vec![self.held.time(); len],
                table => resize(&mut tables, table, len),
            }
        }
        match self.resized.is_empty() {
            true => (tables, times),
            false => (tables.clone(), times),
        }
    }

    /// Replays on both sides and compares the reports, the times and all tables.
    pub fn run(&self, mutant: Mutant) -> Result<Agreed, Difference> {
        let (mut ours, mut times) = self.lent();
        let (mut theirs, mut their_times) = (for_reference(&ours), times.clone());
        let bytes: Box<[u8]> = self.bytes.as_slice().into();
        let report = replay_lent(&bytes, &mut ours, &mut times);
        let replayed = reference::replay(&bytes, &mut theirs, &mut their_times, mutant);
        let their_report = as_answer(replayed.report);
        if report != their_report {
            return Err(Difference::Report(Box::new([report, their_report])));
        }
        if let Some(index) = (0..times.len()).find(|&i| times[i] != their_times[i]) {
            return Err(Difference::Time {
                index,
                ours: times[index],
                theirs: their_times[index],
            });
        }
        if let Some((table, index, ours, theirs)) = first_difference(&ours, &theirs) {
            return Err(Difference::Table {
                table,
                index,
                ours,
                theirs,
            });
        }
        well_formed(ours, &report)?;
        Ok(Agreed {
            report,
            times,
            events: replayed.events,
        })
    }

    /// The same, counted; the failure, if any.
    pub fn run_counted(self, origin: Origin, counters: &mut Counters) -> Option<Failure> {
        match self.run(origin.mutant) {
            Ok(agreed) => {
                counters.count(&self, &agreed);
                None
            }
            Err(difference) => Some(Failure {
                origin,
                case: self,
                recordings: counters.recordings + 1,
                difference,
            }),
        }
    }

    /// Leaves out records as long as something still differs. `budget` is the most records to be replayed for it.
    fn shrink(&mut self, mutant: Mutant, mut budget: usize) {
        let mut size = divide(&self.bytes).len();
        while size > 0 {
            let mut from = divide(&self.bytes).len();
            while from > 0 {
                from = from.saturating_sub(size);
                let mut records = divide(&self.bytes);
                let to = records.len().min(from + size);
                drop(records.drain(from..to));
                if records.len() >= budget {
                    return;
                }
                budget -= records.len();
                let smaller = Case {
                    bytes: records.concat(),
                    ..self.clone()
                };
                if smaller.run(mutant).is_err() {
                    *self = smaller;
                }
            }
            size /= 2;
        }
    }
}

/// The machine that a replay leaves passes the check.
fn well_formed(tables: Tables, report: &Answer) -> Result<(), Difference> {
    if report.cpus == 0 {
        return Ok(());
    }
    match first_cpus(tables, report.cpus, report.full_slice).check() {
        0 => Ok(()),
        number => Err(Difference::IllFormed(number)),
    }
}

/// A recording that differs, and how to have it again.
pub struct Failure {
    pub origin: Origin,
    pub case: Case,
    /// Recordings of the run up to and with the differing one.
    pub recordings: u64,
    pub difference: Difference,
}

impl Failure {
    /// Cuts the recording down, and takes the difference of what is left.
    pub fn cut_down(mut self) -> Failure {
        let mutant = self.origin.mutant;
        self.case.shrink(mutant, 500_000);
        if let Err(difference) = self.case.run(mutant) {
            self.difference = difference;
        }
        self
    }
}

impl fmt::Display for Failure {
    fn fmt(&self, f: &mut fmt::Formatter) -> fmt::Result {
        const SHOWN: usize = 40;
        writeln!(f, "DIFFERENCE in mode replay: {}", self.difference)?;
        let Case {
            bytes,
            held,
            resized,
        } = &self.case;
        writeln!(f, "  {} bytes, in tables that hold {held:?}", bytes.len())?;
        for (table, len) in resized {
            writeln!(f, "  {} has length {len}", lent_name(*table))?;
        }
        let records = divide(bytes);
        for record in records.iter().take(SHOWN) {
            writeln!(f, "  {record:?}")?;
        }
        if records.len() > SHOWN {
            writeln!(f, "  and {} more", records.len() - SHOWN)?;
        }
        write!(f, "  {}", self.origin.again())
    }
}

#[cfg(test)]
mod tests {
    use super::*;

    #[test]
    fn the_machine_in_use_is_well_formed() {
        let mut t = Held::Machine.tables().clone();
        assert_eq!(t.check(), 0);
        t.counts[0] += 1;
        assert_eq!(t.check(), 2);
    }

    /// Each table and the times, in the case alone that names it.
    #[test]
    fn tables_are_lent_with_the_lengths_named() {
        let lengths = |resized: &[(usize, usize)]| {
            let case = Case {
                resized: resized.to_vec(),
                ..Case::of(Vec::new())
            };
            let (t, times) = case.lent();
            (t.rows.len(), t.levels.len(), times.len())
        };
        assert_eq!(lengths(&[]), (64 * 512, 64, 64));
        assert_eq!(lengths(&[(6, 3)]), (3, 64, 64));
        assert_eq!(lengths(&[(13, 0), (TIMES, 65)]), (64 * 512, 0, 65));
    }
}
