//! A case is a machine, what was done to its tables, and calls. It can be run again, cut down and printed.

use crate::call::Call;
use crate::counters::Counters;
use crate::damage::Damage;
use crate::difference::Difference;
use crate::pair::Pair;
use crate::plan::Plan;
use reference::Mutant;
use std::fmt;

#[derive(Clone, Debug)]
pub struct Case {
    pub plan: Plan,
    pub damage: Vec<Damage>,
    pub calls: Vec<Call>,
}

/// Where cases come from.
#[derive(Clone, Copy, Debug)]
pub struct Origin {
    pub mode: &'static str,
    /// Seed and case number, for the modes that have them.
    pub from: Option<(u64, u64)>,
    pub mutant: Mutant,
}

/// A case that differs, and how to have it again.
pub struct Failure {
    pub origin: Origin,
    pub case: Case,
    /// Calls of the run up to and with the differing one.
    pub calls: u64,
    pub difference: Difference,
}

impl Origin {
    pub fn failure(self, case: Case, counters: &Counters, difference: Difference) -> Failure {
        Failure {
            origin: self,
            case,
            calls: counters.calls + 1,
            difference,
        }
    }

    /// The words that give a case again.
    pub fn again(self) -> String {
        let Origin { mode, from, mutant } = self;
        let mutant = match mutant {
            Mutant::None => String::new(),
            mutant => format!(" --mutant {mutant:?}"),
        };
        let case = match from {
            Some((seed, case)) => format!(" --seed {seed} --case {case}"),
            None => String::new(),
        };
        format!("again: compare{case}{mutant} {mode}")
    }
}

impl Case {
    /// The pair with which the calls begin.
    pub fn start(&self, mutant: Mutant) -> Pair {
        let mut tables = self.plan.tables();
        for damage in &self.damage {
            damage.apply(&mut tables);
        }
        Pair::new(tables, mutant)
    }

    /// All calls, counted; the failure, if any.
    pub fn run_counted(mut self, origin: Origin, counters: &mut Counters) -> Option<Failure> {
        let mut pair = self.start(origin.mutant);
        counters.cases += 1;
        for i in 0..self.calls.len() {
            match pair.call(self.calls[i]) {
                Ok(agreed) => counters.count(self.calls[i], agreed),
                Err(difference) => {
                    self.calls.truncate(i + 1);
                    return Some(origin.failure(self, counters, difference));
                }
            }
        }
        None
    }

    /// The first call that differs.
    pub fn run(&self, mutant: Mutant) -> Option<(usize, Difference)> {
        let mut pair = self.start(mutant);
        self.calls
            .iter()
            .enumerate()
            .find_map(|(i, &call)| pair.call(call).err().map(|difference| (i, difference)))
    }

    /// Starts from the machine that the last call met, if that differs as well.
    fn start_late(&mut self, mutant: Mutant) {
        let mut pair = self.start(mutant);
        let (last, before) = self.calls.split_last().expect("a call");
        let met = before.iter().all(|&call| pair.call(call).is_ok());
        if met && pair.ours.check() == 0 {
            let late = Case {
                plan: Plan {
                    log: 0,
                    ..Plan::read(&pair.ours)
                },
                damage: Vec::new(),
                calls: vec![*last],
            };
            if late.run(mutant).is_some() {
                *self = late;
            }
        }
    }

    /// Leaves out calls, damage and tasks as long as something still differs. `tries` is the most runs for it.
    pub fn shrink(&mut self, mutant: Mutant, mut tries: usize) {
        let Some((last, _)) = self.run(mutant) else {
            return;
        };
        self.calls.truncate(last + 1);
        self.start_late(mutant);
        for part in [Part::Tasks, Part::Calls, Part::Damage, Part::Tasks] {
            let mut size = part.len(self);
            while size > 0 {
                let mut from = part.len(self);
                while from > 0 && tries > 0 {
                    from = from.saturating_sub(size);
                    let mut smaller = self.clone();
                    part.cut(&mut smaller, from, size);
                    tries -= 1;
                    if smaller.run(mutant).is_some() {
                        *self = smaller;
                    }
                }
                size /= 2;
            }
        }
    }
}

/// What can be left out.
#[derive(Clone, Copy)]
enum Part {
    Tasks,
    Calls,
    Damage,
}

impl Part {
    fn len(self, case: &Case) -> usize {
        match self {
            Part::Tasks => case.plan.tasks.len(),
            Part::Calls => case.calls.len(),
            Part::Damage => case.damage.len(),
        }
    }

    fn cut(self, case: &mut Case, from: usize, size: usize) {
        let to = self.len(case).min(from + size);
        match self {
            Part::Tasks => drop(case.plan.tasks.drain(from..to)),
            Part::Calls => drop(case.calls.drain(from..to)),
            Part::Damage => drop(case.damage.drain(from..to)),
        }
    }
}

impl Failure {
    /// Cuts the case down, and takes the difference of what is left.
    pub fn cut_down(mut self) -> Failure {
        let mutant = self.origin.mutant;
        self.case.shrink(mutant, 3000);
        if let Some((_, difference)) = self.case.run(mutant) {
            self.difference = difference;
        }
        self
    }
}

impl fmt::Display for Failure {
    fn fmt(&self, f: &mut fmt::Formatter) -> fmt::Result {
        let mode = self.origin.mode;
        writeln!(f, "DIFFERENCE in mode {mode}: {}", self.difference)?;
        write!(f, "{}", self.case.plan)?;
        for damage in &self.case.damage {
            writeln!(f, "  damage: {damage}")?;
        }
        for call in &self.case.calls {
            writeln!(f, "  {call}")?;
        }
        write!(f, "  {}", self.origin.again())
    }
}
