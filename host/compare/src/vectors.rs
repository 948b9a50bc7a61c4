//! K1 to K12 of the paper, with the paper's numbers, 100 named as the full slice and all CPUs online, and some cases of requests
//! L1, L3, L4, L7 and L8, on our library and on the reference. A log entry is (task, from, to, level of the destination before
//! the move).

mod finder;
mod hotplug;
mod lowered;
pub mod nights;
mod slices;

use crate::pair::for_reference_event;
use crate::tables::{for_reference, from_reference};
use binding::{Event, Found, Made, Outcome, Tables};
use reference::Mutant;

/// Whose scheduler runs the examples.
#[derive(Clone, Copy, PartialEq, Eq)]
pub enum Side {
    Ours,
    Theirs(Mutant),
}

enum Step {
    /// A fresh machine of N CPUs with this full slice, or by the maker that is told none; the answer, and what the maker
    /// hands back. A refusal leaves the earlier machine.
    Make(usize, Option<u32>, u8, u32),
    /// From here on this full slice is handed in.
    With(u32),
    /// From here on this online mask is handed in.
    Plug(u64),
    /// The check, and its answer.
    Check(u8),
    /// An event, and the answer.
    Do(Event, u8),
    /// The finder with a level and a mask, and all that it answers.
    Find(u32, u64, Found),
    Rows(&'static [&'static [u16]]),
    Levels(&'static [u8]),
    Cpus(&'static [u8]),
    Flags(&'static [u8]),
    /// The online mask.
    Online(u64),
    /// The log of the last event, which says its number of moves too.
    Log(&'static [[u16; 4]]),
    /// A task's slice.
    Slice(usize, u16),
    /// From here on the task has so many ticks left, written into its column.
    Left(usize, u16),
}

use Step::*;

const FIFO: u32 = 1;
const RR: u32 = 2;

/// A machine with 100 named.
fn fresh(n: usize) -> Step {
    Make(n, Some(100), 0, 100)
}

fn refused(n: usize, full_slice: Option<u32>) -> Step {
    Make(n, full_slice, 1, 0)
}

fn add(who: u32, prio: u32, mask: u64) -> Step {
    Do(Event::new(1, who, FIFO, prio, mask), 0)
}

fn add_rr(who: u32, prio: u32, mask: u64) -> Step {
    Do(Event::new(1, who, RR, prio, mask), 0)
}

fn wake(who: u32) -> Step {
    Do(Event::new(3, who, 0, 0, 0), 0)
}

fn sleep(who: u32) -> Step {
    Do(Event::new(4, who, 0, 0, 0), 0)
}

fn prio(who: u32, prio: u32) -> Step {
    Do(Event::new(5, who, 0, prio, 0), 0)
}

fn tick(cpu: u32) -> Step {
    Do(Event::new(7, cpu, 0, 0, 0), 0)
}

fn k1() -> Vec<Step> {
    let wakes = vec![fresh(1), add(0, 50, 1), wake(0)];
    then(wakes, vec![Rows(&[&[0]]), Levels(&[52]), Log(&[])])
}

fn k2() -> Vec<Step> {
    vec![
        fresh(2),
        add(0, 50, 3),
        add(1, 40, 3),
        wake(1),
        wake(0),
        Log(&[[1, 0, 1, 0]]),
        Rows(&[&[0], &[1]]),
        Levels(&[52, 42]),
    ]
}

fn k3() -> Vec<Step> {
    let more = vec![add(2, 40, 3), wake(2), Rows(&[&[0, 2], &[1]]), Log(&[])];
    then(k2(), more)
}

fn k4() -> Vec<Step> {
    then(k3(), vec![sleep(0), Rows(&[&[2], &[1]]), Log(&[])])
}

fn k5() -> Vec<Step> {
    vec![
        fresh(3),
        add(0, 30, 3),
        add(1, 20, 6),
        add(2, 10, 4),
        add(3, 40, 1),
        wake(0),
        Log(&[]),
        wake(1),
        Log(&[]),
        wake(2),
        Log(&[]),
        Rows(&[&[0], &[1], &[2]]),
        wake(3),
        Log(&[[0, 0, 1, 22], [1, 1, 2, 12]]),
        Rows(&[&[3], &[0], &[1, 2]]),
        Levels(&[42, 32, 22]),
        Cpus(&[1, 2, 2, 0]),
    ]
}

fn k6() -> Vec<Step> {
    let more = vec![
        sleep(3),
        Log(&[]),
        Rows(&[&[], &[0], &[1, 2]]),
        Levels(&[0, 32, 22]),
    ];
    then(k5(), more)
}

fn k7() -> Vec<Step> {
    vec![
        fresh(2),
        add(0, 60, 1),
        add(1, 50, 1),
        add(2, 40, 3),
        wake(0),
        wake(1),
        wake(2),
        Log(&[[2, 0, 1, 0]]),
        Rows(&[&[0, 1], &[2]]),
    ]
}

fn k8() -> Vec<Step> {
    let more = vec![
        Do(Event::new(6, 0, 0, 0, 2), 0),
        Rows(&[&[1], &[0]]),
        Log(&[[1, 1, 0, 0]]),
    ];
    then(k2(), more)
}

fn k9() -> Vec<Step> {
    let mut steps = vec![
        fresh(1),
        add_rr(0, 20, 1),
        add_rr(1, 20, 1),
        wake(0),
        wake(1),
    ];
    steps.extend((0..99).map(|_| tick(0)));
    let more = vec![
        Slice(0, 1),
        Rows(&[&[0, 1]]),
        tick(0),
        Rows(&[&[1, 0]]),
        Slice(0, 100),
    ];
    then(steps, more)
}

fn k10() -> Vec<Step> {
    vec![
        fresh(3),
        Do(Event::new(9, 1, 0, 1, 0), 0),
        add(0, 50, 7),
        add(1, 40, 7),
        wake(0),
        Cpus(&[0]),
        wake(1),
        Log(&[[1, 0, 2, 0]]),
        Rows(&[&[0], &[], &[1]]),
    ]
}

fn k11() -> Vec<Step> {
    vec![
        fresh(1),
        add(0, 50, 1),
        add(1, 30, 1),
        wake(0),
        wake(1),
        Rows(&[&[0, 1]]),
        prio(0, 30),
        Rows(&[&[0, 1]]),
    ]
}

fn k12() -> Vec<Step> {
    vec![
        refused(0, Some(100)),
        refused(65, Some(100)),
        fresh(2),
        Do(Event::new(1, 512, FIFO, 50, 3), 4),
        Do(Event::new(3, 512, 0, 0, 0), 4),
        add(511, 1, 3),
        wake(511),
        Do(Event::new(3, 511, 0, 0, 0), 5),
        Do(Event::new(1, 0, FIFO, 0, 3), 7),
        Do(Event::new(1, 0, FIFO, 100, 3), 7),
        Do(Event::new(1, 0, FIFO, 50, 0), 8),
        Do(Event::new(1, 0, FIFO, 50, 4), 8),
        Do(Event::new(8, 1, 0, 0, 0), 9),
        fresh(64),
        add(511, 99, 1 << 63),
        wake(511),
        Cpus(&[0]),
        prio(511, 1),
    ]
}

fn then(mut first: Vec<Step>, more: Vec<Step>) -> Vec<Step> {
    first.extend(more);
    first
}

/// A machine of one side. Events of the reference go through its own tables; ours are read in between.
struct Run {
    side: Side,
    t: Tables,
    moves: u32,
}

impl Run {
    /// Makes a machine in tables of their own, which are the machine's if that is accepted.
    fn make(&mut self, n: usize, full_slice: Option<u32>) -> Made {
        let mut t = Tables::zeroed(n);
        t.full_slice = full_slice.unwrap_or(0);
        let made = match (self.side, full_slice) {
            (Side::Ours, Some(_)) => t.make_fresh(),
            (Side::Ours, None) => t.make_fresh_default(),
            (Side::Theirs(m), _) => {
                let mut theirs = for_reference(&t);
                let made = match full_slice {
                    Some(_) => reference::make_fresh(&mut theirs, m),
                    None => reference::make_fresh_default(&mut theirs, m),
                };
                t = from_reference(&theirs);
                Made {
                    answer: made.answer,
                    full_slice: made.full_slice,
                }
            }
        };
        if made.answer == 0 {
            self.t = t;
        }
        made
    }

    fn check(&self) -> u8 {
        match self.side {
            Side::Ours => self.t.check(),
            Side::Theirs(m) => reference::check(&for_reference(&self.t), m),
        }
    }

    fn event(&mut self, e: Event) -> Outcome {
        match self.side {
            Side::Ours => self.t.event(e),
            Side::Theirs(m) => {
                let mut theirs = for_reference(&self.t);
                let outcome = reference::event(&mut theirs, for_reference_event(e), m);
                self.t = from_reference(&theirs);
                Outcome {
                    answer: outcome.answer,
                    moves: outcome.moves,
                }
            }
        }
    }

    fn find(&self, level: u32, mask: u64) -> Found {
        match self.side {
            Side::Ours => self.t.find(level, mask),
            Side::Theirs(m) => {
                let found = reference::find(&for_reference(&self.t), level, mask, m);
                Found {
                    answer: found.answer,
                    level: found.level,
                    mask: found.mask,
                    masks_read: found.masks_read,
                }
            }
        }
    }

    /// What is not as the paper says, if anything.
    fn step(&mut self, step: &Step) -> Result<(), String> {
        match *step {
            Make(n, full_slice, answer, back) => {
                let made = self.make(n, full_slice);
                same("answer of the maker", made.answer, answer)?;
                same("full slice handed back", made.full_slice, back)
            }
            With(full_slice) => {
                self.t.full_slice = full_slice;
                Ok(())
            }
            Plug(online) => {
                self.t.online = online;
                Ok(())
            }
            Check(answer) => same("answer of the check", self.check(), answer),
            Do(e, answer) => {
                let outcome = self.event(e);
                self.moves = outcome.moves;
                same("answer of the event", outcome.answer, answer)
            }
            Find(level, mask, answer) => {
                let found = self.find(level, mask);
                same("answer of the finder", found.answer, answer.answer)?;
                same("level found", found.level, answer.level)?;
                same("CPUs found", found.mask, answer.mask)?;
                same("masks read", found.masks_read, answer.masks_read)
            }
            Rows(rows) => {
                let here: Vec<&[u16]> = (0..self.t.n).map(|c| self.t.row(c)).collect();
                same("rows", here, rows.to_vec())
            }
            Levels(levels) => same("levels", &self.t.levels[..levels.len()], levels),
            Cpus(cpus) => same("CPUs of tasks", &self.t.cpu[..cpus.len()], cpus),
            Flags(flags) => same("flags", &self.t.flags[..], flags),
            Online(online) => same("online mask", self.t.online, online),
            Log(log) => {
                same("number of moves", self.moves as usize, log.len())?;
                let log = log.concat();
                same("log", &self.t.log[..log.len()], &log)
            }
            Slice(task, slice) => same("slice", self.t.slice[task], slice),
            Left(task, slice) => {
                self.t.slice[task] = slice;
                Ok(())
            }
        }
    }
}

fn same<T: PartialEq + std::fmt::Debug>(what: &str, here: T, paper: T) -> Result<(), String> {
    match here == paper {
        true => Ok(()),
        false => Err(format!("{what}: {here:?}, by the paper {paper:?}")),
    }
}

/// K1 to K12, each with its name.
fn marked() -> [(&'static str, Vec<Step>); 12] {
    [
        ("K1", k1()),
        ("K2", k2()),
        ("K3", k3()),
        ("K4", k4()),
        ("K5", k5()),
        ("K6", k6()),
        ("K7", k7()),
        ("K8", k8()),
        ("K9", k9()),
        ("K10", k10()),
        ("K11", k11()),
        ("K12", k12()),
    ]
}

/// The examples that a side gets wrong, by name, and how.
pub fn wrong(side: Side) -> Vec<String> {
    let mut wrong = Vec::new();
    let cases = marked().into_iter().chain(lowered::cases());
    let cases = cases.chain(finder::cases()).chain(slices::cases());
    let cases = cases.chain(hotplug::cases());
    for (name, steps) in cases {
        let mut run = Run {
            side,
            t: Tables::zeroed(1),
            moves: 0,
        };
        if let Some(says) = steps.iter().find_map(|step| run.step(step).err()) {
            wrong.push(format!("{name} {says}"));
        }
    }
    wrong.extend(nights::wrong(side));
    wrong
}
