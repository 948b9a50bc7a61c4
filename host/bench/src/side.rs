//! A compared version, and what it is timed at.

use binding::{Event, Tables};

/// What is timed.
#[derive(Clone)]
pub enum Work {
    /// So many checks of the same tables.
    Check(usize),
    /// Events, each with its check of the tables.
    Events(Vec<Event>),
    /// Events without that check.
    Inner(Vec<Event>),
    /// The same, each after a check by itself.
    Apart(Vec<Event>),
    /// One question to the finder, so many times.
    Find { times: usize, level: u32, mask: u64 },
}

/// How many events are timed at once: few enough that some rounds are left in peace.
const PART: usize = 64;

/// What can be timed.
pub trait Timed: Sized {
    /// Parts that are timed one by one.
    fn parts(&self) -> Vec<Self>;
    /// How many calls the time is for.
    fn calls(&self) -> usize;
}

impl Timed for Work {
    fn parts(&self) -> Vec<Work> {
        match self {
            Work::Events(events) => events
                .chunks(PART)
                .map(|c| Work::Events(c.into()))
                .collect(),
            Work::Inner(events) => events.chunks(PART).map(|c| Work::Inner(c.into())).collect(),
            Work::Apart(events) => events.chunks(PART).map(|c| Work::Apart(c.into())).collect(),
            other => vec![other.clone()],
        }
    }

    fn calls(&self) -> usize {
        match self {
            Work::Check(times) | Work::Find { times, .. } => *times,
            Work::Events(events) | Work::Inner(events) | Work::Apart(events) => events.len(),
        }
    }
}

pub trait Side<W = Work> {
    /// Goes back to the tables that it started with. Not timed.
    fn restart(&mut self);
    /// Does the work. The number is made of all answers, so that none can be left out.
    fn run(&mut self, work: &W) -> u64;
    /// The tables as the work left them.
    fn tables(&self) -> Tables;
}

pub fn sum(answers: impl Iterator<Item = u64>) -> u64 {
    answers.fold(0, u64::wrapping_add)
}

/// An event's answer and moves in one number.
pub fn outcome(answer: u8, moves: u32) -> u64 {
    u64::from(answer) << 32 | u64::from(moves)
}

/// A finder's answer, level and mask in one number. How many masks it read is no part of it: the kernel's does not say.
pub fn found(answer: u8, level: u8, mask: u64) -> u64 {
    mask.wrapping_add(u64::from(answer) << 8 | u64::from(level))
}
