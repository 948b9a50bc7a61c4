//! One call of a public entry, and its answer.

use crate::{finder, hotplug};
use binding::Event;
use std::cmp::Ordering;
use std::fmt;

#[derive(Clone, Copy, Debug, PartialEq, Eq)]
pub enum Call {
    MakeFresh,
    MakeFreshDefault,
    Check,
    Event(Event),
    Find(u32, u64),
}

/// All numbers that an entry answers; those that it does not are 0.
#[derive(Clone, Copy, Debug, PartialEq, Eq)]
pub struct Answer {
    pub number: u8,
    /// What a maker hands back.
    pub full_slice: u32,
    pub moves: u32,
    /// The finder's.
    pub level: u8,
    pub mask: u64,
    pub masks_read: u32,
}

/// Whether an event was also run without its check of the tables, which they pass.
#[derive(Clone, Copy, Debug, PartialEq, Eq)]
pub enum Inner {
    No,
    /// On a machine that is not settled.
    Unsettled,
    /// On a settled machine, both told so and not.
    Settled,
}

/// What a call gave: the same on both sides.
#[derive(Clone, Copy, Debug, PartialEq, Eq)]
pub struct Agreed {
    pub answer: Answer,
    pub inner: Inner,
    /// The full slice that the tables had.
    pub full_slice: u32,
    /// Refused with 1, and nothing but the full slice was out of range.
    pub slice_alone: bool,
    /// A new priority for a runnable task that has others of this priority in its row: how it compares with the old one.
    pub among_equals: Option<Ordering>,
    /// A tick that gave a task a full slice.
    pub refilled: bool,
    /// Which of `hotplug::WAYS` it was, and which of `finder::WAYS`.
    pub hotplug: [bool; hotplug::WAYS.len()],
    pub finder: [bool; finder::WAYS.len()],
}

impl Answer {
    pub fn plain(number: u8) -> Answer {
        Answer {
            number,
            full_slice: 0,
            moves: 0,
            level: 0,
            mask: 0,
            masks_read: 0,
        }
    }
}

impl fmt::Display for Call {
    fn fmt(&self, f: &mut fmt::Formatter) -> fmt::Result {
        match self {
            Call::MakeFresh => write!(f, "make_fresh"),
            Call::MakeFreshDefault => write!(f, "make_fresh_default"),
            Call::Check => write!(f, "check"),
            Call::Event(e) => {
                let (kind, who, a, b) = (e.kind, e.who, e.a, e.b);
                write!(
                    f,
                    "event kind={kind} who={who} a={a} b={b} mask={:#x}",
                    e.mask
                )
            }
            Call::Find(level, mask) => write!(f, "find level={level} mask={mask:#x}"),
        }
    }
}
