//! The public entries.

use crate::effect::own_effect;
use crate::machine::Machine;
use crate::migrate::{self, settle, Step};
use crate::mutant::Mutant;
use crate::record::Record;
use crate::refuse::{refusal, wrong_size};
use crate::tables::{
    allows, mask_right, Event, Tables, DEFAULT_SLICE, ENTRIES, ENTRY, INVALID, NOTHING,
};
use crate::wellformed::well_formed;

/// "Accepted is 0 with the number of moves [...] A refusal reports 0 moves"
#[derive(Clone, Copy, Debug, PartialEq, Eq)]
pub struct Outcome {
    pub answer: u8,
    pub moves: u32,
}

/// "None is answer 0 with level 255 and mask 0; a refusing finder gives its number with the same 255 and 0." "Give also how
/// many masks the search read".
#[derive(Clone, Copy, Debug, PartialEq, Eq)]
pub struct Found {
    pub answer: u8,
    pub level: u8,
    pub mask: u64,
    pub masks_read: u32,
}

/// The full slice is "given to the maker, handed back by it (25 by a second maker told none, 0 on a refusal)".
#[derive(Clone, Copy, Debug, PartialEq, Eq)]
pub struct Made {
    pub answer: u8,
    pub full_slice: u32,
}

/// "Making a fresh machine refuses only with 1 [...] Old table contents don't matter to the fresh maker."
pub fn make_fresh(t: &mut Tables, m: Mutant) -> Made {
    let given = t.full_slice;
    let refused = |answer| Made {
        answer,
        full_slice: match m {
            Mutant::RefusalHandsBackSlice => given,
            _ => 0,
        },
    };
    if wrong_size(t, m) {
        return refused(1);
    }
    let Some(full_slice) = t.full_slice(m) else {
        return refused(2); // With an error alone.
    };
    let online = t.online;
    Machine::fresh(t.n, full_slice).write(t, m);
    if m != Mutant::FreshKeepsLog {
        t.log.fill(NOTHING);
    }
    match m {
        Mutant::FreshMissingIdle => t.levels.fill(0),
        Mutant::FreshOneOnline => t.online = 1,
        Mutant::FreshKeepsOnline => t.online = online,
        Mutant::FreshAllBitsOnline => t.online = u64::MAX,
        _ => (),
    }
    Made {
        answer: 0,
        full_slice: full_slice.into(),
    }
}

/// The second maker, told no full slice: 25 is the machine's then. On a refusal the machine's stays.
pub fn make_fresh_default(t: &mut Tables, m: Mutant) -> Made {
    let before = t.full_slice;
    t.full_slice = match m {
        Mutant::DefaultHundred => 100,
        _ => DEFAULT_SLICE,
    };
    let made = make_fresh(t, m);
    if made.answer != 0 {
        t.full_slice = before;
    }
    made
}

/// "the public checker answers 0, 1 or 2 and changes nothing"
pub fn check(t: &Tables, m: Mutant) -> u8 {
    if wrong_size(t, m) {
        return 1;
    }
    match well_formed(t, m) {
        true => 0,
        false => 2,
    }
}

/// "A refusal reports 0 moves and changes nothing."
pub fn event(t: &mut Tables, e: Event, m: Mutant) -> Outcome {
    let answer = refusal(t, e, m);
    if answer != 0 {
        match m {
            Mutant::RefusalWritesLog => t.log.fill(NOTHING),
            Mutant::RefusalTakesOut if e.kind == 10 && answer >= 10 => t.online &= !(1 << e.who),
            _ => (),
        }
        return Outcome { answer, moves: 0 };
    }
    let mut machine = Machine::read(t, m);
    let mut steps = own_effect(&mut machine, e, m);
    if !stops(t, &machine, e, m) {
        steps.extend(settle(&mut machine, m));
    }
    steps.truncate(ENTRIES); // With an error alone.
    let before = Record::lent(t);
    machine.write(t, m);
    write_log(t, &steps, m);
    spoil_record(t, before, e, m);
    let moves = steps.len() as u32;
    Outcome { answer, moves }
}

/// The errors of taking no step at all after some events; `t` is as before the event. The paper's answer is no.
fn stops(t: &Tables, machine: &Machine, e: Event, m: Mutant) -> bool {
    match m {
        Mutant::NoStepAfterNothing => machine.tasks == Machine::read(t, m).tasks,
        Mutant::NoStepAfterLowered => e.kind == 5 && e.b < u32::from(t.prio[e.who as usize]),
        Mutant::NoStepAfterOffline => e.kind == 10,
        Mutant::NoStepAfterOnline => e.kind == 11,
        _ => false,
    }
}

/// "A machine need not be settled (no task movable) to be well-formed": whether it is. Of well-formed tables.
pub fn settled(t: &Tables) -> bool {
    migrate::settled(&Machine::read(t, Mutant::None))
}

/// "Step i, from 0, is entry i of the log"; "log entries from that number on stay as they were"
fn write_log(t: &mut Tables, steps: &[Step], m: Mutant) {
    if m == Mutant::LogWiped {
        t.log.fill(NOTHING);
    }
    for (i, step) in steps.iter().enumerate() {
        let start = match m {
            Mutant::LogWidthThree => 3 * i,
            _ => ENTRY * i,
        };
        let numbers = entry(step, m);
        let written = match m {
            Mutant::LogLevelUnwritten => &numbers[..3],
            _ => &numbers[..],
        };
        t.log[start..start + written.len()].copy_from_slice(written);
    }
}

/// "its mover, the CPU it waited on, its destination"; "Each log entry shall also give the level of the destination
/// before the move."
fn entry(step: &Step, m: Mutant) -> [u16; ENTRY] {
    let (from, to) = match m {
        Mutant::LogSwapped => (step.to, step.from),
        _ => (step.from, step.to),
    };
    [step.task, from as u16, to as u16, u16::from(step.level)]
}

/// The errors of a record that is not kept up to date. The paper's behaviour is to do nothing here.
fn spoil_record(t: &mut Tables, before: Record, e: Event, m: Mutant) {
    let cpu = e.who as usize;
    match (m, e.kind) {
        (Mutant::SleepKeepsLevel, 4) => before.hand_back(t),
        (Mutant::OldMaskStays, _) => {
            for c in (0..t.n).filter(|&c| before.levels[c] != INVALID) {
                t.level_masks[before.levels[c] as usize] |= 1 << c;
            }
        }
        (Mutant::OrdinaryRaisesOffline, 9) if !allows(t.online, cpu) => {
            set_level(t, cpu, e.b as u8)
        }
        (Mutant::OfflineKeepsLevel, 10) => set_level(t, cpu, before.levels[cpu]),
        (Mutant::BackIdle, 11) if t.levels[cpu] == 1 => set_level(t, cpu, 0),
        _ => (),
    }
}

/// The record of the same levels but for one CPU.
fn set_level(t: &mut Tables, cpu: usize, level: u8) {
    let mut levels = t.levels[..t.n].to_vec();
    levels[cpu] = level;
    Record::of(&levels).hand_back(t);
}

/// "asked with N, a record, a level 0 to 101 and a mask"
pub fn find(t: &Tables, level: u32, mask: u64, m: Mutant) -> Found {
    let record = Record::lent(t);
    let answer = find_refusal(t, &record, level, mask, m);
    let found = match answer {
        0 => record.lowest_below(level, mask, m),
        _ => None,
    };
    let answered = found.map(|(level, _)| level);
    let masks_read = match answer {
        0 => record.masks_read(level, mask, answered, m),
        _ if m == Mutant::FinderRefusalCounts => record.masks_read(level.min(101), mask, None, m),
        _ => 0,
    };
    let none = match m {
        Mutant::FinderNoneIsZero => 0,
        _ => INVALID,
    };
    let (level, mask) = found.unwrap_or((none, 0));
    Found {
        answer,
        level,
        mask,
        masks_read,
    }
}

/// The finder's refusal numbers, in their order, or 0.
fn find_refusal(t: &Tables, record: &Record, level: u32, mask: u64, m: Mutant) -> u8 {
    let wrong_slice = m == Mutant::FinderChecksSlice && t.full_slice(m).is_none();
    if wrong_slice || !(t.cpus_right() && t.record_sizes_right()) {
        return 1;
    }
    let offline = m == Mutant::FinderRefusesInvalid && record.has_offline(t.n);
    if offline || !record.consistent(t.n, m) {
        return 2;
    }
    if level > 101 {
        return 7;
    }
    match mask_right(mask, t.n) {
        true => 0,
        false => 8,
    }
}
