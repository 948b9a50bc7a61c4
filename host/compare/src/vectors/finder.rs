//! Request L4, "The finder is slow": cases worked out by hand. "Give also how many masks the search read: one for each level
//! with a CPU below the asked one, up to the answered one (all of them on none, 0 on a refusal). Answers and refusals otherwise
//! stay."

use super::Step::{self, Do, Find, Levels, With};
use super::{add, fresh, wake};
use binding::{Event, Found, INVALID};

/// Asked with a level and a mask: the level found, its CPUs, and the masks read.
fn found(asked: u32, mask: u64, level: u8, cpus: u64, masks_read: u32) -> Step {
    let answer = Found {
        answer: 0,
        level,
        mask: cpus,
        masks_read,
    };
    Find(asked, mask, answer)
}

/// "None is answer 0 with level 255 and mask 0"
fn none(asked: u32, mask: u64, masks_read: u32) -> Step {
    found(asked, mask, INVALID, 0, masks_read)
}

/// "a refusing finder gives its number with the same 255 and 0", and 0 masks read.
fn refused(asked: u32, mask: u64, answer: u8) -> Step {
    let (level, masks_read) = (INVALID, 0);
    let answer = Found {
        answer,
        level,
        mask: 0,
        masks_read,
    };
    Find(asked, mask, answer)
}

/// A machine whose CPUs are at these levels, none of them 2: idle, with ordinary work, offline, or with a task of their number.
fn at(levels: &'static [u8]) -> Vec<Step> {
    let mut steps = vec![fresh(levels.len())];
    for (cpu, &level) in (0..).zip(levels) {
        match level {
            0 => (),
            1 => steps.push(Do(Event::new(9, cpu, 0, 1, 0), 0)),
            INVALID => steps.push(Do(Event::new(10, cpu, 0, 0, 0), 0)),
            _ => steps.extend([add(cpu, u32::from(level) - 2, 1 << cpu), wake(cpu)]),
        }
    }
    steps.push(Levels(levels));
    steps
}

fn asked(levels: &'static [u8], questions: Vec<Step>) -> Vec<Step> {
    super::then(at(levels), questions)
}

/// "up to the answered one": that level is read too, and none above it.
fn up_to() -> Vec<Step> {
    let questions = vec![
        found(8, 7, 0, 1, 1),
        found(8, 6, 5, 2, 2),
        found(8, 4, 7, 4, 3),
        found(101, 6, 5, 2, 2),
        found(6, 6, 5, 2, 2),
        found(1, 7, 0, 1, 1),
    ];
    asked(&[0, 5, 7], questions)
}

/// "all of them on none": those below the asked level, and not that one, whether it has a CPU or not.
fn all_on_none() -> Vec<Step> {
    let questions = vec![
        none(101, 8, 3),
        none(8, 8, 3),
        none(7, 12, 2),
        none(6, 12, 2),
        none(5, 14, 1),
        none(1, 14, 1),
        none(0, 15, 0),
    ];
    asked(&[0, 5, 7, 101], questions)
}

/// "one for each level with a CPU": one for several CPUs too, and none for an offline one.
fn each_level_once() -> Vec<Step> {
    let questions = vec![
        found(101, 63, 0, 37, 1),
        found(101, 4, 0, 4, 1),
        found(101, 26, 1, 18, 2),
        found(101, 72, 52, 8, 3),
        none(101, 64, 3),
        none(52, 8, 2),
    ];
    asked(&[0, 1, 0, 52, 1, 0, INVALID], questions)
}

/// "the two words of level bits": 63 is the last bit of the first, 64 the first of the second.
fn both_words() -> Vec<Step> {
    let questions = vec![
        found(101, 31, 1, 1, 1),
        found(101, 30, 63, 2, 2),
        found(101, 28, 64, 4, 3),
        found(101, 24, 65, 8, 4),
        none(101, 16, 4),
        none(65, 24, 3),
        found(65, 28, 64, 4, 3),
        none(64, 28, 2),
        found(64, 30, 63, 2, 2),
        none(63, 30, 1),
    ];
    asked(&[1, 63, 64, 65, 101], questions)
}

/// All levels in the second word: below 65 there is one, below 64 none.
fn second_word() -> Vec<Step> {
    let questions = vec![
        found(101, 7, 64, 1, 1),
        found(101, 6, 70, 4, 2),
        none(101, 2, 2),
        none(65, 6, 1),
        none(64, 7, 0),
    ];
    asked(&[64, 101, 70], questions)
}

/// "0 on a refusal": 7 goes before 8. The finder is not asked with a full slice.
fn refusals() -> Vec<Step> {
    let questions = vec![
        refused(102, 7, 7),
        refused(102, 0, 7),
        refused(256 + 8, 7, 7),
        refused(u32::MAX, 7, 7),
        refused(8, 0, 8),
        refused(8, 8, 8),
        refused(8, u64::MAX, 8),
        With(1001),
        found(8, 4, 7, 4, 3),
    ];
    asked(&[0, 5, 7], questions)
}

/// The cases, each with a name of one word.
pub(super) fn cases() -> [(&'static str, Vec<Step>); 6] {
    [
        ("find-up-to", up_to()),
        ("find-none", all_on_none()),
        ("find-once", each_level_once()),
        ("find-words", both_words()),
        ("find-second", second_word()),
        ("find-refused", refusals()),
    ]
}
