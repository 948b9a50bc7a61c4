//! Request L8, "Take a core out": cases worked out by hand. "Kind 10 takes CPU who offline, kind 11 brings it back; the machine
//! gains an online mask, carried like the record, all N when fresh."

use super::Step::{
    self, Check, Cpus, Do, Flags, Left, Levels, Log, Make, Online, Plug, Rows, Slice,
};
use super::{add, add_rr, fresh, sleep, wake, FIFO};
use binding::{Event, INVALID};

fn offline(cpu: u32) -> Step {
    on(10, cpu, 0)
}

fn online(cpu: u32) -> Step {
    on(11, cpu, 0)
}

/// An event on a CPU, or one that needs its task alone, and the answer.
fn on(kind: u32, who: u32, answer: u8) -> Step {
    Do(Event::new(kind, who, 0, 0, 0), answer)
}

fn mask(who: u32, mask: u64, answer: u8) -> Step {
    Do(Event::new(6, who, 0, 0, mask), answer)
}

fn ordinary(cpu: u32, flag: u32) -> Step {
    Do(Event::new(9, cpu, 0, flag, 0), 0)
}

/// "its tasks leave front to back, each entering the lowest-numbered allowed online CPU"; "An offline CPU has an empty row and
/// level INVALID." Back, the highest that waits goes to it.
fn leaves_and_back() -> Vec<Step> {
    vec![
        fresh(2),
        Online(3),
        add_rr(0, 50, 3),
        add(1, 40, 3),
        add(2, 30, 3),
        wake(0),
        wake(1),
        wake(2),
        Left(0, 7),
        Rows(&[&[0, 2], &[1]]),
        offline(0),
        Log(&[]),
        Rows(&[&[], &[0, 1, 2]]),
        Levels(&[INVALID, 52]),
        Cpus(&[1, 1, 1]),
        Slice(0, 7),
        Online(2),
        Check(0),
        online(0),
        Log(&[[1, 1, 0, 0]]),
        Rows(&[&[1], &[0, 2]]),
        Levels(&[42, 52]),
        Online(3),
    ]
}

/// Front to back, each behind its equals.
fn equals() -> Vec<Step> {
    vec![
        fresh(2),
        add(0, 40, 3),
        add(1, 40, 3),
        add(2, 40, 2),
        wake(2),
        wake(0),
        wake(1),
        Rows(&[&[0, 1], &[2]]),
        offline(0),
        Rows(&[&[], &[2, 0, 1]]),
    ]
}

/// Three masks, each with another lowest-numbered CPU beside the one that goes; the CPUs there run higher tasks.
fn masks() -> Vec<Step> {
    vec![
        fresh(4),
        add(10, 90, 1),
        add(11, 90, 4),
        add(12, 90, 8),
        wake(10),
        wake(11),
        wake(12),
        add(0, 60, 10),
        add(1, 50, 6),
        add(2, 40, 2),
        wake(0),
        wake(1),
        wake(2),
        mask(2, 11, 0),
        Rows(&[&[10], &[0, 1, 2], &[11], &[12]]),
        offline(1),
        Log(&[]),
        Rows(&[&[10, 2], &[], &[11, 1], &[12, 0]]),
        Levels(&[92, INVALID, 92, 92]),
        Cpus(&[3, 2, 0]),
    ]
}

/// "then migrations follow": who left displaces task 1, and that goes on to the idle CPU.
fn moves() -> Vec<Step> {
    vec![
        fresh(3),
        add(0, 50, 3),
        add(1, 40, 6),
        wake(0),
        wake(1),
        offline(0),
        Log(&[[1, 1, 2, 0]]),
        Rows(&[&[], &[0], &[1]]),
    ]
}

/// "10, a runnable task [...] would have no allowed online CPU": also one that waits, and no sleeper. Sleepers stay.
fn pinned() -> Vec<Step> {
    vec![
        fresh(2),
        add(0, 50, 3),
        add(1, 40, 1),
        add(2, 30, 3),
        wake(0),
        wake(1),
        on(10, 0, 10),
        Online(3),
        Rows(&[&[0, 1], &[]]),
        sleep(1),
        offline(0),
        Rows(&[&[], &[0]]),
        Cpus(&[1, 0, 0]),
        Check(0),
    ]
}

/// "11, [...] kind 10 or 11 where it is already so; 12, kind 10 for the last online CPU", and 10 before 12.
fn last() -> Vec<Step> {
    vec![
        fresh(2),
        on(11, 0, 11),
        offline(1),
        on(10, 1, 11),
        on(10, 0, 12),
        Online(1),
        add(0, 50, 3),
        wake(0),
        on(10, 0, 10),
        on(10, 1, 11),
        Online(1),
        online(1),
        on(11, 1, 11),
        fresh(1),
        on(10, 0, 12),
        on(11, 0, 11),
        Online(1),
    ]
}

/// "11, tick or yield on an offline CPU"; "Where 9 and 11 both fit, 11 is given."
fn tick_and_yield() -> Vec<Step> {
    vec![
        fresh(2),
        on(8, 1, 9),
        on(7, 1, 0),
        offline(1),
        on(8, 1, 11),
        on(7, 1, 11),
        on(8, 0, 9),
        on(7, 0, 0),
    ]
}

/// "Refusal 3 is for kinds not 1 to 11, refusal 4's CPU check covers 10 and 11"
fn numbers() -> Vec<Step> {
    vec![
        fresh(2),
        on(12, 0, 3),
        on(10, 2, 4),
        on(11, 2, 4),
        on(10, 256, 4),
        on(11, u32::MAX, 4),
        fresh(64),
        Online(u64::MAX),
        offline(63),
        Online(u64::MAX >> 1),
        online(63),
        on(10, 64, 4),
        Make(64, None, 0, 25),
        Online(u64::MAX),
    ]
}

/// A wake goes to its CPU if that is allowed and online, else to the lowest-numbered such; "10, [...] the task woken"
fn wakes() -> Vec<Step> {
    vec![
        fresh(3),
        add(0, 50, 6),
        add(1, 40, 2),
        add(2, 30, 3),
        offline(1),
        wake(0),
        Log(&[]),
        Cpus(&[2]),
        on(3, 1, 10),
        wake(2),
        Rows(&[&[2], &[], &[0]]),
        sleep(0),
        online(1),
        wake(0),
        wake(1),
        Rows(&[&[2], &[1], &[0]]),
    ]
}

/// "10, [...] the runnable task whose mask changes", after 8; a sleeper's may be one of offline CPUs only.
fn new_masks() -> Vec<Step> {
    vec![
        fresh(3),
        add(0, 50, 1),
        add(1, 40, 1),
        wake(0),
        offline(1),
        mask(0, 2, 10),
        mask(0, 8, 8),
        mask(0, 0, 8),
        mask(1, 2, 0),
        Cpus(&[0, 0]),
        on(3, 1, 10),
        mask(0, 6, 0),
        Log(&[]),
        Rows(&[&[], &[], &[0]]),
        mask(0, 7, 0),
        Rows(&[&[], &[], &[0]]),
    ]
}

/// "add keeps document 01's wording": the lowest-numbered CPU of the mask, online or not.
fn adds() -> Vec<Step> {
    vec![
        fresh(2),
        offline(0),
        add(0, 50, 3),
        add(1, 40, 1),
        Cpus(&[0, 0]),
        Check(0),
        wake(0),
        Cpus(&[1, 0]),
        Do(Event::new(1, 2, FIFO, 50, 4), 8),
    ]
}

/// No task goes to an offline CPU, which has a lower level than all.
fn destinations() -> Vec<Step> {
    vec![
        fresh(3),
        offline(1),
        add(0, 50, 7),
        add(1, 40, 7),
        add(2, 30, 3),
        wake(0),
        wake(1),
        Log(&[[1, 0, 2, 0]]),
        wake(2),
        Log(&[]),
        Rows(&[&[0, 2], &[], &[1]]),
    ]
}

/// "Ordinary work on an offline CPU sets only the flag." Back, its level is its flag.
fn ordinary_work() -> Vec<Step> {
    vec![
        fresh(2),
        offline(1),
        ordinary(1, 1),
        Flags(&[0, 1]),
        Levels(&[0, INVALID]),
        online(1),
        Flags(&[0, 1]),
        Levels(&[0, 1]),
        offline(1),
        Flags(&[0, 1]),
        Levels(&[0, INVALID]),
        ordinary(1, 0),
        Flags(&[0, 0]),
        Levels(&[0, INVALID]),
        online(1),
        Levels(&[0, 0]),
        offline(1),
        ordinary(1, 1),
        add(0, 50, 3),
        add(1, 40, 3),
        wake(0),
        wake(1),
        online(1),
        Log(&[[1, 0, 1, 1]]),
        Flags(&[0, 1]),
        Levels(&[52, 42]),
    ]
}

/// "Refusal 2 also covers an online mask of 0 or with bits at N or above; a record may now hold INVALID below N, for offline
/// CPUs only"
fn checks() -> Vec<Step> {
    let mut steps = vec![fresh(2), add(0, 50, 1)];
    for wrong in [0, 1, 2, 4, 7, 1 << 63 | 3, u64::MAX] {
        steps.extend([Plug(wrong), Check(2), on(3, 0, 2), on(11, 1, 2)]);
    }
    steps.extend([Plug(3), Check(0), offline(1), Check(0)]);
    steps.extend([Plug(3), Check(2), Plug(2), Check(2), Plug(0), Check(2)]);
    steps.extend([Plug(1), Check(0), wake(0), Rows(&[&[0], &[]])]);
    steps
}

/// 16 CPUs, of which the first four have tasks, each lower than the one before, go one after the other; the last stays, with all
/// tasks. Back, each of the first gets the highest that waits.
fn one_after_the_other() -> Vec<Step> {
    let mut steps = vec![fresh(16)];
    for task in 0..4 {
        steps.extend([add(task, 50 - task, 0xffff), wake(task)]);
    }
    steps.extend([Cpus(&[0, 1, 2, 3]), offline(0), Online(0xfffe)]);
    steps.extend([Log(&[[1, 1, 4, 0]]), Cpus(&[1, 4, 2, 3])]);
    steps.extend((1..15).map(offline));
    steps.extend([Log(&[]), Cpus(&[15; 4]), Levels(&[INVALID; 15])]);
    steps.extend([on(10, 15, 10), Online(1 << 15), Check(0)]);
    steps.extend([online(0), Log(&[[1, 15, 0, 0]])]);
    steps.extend([online(1), Log(&[[2, 15, 1, 0]])]);
    steps.extend((2..15).map(online));
    steps.extend([Online(0xffff), Cpus(&[15, 0, 1, 2]), Check(0)]);
    steps
}

/// The cases, each with a name of one word.
pub(super) fn cases() -> [(&'static str, Vec<Step>); 15] {
    [
        ("offline-and-back", leaves_and_back()),
        ("offline-equals", equals()),
        ("offline-masks", masks()),
        ("offline-moves", moves()),
        ("offline-pinned", pinned()),
        ("offline-last", last()),
        ("offline-tick-yield", tick_and_yield()),
        ("offline-numbers", numbers()),
        ("offline-wakes", wakes()),
        ("offline-new-masks", new_masks()),
        ("offline-adds", adds()),
        ("offline-destinations", destinations()),
        ("offline-ordinary", ordinary_work()),
        ("offline-checks", checks()),
        ("offline-15", one_after_the_other()),
    ]
}
