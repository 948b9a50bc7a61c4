//! Request L3, "Lowered priority goes in front": cases beside K11, worked out by hand. "raised, it goes behind its equals;
//! unchanged, it stays; lowered, it goes before its equals"

use super::Step::{self, Cpus, Levels, Log, Rows};
use super::{add, fresh, prio, then, wake};

/// One CPU, and tasks of these priorities, woken from the highest on: they stand in number order.
fn one_row(prios: &[u32], more: Vec<Step>) -> Vec<Step> {
    let mut steps = vec![fresh(1)];
    for (who, &prio) in (0..).zip(prios) {
        steps.extend([add(who, prio, 1), wake(who)]);
    }
    then(steps, more)
}

fn to_its_followers() -> Vec<Step> {
    let lowered = vec![prio(0, 30), Log(&[]), Rows(&[&[0, 1, 2]]), Levels(&[32])];
    one_row(&[50, 30, 30], lowered)
}

fn below_a_follower() -> Vec<Step> {
    let lowered = vec![prio(0, 30), Log(&[]), Rows(&[&[1, 0, 2]]), Levels(&[42])];
    one_row(&[50, 40, 30], lowered)
}

fn while_it_waits() -> Vec<Step> {
    let lowered = vec![prio(1, 30), Log(&[]), Rows(&[&[0, 2, 1, 3, 4]])];
    one_row(&[60, 50, 40, 30, 30], lowered)
}

fn raised() -> Vec<Step> {
    let raised = vec![prio(3, 50), Log(&[]), Rows(&[&[0, 1, 3, 2]])];
    one_row(&[50, 50, 30, 20], raised)
}

fn unchanged() -> Vec<Step> {
    let unchanged = |who| vec![prio(who, 30), Log(&[]), Rows(&[&[0, 1, 2]])];
    let each = (0..3).flat_map(unchanged).collect();
    one_row(&[30, 30, 30], each)
}

/// CPU 1 falls from level 62 to 32, and task 1 waits on CPU 0 at level 42.
fn another_moves() -> Vec<Step> {
    vec![
        fresh(2),
        add(0, 50, 1),
        add(1, 40, 3),
        add(2, 60, 2),
        wake(0),
        wake(2),
        wake(1),
        Rows(&[&[0, 1], &[2]]),
        prio(2, 30),
        Log(&[[1, 0, 1, 32]]),
        Rows(&[&[0], &[1, 2]]),
        Levels(&[52, 42]),
        Cpus(&[0, 1, 1]),
    ]
}

/// Lowered to its equal it runs on; lowered below it waits, and goes to the idle CPU.
fn moves_itself() -> Vec<Step> {
    vec![
        fresh(2),
        add(0, 50, 3),
        add(1, 30, 1),
        wake(0),
        wake(1),
        prio(0, 30),
        Log(&[]),
        Rows(&[&[0, 1], &[]]),
        prio(0, 20),
        Log(&[[0, 0, 1, 0]]),
        Rows(&[&[1], &[0]]),
    ]
}

/// "asleep: the number only"
fn sleeper() -> Vec<Step> {
    vec![
        fresh(1),
        add(0, 30, 1),
        add(1, 50, 1),
        add(2, 20, 1),
        wake(0),
        wake(2),
        prio(1, 30),
        Log(&[]),
        Rows(&[&[0, 2]]),
        wake(1),
        Rows(&[&[0, 1, 2]]),
    ]
}

/// The cases, each with a name of one word.
pub(super) fn cases() -> [(&'static str, Vec<Step>); 8] {
    [
        ("lowered-runs-on", to_its_followers()),
        ("lowered-waits", below_a_follower()),
        ("lowered-waited", while_it_waits()),
        ("raised", raised()),
        ("unchanged", unchanged()),
        ("lowered-draws", another_moves()),
        ("lowered-moves", moves_itself()),
        ("lowered-sleeper", sleeper()),
    ]
}
