//! Events, answers and CPUs in words.

use crate::cpulist;
use binding::{Event, Tables, CPUS, LEVELS, SLICE_MAX, SLICE_MIN, TASKS};

/// `CPU 3`, `CPUs 0-1` or `no CPU`.
pub fn cpus(mask: u64) -> String {
    match mask.count_ones() {
        0 => "no CPU".to_string(),
        1 => format!("CPU {}", cpulist::write(mask)),
        _ => format!("CPUs {}", cpulist::write(mask)),
    }
}

/// What a CPU of this level does: `idle`, `ordinary work` or `priority 30`. Not of level 2, which none has.
pub fn level(level: u8) -> String {
    match level {
        0 => "idle".to_string(),
        1 => "ordinary work".to_string(),
        _ => format!("priority {}", level - 2),
    }
}

/// A policy by its kernel name, else by its number.
fn policy(number: u32) -> String {
    match number {
        1 => "fifo".to_string(),
        2 => "rr".to_string(),
        _ => format!("policy {number}"),
    }
}

/// An event in words.
pub fn event(e: Event) -> String {
    let Event {
        kind,
        who,
        a,
        b,
        mask,
    } = e;
    match kind {
        1 => format!(
            "add task {who}: {}, priority {b}, {}",
            policy(a),
            cpus(mask)
        ),
        2 => format!("remove task {who}"),
        3 => format!("wake task {who}"),
        4 => format!("sleep task {who}"),
        5 => format!("give task {who} priority {b}"),
        6 => format!("allow task {who} {}", cpus(mask)),
        7 => format!("tick on CPU {who}"),
        8 => format!("yield on CPU {who}"),
        9 => match b {
            0 => format!("no ordinary work on CPU {who}"),
            1 => format!("ordinary work on CPU {who}"),
            _ => format!("ordinary work {b} on CPU {who}"),
        },
        10 => format!("take CPU {who} offline"),
        11 => format!("bring CPU {who} online"),
        _ => format!("event {kind} {who} {a} {b} {mask:#x}"),
    }
}

/// An event with how often it came, if more than once.
pub fn events(e: Event, times: u64) -> String {
    match times {
        1 => event(e),
        _ => format!("{}, {times} times", event(e)),
    }
}

/// `a machine of 3 CPUs, slice 25`; without the slice, if it is not known.
pub fn machine(n: usize, slice: Option<u32>) -> String {
    format!("a machine of {}", size(n, slice))
}

/// `3 CPUs, slice 25`
pub fn size(n: usize, slice: Option<u32>) -> String {
    let cpus = match n {
        1 => "1 CPU".to_string(),
        _ => format!("{n} CPUs"),
    };
    match slice {
        Some(ticks) => format!("{cpus}, slice {ticks}"),
        None => cpus,
    }
}

/// `1 move`, `2 moves`.
pub fn moves(count: u64) -> String {
    match count {
        1 => "1 move".to_string(),
        _ => format!("{count} moves"),
    }
}

/// `accepted, 2 moves`.
pub fn accepted(count: usize) -> String {
    format!("accepted, {}", moves(count as u64))
}

/// `refused (5): task 3 is runnable, not asleep`. The tables are those that the event was refused on.
pub fn refused(answer: u8, e: Event, tables: &Tables) -> String {
    format!("refused ({answer}): {}", reason(answer, e, tables))
}

/// The refusal of a machine of these tables.
pub fn refused_machine(answer: u8, tables: &Tables) -> String {
    format!("refused ({answer}): {}", no_machine(tables))
}

/// The refusal of a question to the finder.
pub fn refused_question(answer: u8, level: u32, mask: u64, tables: &Tables) -> String {
    let why = match answer {
        1 => no_machine(tables),
        2 => "the record is not consistent, there is no machine".to_string(),
        7 => format!("a level is 0 to {}, not {level}", LEVELS - 1),
        8 => wrong_mask(mask, tables.n),
        _ => unknown(),
    };
    format!("refused ({answer}): {why}")
}

/// Which of the machine's two numbers is out of range, or that both are.
fn no_machine(tables: &Tables) -> String {
    let (n, ticks) = (tables.n, tables.full_slice);
    let mut wrong = Vec::new();
    if !(1..=CPUS).contains(&n) {
        wrong.push(format!("a machine has 1 to {CPUS} CPUs, not {n}"));
    }
    if !(SLICE_MIN..=SLICE_MAX).contains(&ticks) {
        wrong.push(format!(
            "a slice has {SLICE_MIN} to {SLICE_MAX} ticks, not {ticks}"
        ));
    }
    wrong.join(", and ")
}

fn reason(answer: u8, e: Event, tables: &Tables) -> String {
    match answer {
        1 => no_machine(tables),
        2 => "the tables are not well-formed".to_string(),
        3 => format!("there is no event of kind {}", e.kind),
        4 if e.kind <= 6 => format!("tasks are 0 to {}, not {}", TASKS - 1, e.who),
        4 => format!("{}, not {}", cpus_there(tables.n), e.who),
        5 => wrong_state(e, tables),
        6 => format!("{} is neither fifo (1) nor rr (2)", policy(e.a)),
        7 if e.kind == 9 => format!("ordinary work is 0 or 1, not {}", e.b),
        7 => format!("a priority is 1 to 99, not {}", e.b),
        8 => wrong_mask(e.mask, tables.n),
        9 => format!("CPU {} has no task that could yield", e.who),
        10 => nowhere(e, tables).unwrap_or_else(unknown),
        11 => wrong_cpu_state(e),
        12 => format!("CPU {} is the last online CPU", e.who),
        _ => unknown(),
    }
}

fn unknown() -> String {
    "for a reason unknown to this tool".to_string()
}

/// What all refusals of a number have in common, of those that an event of a recording can meet.
pub fn refusals(answer: u8) -> String {
    let common = match answer {
        4 => "no such task or CPU",
        5 => "the task is not in the state that the event needs",
        6 => "a policy other than fifo and rr",
        7 => "a priority not 1 to 99, or ordinary work not 0 or 1",
        8 => "a mask with no CPU, or with one that is not there",
        9 => "a yield on a CPU with no task",
        10 => "no allowed CPU online for a runnable or waking task",
        11 => "the CPU is offline, or already as it should become",
        12 => "the last online CPU stays online",
        _ => return unknown(),
    };
    common.to_string()
}

/// Which task would have no allowed CPU that is online. Of the tasks of a CPU that is to go, the first such one.
fn nowhere(e: Event, tables: &Tables) -> Option<String> {
    let who = e.who as usize;
    let mask = |task: usize| tables.mask[task];
    match e.kind {
        3 => {
            let offline = only(mask(who), "is", "are all");
            Some(format!("task {who} may use {offline}"))
        }
        6 => {
            let offline = only(e.mask, "is", "are all");
            Some(format!("task {who} is runnable and could use {offline}"))
        }
        10 => {
            let left = tables.online & !(1 << who);
            let mut row = tables.row(who).iter().map(|&task| task as usize);
            let task = row.find(|&task| mask(task) & left == 0)?;
            let offline = only(mask(task), "would be", "would all be");
            Some(format!("task {task} may use {offline}"))
        }
        _ => None,
    }
}

/// `CPU 0 only, which is offline`, `CPUs 0-1 only, which are all offline`: `is` of one CPU, `are` of several.
fn only(mask: u64, is: &str, are: &str) -> String {
    let verb = if mask.count_ones() == 1 { is } else { are };
    format!("{} only, which {verb} offline", cpus(mask))
}

/// Whether the CPU is offline or online, and the event needs the other.
fn wrong_cpu_state(e: Event) -> String {
    let who = e.who;
    match e.kind {
        10 => format!("CPU {who} is offline already"),
        11 => format!("CPU {who} is online already"),
        _ => format!("CPU {who} is offline"),
    }
}

fn cpus_there(n: usize) -> String {
    match n {
        1 => "the only CPU is 0".to_string(),
        _ => format!("CPUs are 0 to {}", n - 1),
    }
}

/// Which state the task is in, and which the event needs.
fn wrong_state(e: Event, tables: &Tables) -> String {
    let who = e.who;
    let is = match tables.state.get(who as usize) {
        Some(1) => "is asleep",
        Some(2) => "is runnable",
        _ => return format!("there is no task {who}, its place is free"),
    };
    match e.kind {
        1 => format!("task {who} is there already and {is}"),
        2 | 3 => format!("task {who} {is}, not asleep"),
        _ => format!("task {who} {is}, not runnable"),
    }
}

fn wrong_mask(mask: u64, n: usize) -> String {
    let there = if n < 64 { (1 << n) - 1 } else { u64::MAX };
    if mask == 0 {
        return "the mask has no CPU".to_string();
    }
    format!("{}, not {}", cpus_there(n), cpulist::write(mask & !there))
}

#[cfg(test)]
mod tests {
    use super::*;
    use crate::parse::{parse, Action};
    use crate::show;

    /// Each refusal that document 01 has, on a machine of two CPUs with task 0 runnable and task 1 asleep.
    #[test]
    fn every_refusal_says_why() {
        for (line, expected) in [
            (
                "event 12 0 0 0 0",
                "refused (3): there is no event of kind 12",
            ),
            (
                "event 0 0 0 0 0",
                "refused (3): there is no event of kind 0",
            ),
            ("wake 600", "refused (4): tasks are 0 to 511, not 600"),
            ("tick 2", "refused (4): CPUs are 0 to 1, not 2"),
            ("offline 2", "refused (4): CPUs are 0 to 1, not 2"),
            ("online 64", "refused (4): CPUs are 0 to 1, not 64"),
            (
                "add 1 fifo 5 0",
                "refused (5): task 1 is there already and is asleep",
            ),
            ("wake 0", "refused (5): task 0 is runnable, not asleep"),
            ("remove 0", "refused (5): task 0 is runnable, not asleep"),
            ("sleep 1", "refused (5): task 1 is asleep, not runnable"),
            (
                "wake 9",
                "refused (5): there is no task 9, its place is free",
            ),
            (
                "prio 9 5",
                "refused (5): there is no task 9, its place is free",
            ),
            (
                "add 2 batch 5 0",
                "refused (6): policy 3 is neither fifo (1) nor rr (2)",
            ),
            (
                "add 2 rr 100 0",
                "refused (7): a priority is 1 to 99, not 100",
            ),
            ("prio 0 0", "refused (7): a priority is 1 to 99, not 0"),
            (
                "ordinary 0 2",
                "refused (7): ordinary work is 0 or 1, not 2",
            ),
            ("affinity 0 0x0", "refused (8): the mask has no CPU"),
            ("affinity 0 1-2,4", "refused (8): CPUs are 0 to 1, not 2,4"),
            ("yield 1", "refused (9): CPU 1 has no task that could yield"),
        ] {
            let text = format!("cpus 2\nadd 0 fifo 9 0\nadd 1 rr 9 0\nwake 0\n{line}");
            assert_eq!(last_answer(&text), expected, "{line}");
        }
    }

    /// Refusals 10 to 12, on a machine of four CPUs of which CPUs 2 and 3 are offline. Tasks 0 and 1 stand on CPU 0, of which
    /// task 1 cannot go; task 2 is asleep.
    #[test]
    fn every_refusal_about_offline_cpus_says_why() {
        for (line, expected) in [
            (
                "offline 0",
                "refused (10): task 1 may use CPU 0 only, which would be offline",
            ),
            (
                "wake 2",
                "refused (10): task 2 may use CPUs 2-3 only, which are all offline",
            ),
            (
                "affinity 2 3\nwake 2",
                "refused (10): task 2 may use CPU 3 only, which is offline",
            ),
            (
                "affinity 1 2",
                "refused (10): task 1 is runnable and could use CPU 2 only, which is offline",
            ),
            (
                "affinity 1 2-3",
                "refused (10): task 1 is runnable and could use CPUs 2-3 only, which are all offline",
            ),
            (
                "affinity 1 0,2-3\noffline 0",
                "refused (10): task 1 may use CPUs 0,2-3 only, which would all be offline",
            ),
            (
                "offline 1\noffline 0",
                "refused (10): task 0 may use CPUs 0-1 only, which would all be offline",
            ),
            ("tick 2", "refused (11): CPU 2 is offline"),
            ("yield 3", "refused (11): CPU 3 is offline"),
            ("offline 3", "refused (11): CPU 3 is offline already"),
            ("online 0", "refused (11): CPU 0 is online already"),
            (
                "sleep 0\nsleep 1\noffline 0\noffline 1",
                "refused (12): CPU 1 is the last online CPU",
            ),
        ] {
            let tasks = "add 0 fifo 9 0-1\nadd 1 rr 9 0\nadd 2 fifo 9 2-3\nwake 0\nwake 1";
            let text = format!("cpus 4\n{tasks}\noffline 2\noffline 3\n{line}");
            assert_eq!(last_answer(&text), expected, "{line}");
        }
    }

    /// A refusal that does not fit the tables is not explained.
    #[test]
    fn a_reason_that_is_not_there_is_not_made_up() {
        let tables = Tables::zeroed(2);
        let offline = Event::new(10, 0, 0, 0, 0);
        let unknown = "for a reason unknown to this tool";
        assert_eq!(reason(10, offline, &tables), unknown);
        assert_eq!(reason(13, offline, &tables), unknown);
    }

    #[test]
    fn kinds_10_and_11_in_words() {
        let raw = |kind, who| event(Event::new(kind, who, 1, 2, 3));
        assert_eq!(raw(10, 3), "take CPU 3 offline");
        assert_eq!(raw(11, 64), "bring CPU 64 online");
        assert_eq!(raw(12, 3), "event 12 3 1 2 0x3");
    }

    /// Without a machine, which of its numbers was wrong.
    #[test]
    fn a_machine_that_is_not_there_says_why() {
        let cpus = "refused (1): a machine has 1 to 64 CPUs, not 65";
        let slice = |ticks| format!("a slice has 1 to 1000 ticks, not {ticks}");
        assert_eq!(last_answer("cpus 65\nwake 0"), cpus);
        assert_eq!(last_answer("cpus 65 slice 1000\nwake 0"), cpus);
        for ticks in [0, 1001, 65561] {
            let text = format!("cpus 64 slice {ticks}\nwake 0");
            assert_eq!(last_answer(&text), format!("refused (1): {}", slice(ticks)));
            let text = format!("cpus 65 slice {ticks}\nwake 0");
            assert_eq!(last_answer(&text), format!("{cpus}, and {}", slice(ticks)));
        }
    }

    fn last_answer(text: &str) -> String {
        let mut tables = Tables::zeroed(0);
        let mut last = String::new();
        for line in parse(text.as_bytes()).unwrap() {
            match line.action {
                Action::Machine { cpus, slice, .. } => (tables, _) = show::make(cpus, slice),
                Action::Event { event, .. } => {
                    let outcome = tables.event(event);
                    last = match outcome.answer {
                        0 => accepted(outcome.moves as usize),
                        answer => refused(answer, event, &tables),
                    };
                }
            }
        }
        last
    }
}
