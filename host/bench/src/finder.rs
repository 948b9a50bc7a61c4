//! The finder, with its check of the record; and its search alone.

use crate::by_hand::ByHand;
use crate::keep::Row;
use crate::kernel::Kernel;
use crate::machines::{busy, full, idle};
use crate::ours::Ours;
use crate::say::say;
use crate::second::Second;
use crate::side::{Side, Work};
use crate::table::{ns, ratio, to_plain, Table};
use crate::timing::Run;
use binding::Tables;

/// A question is asked so many times at once.
const TIMES: usize = 100;
/// The highest level that can be asked with.
const TOP: u32 = 101;

const QUESTION: [&str; 8] = [
    "N",
    "level found",
    "masks read",
    "library",
    "plain",
    "library/plain",
    "second",
    "second/library",
];
const SEARCH: [&str; 8] = [
    "levels with a CPU",
    "level found",
    "masks read",
    "library",
    "plain",
    "kernel",
    "library/plain",
    "library/kernel",
];

pub fn find(run: &mut Run) {
    questions(run);
    searches(run);
}

fn questions(run: &mut Run) {
    say("Finder, ns a question\n");
    let mut table = Table::new(&QUESTION);
    for n in [1, 4, 16, 64] {
        let questions = [
            ("0", idle(n), TOP, full(n)),
            ("100", busy(n), TOP, 1),
            ("none", busy(n), TOP - 1, 1),
        ];
        for (name, start, level, mask) in questions {
            let mut sides = two(&start);
            sides.push(Box::new(Second::new(&start)));
            let case = format!("{n} {name}");
            let Some(row) = ask(run, case, &mut sides, level, mask) else {
                continue;
            };
            let t = &row.times;
            table.row(vec![
                n.to_string(),
                name.to_string(),
                start.find(level, mask).masks_read.to_string(),
                ns(t[0]),
                ns(t[1]),
                to_plain(&row),
                ns(t[2]),
                ratio(t[2], t[0]),
            ]);
        }
    }
    table.print();
}

/// The search alone. No entry has it, so that it is taken as a question less the same question at level 0, which is checked
/// alike and has no level to search; and so for each of the three. Each of the two questions is a case of its own, so that
/// their instructions can be counted apart, which is exact. In time a short search hides behind the check.
fn searches(run: &mut Run) {
    say("Its search alone, against the kernel's: ns a question, less those of the same question at level 0\n");
    let mut table = Table::new(&SEARCH);
    for (levels, found, start, mask) in records() {
        let mut sides = two(&start);
        sides.push(Box::new(Kernel::new(&start)));
        let rows = [TOP, 0].map(|level| {
            let case = format!("search {levels} {found} below {level}");
            ask(run, case, &mut sides, level, mask)
        });
        let [Some(asked), Some(at_0)] = rows else {
            continue;
        };
        let [library, plain, kernel] = [0, 1, 2].map(|side| asked.times[side] - at_0.times[side]);
        table.row(vec![
            levels.to_string(),
            found.to_string(),
            start.find(TOP, mask).masks_read.to_string(),
            ns(library),
            ns(plain),
            ns(kernel),
            part(library, plain),
            part(library, kernel),
        ]);
    }
    table.print();
}

/// A ratio, if both are more than what the clock leaves unsure.
fn part(of: f64, to: f64) -> String {
    match of.min(to) > 1.0 {
        true => ratio(of, to),
        false => "-".to_string(),
    }
}

/// How many levels have a CPU, the level that is found, the machine and the mask: few levels and many, and of many the lowest
/// and the highest.
fn records() -> Vec<(usize, usize, Tables, u64)> {
    let few = (1..=4).map(|n| (n, 100, busy(n), 1));
    let mut records = vec![(1, 0, idle(64), full(64))];
    records.extend(few);
    records.push((64, 37, busy(64), 1 << 63));
    records.push((64, 100, busy(64), 1));
    records
}

/// Times a question, if its case is wanted.
fn ask(
    run: &mut Run,
    case: String,
    sides: &mut [Box<dyn Side>],
    level: u32,
    mask: u64,
) -> Option<Row> {
    let work = Work::Find {
        times: TIMES,
        level,
        mask,
    };
    let wanted = run.wants(&case);
    wanted.then(|| run.row(format!("find {case}"), sides, &work))
}

fn two(start: &Tables) -> Vec<Box<dyn Side>> {
    vec![Box::new(Ours::new(start)), Box::new(ByHand::new(start))]
}
