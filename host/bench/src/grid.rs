//! Check, event and inner event over machines of several sizes, and how their cost grows.

use crate::by_hand::ByHand;
use crate::keep::Row;
use crate::machines::{mixed, Scene};
use crate::ours::{Ours, Untold};
use crate::over::{self, Ways};
use crate::say::say;
use crate::second::Second;
use crate::side::{Side, Timed, Work};
use crate::table::{ns, ratio, to_plain, Table};
use crate::timing::Run;
use binding::{CPUS, LEVELS, TASKS, WORDS};

const SIZES: [usize; 4] = [1, 4, 16, 64];
const LOADS: [usize; 3] = [16, 128, 512];

/// Whether the grid has a machine of so many CPUs and tasks.
pub fn has((n, tasks): (usize, usize)) -> bool {
    SIZES.contains(&n) && LOADS.contains(&tasks)
}

/// The compared versions that a growth is given of.
pub const SIDES: [&str; 2] = ["library", "plain"];

/// The compared versions, on a machine.
pub type Sides<W = Work> = fn(&Scene) -> Vec<Box<dyn Side<W>>>;

/// One machine: CPUs, tasks, how many of them wait at the start, and the time of each version.
struct Point {
    n: usize,
    tasks: usize,
    waiting: usize,
    row: Row,
}

fn measure<W: Timed>(
    run: &mut Run,
    section: &str,
    sides: Sides<W>,
    work: fn(&Scene) -> W,
) -> Vec<Point> {
    let mut points = Vec::new();
    for n in SIZES {
        for tasks in LOADS {
            if run.effort.only.is_some_and(|only| only != (n, tasks)) {
                continue;
            }
            let scene = mixed(n, tasks);
            let key = format!("{section} {n} {tasks}");
            let row = run.row(key, &mut sides(&scene), &work(&scene));
            let waiting = scene.waiting();
            points.push(Point {
                n,
                tasks,
                waiting,
                row,
            });
        }
    }
    points
}

/// The library and the plain version.
pub fn two(scene: &Scene) -> Vec<Box<dyn Side>> {
    vec![
        Box::new(Ours::new(&scene.start)),
        Box::new(ByHand::new(&scene.start)),
    ]
}

/// The same, where neither is told that the machine is settled.
pub fn two_untold(scene: &Scene) -> Vec<Box<dyn Side>> {
    vec![
        Box::new(Untold::new(&scene.start)),
        Box::new(ByHand::untold(&scene.start)),
    ]
}

/// The first two and the second scheduler.
fn three(scene: &Scene) -> Vec<Box<dyn Side>> {
    let mut sides = two(scene);
    sides.push(Box::new(Second::new(&scene.start)));
    sides
}

/// The bytes that a check has to read.
fn bytes(n: usize) -> usize {
    let column_bytes = TASKS * (1 + 1 + 1 + 1 + 2 + 8);
    let row_bytes = n * (2 * TASKS + 2 + 1);
    let online_bytes = 8;
    let record_bytes = LEVELS * (8 + 1) + WORDS * 8 + CPUS;
    column_bytes + row_bytes + online_bytes + record_bytes
}

pub fn check(run: &mut Run) {
    if !run.effort.wants(has) {
        return;
    }
    say("Check of all tables, ns a call\n");
    let points = measure(run, "check", three, |_| Work::Check(4));
    let head = [
        "N",
        "tasks",
        "library",
        "plain",
        "library/plain",
        "second",
        "second/library",
        "bytes",
        "bytes/ns",
    ];
    let mut table = Table::new(&head);
    for p in &points {
        let read = bytes(p.n);
        let mut cells = against_second(p);
        cells.push(read.to_string());
        cells.push(format!("{:.2}", read as f64 / p.row.times[0]));
        table.row(cells);
    }
    table.print();
    growth(&points);
}

pub fn event(run: &mut Run) {
    if !run.effort.wants(has) {
        return;
    }
    say("Event with its check of all tables, a mix of events, ns an event\n");
    let points = measure(run, "event", three, |scene| {
        Work::Events(scene.events.clone())
    });
    let head = [
        "N",
        "tasks",
        "library",
        "plain",
        "library/plain",
        "second",
        "second/library",
    ];
    let mut table = Table::new(&head);
    for p in &points {
        table.row(against_second(p));
    }
    table.print();
    growth(&points);
}

pub fn over(run: &mut Run) {
    if !run.effort.wants(has) {
        return;
    }
    say("What the same events take over their checks, ns an event\n");
    let points = measure(run, "over", over::sides, |scene| Ways::new(&scene.events));
    let head = [
        "N",
        "tasks",
        "library: event",
        "check",
        "over it",
        "plain: event",
        "check",
        "over it",
    ];
    let mut table = Table::new(&head);
    for p in &points {
        let sides = [0, 1].map(|side| over::parts(&p.row, side).map(ns));
        let mut cells = vec![p.n.to_string(), p.tasks.to_string()];
        cells.extend(sides.into_iter().flatten());
        table.row(cells);
    }
    table.print();
}

fn against_second(p: &Point) -> Vec<String> {
    let mut cells = vec![p.n.to_string(), p.tasks.to_string()];
    cells.extend(against_plain(&p.row));
    cells.push(ns(p.row.times[2]));
    cells.push(ratio(p.row.times[2], p.row.times[0]));
    cells
}

pub fn inner(run: &mut Run) {
    if run.effort.wants(has) {
        say("Inner event (tables not checked), the same mix, ns an event\n");
        unchecked(run, "inner", two);
    }
}

pub fn untold(run: &mut Run) {
    if run.effort.wants(has) {
        say("Inner event, not told that the machine is settled, the same mix, ns an event\n");
        unchecked(run, "untold", two_untold);
    }
}

/// A section of inner events.
fn unchecked(run: &mut Run, section: &str, sides: Sides) {
    let inner = |scene: &Scene| Work::Inner(scene.events.clone());
    let points = measure(run, section, sides, inner);
    let head = ["N", "tasks", "waiting", "library", "plain", "library/plain"];
    let mut table = Table::new(&head);
    for p in &points {
        let mut cells = [p.n, p.tasks, p.waiting]
            .map(|number| number.to_string())
            .to_vec();
        cells.extend(against_plain(&p.row));
        table.row(cells);
    }
    table.print();
    growth(&points);
}

pub fn against_plain(row: &Row) -> Vec<String> {
    vec![ns(row.times[0]), ns(row.times[1]), to_plain(row)]
}

/// What a CPU more, a task more and a waiting task more cost, from the ends of the grid.
fn growth(points: &[Point]) {
    if points.len() < SIZES.len() * LOADS.len() {
        return;
    }
    let at = |n, tasks| points.iter().find(|p| p.n == n && p.tasks == tasks);
    let (few, many) = (LOADS[0], LOADS[2]);
    let ends = [at(1, few), at(1, many), at(64, few), at(64, many)];
    let [Some(one_few), Some(one_many), Some(all_few), Some(all_many)] = ends else {
        return;
    };
    for (side, name) in SIDES.iter().enumerate() {
        let more = |less: &Point, more: &Point, count: fn(&Point) -> usize| {
            let counted = (count(more) - count(less)) as f64;
            (more.row.times[side] - less.row.times[side]) / counted
        };
        let cpu = more(one_few, all_few, |p| p.n);
        let spread = more(all_few, all_many, |p| p.tasks);
        let piled = more(one_few, one_many, |p| p.tasks);
        let spread_waiting = more(all_few, all_many, |p| p.waiting);
        let piled_waiting = more(one_few, one_many, |p| p.waiting);
        say(&format!(
            "{name}: {cpu:.2} ns for a CPU more (16 tasks); {spread:.2} ns for a task more on 64 CPUs, {piled:.2} ns on one; \
             {spread_waiting:.2} ns for a waiting task more on 64 CPUs, {piled_waiting:.2} ns on one"
        ));
    }
    say("");
}
