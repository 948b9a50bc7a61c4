//! Inner events that cost the most.

use crate::grid::{against_plain, two, two_untold, Sides, SIDES};
use crate::keep::Row;
use crate::machines::{chain, draws, full_row, halves, yields, Pinned, Scene, WAITING};
use crate::say::say;
use crate::side::Work;
use crate::table::Table;
use crate::timing::Run;

/// The name of a row, and its machine.
type Case = (&'static str, Scene);

pub fn worst(run: &mut Run) {
    say("Inner event, worst cases, ns an event (not told: that the machine is settled)\n");
    let head = ["case", "library", "plain", "library/plain"];
    let mut table = Table::new(&head);
    let told = told();
    let waiting = told[6].1.waiting();
    let rows = told.map(|case| row(run, &mut table, case, two));
    for case in untold() {
        row(run, &mut table, case, two_untold);
    }
    table.print();
    if let (Some(nobody), Some(all)) = (&rows[5], &rows[6]) {
        growth(nobody, all, waiting);
    }
}

fn told() -> [Case; 8] {
    [
        ("63 moves on 64 CPUs", chain(Pinned::None)),
        (
            "63 moves, 7 pinned tasks wait in each row",
            chain(Pinned::Low),
        ),
        ("wake, sleep: end of a row of 512", full_row(false)),
        ("wake, sleep: front of a row of 512", full_row(true)),
        ("yield: front to end of a row of 512", yields()),
        ("one of 64 CPUs falls idle, nobody waits", draws(0, false)),
        (
            "the same, 448 tasks wait and none may use it",
            draws(WAITING, false),
        ),
        ("the same, the last of them is drawn", draws(WAITING, true)),
    ]
}

/// All who wait may have to be looked at for each step.
fn untold() -> [Case; 4] {
    [
        ("not told: 63 moves on 64 CPUs", chain(Pinned::None)),
        (
            "not told: 63 moves, 7 pinned tasks wait in each row",
            chain(Pinned::Low),
        ),
        (
            "not told: 63 moves, these next below who runs",
            chain(Pinned::High),
        ),
        (
            "not told: 448 wait above 32 CPUs that they may not use",
            halves(),
        ),
    ]
}

/// Times a case, if it is wanted.
fn row(run: &mut Run, table: &mut Table, (name, scene): Case, sides: Sides) -> Option<Row> {
    if !run.wants(name) {
        return None;
    }
    let work = Work::Inner(scene.events.clone());
    let row = run.row(format!("worst {name}"), &mut sides(&scene), &work);
    let mut cells = vec![name.to_string()];
    cells.extend(against_plain(&row));
    table.row(cells);
    Some(row)
}

/// What a waiting task more costs that is looked at.
fn growth(nobody: &Row, all: &Row, waiting: usize) {
    for (side, name) in SIDES.iter().enumerate() {
        let each = (all.times[side] - nobody.times[side]) / waiting as f64;
        say(&format!(
            "{name}: {each:.1} ns for each task that waits when a CPU falls idle"
        ));
    }
    say("");
}
