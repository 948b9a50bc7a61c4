//! Inner events that take a CPU offline or bring it back.

use crate::grid::{against_plain, two};
use crate::leaving::{among, comes_back, most, pushes, to_all, to_one, turns, Prios};
use crate::machines::{returns, Scene, WAITING};
use crate::say::say;
use crate::side::Work;
use crate::table::Table;
use crate::timing::Run;
use binding::TASKS;

const SIZES: [usize; 3] = [2, 4, 64];
const FEW: usize = 64;
/// The most that can stand in one row if another CPU runs a task.
const MOST: usize = TASKS - 1;

/// The name of a row, and its machine, which is made when it is timed.
type Case = (String, Box<dyn Fn() -> Scene>);

fn case(name: impl Into<String>, scene: impl Fn() -> Scene + 'static) -> Case {
    (name.into(), Box::new(scene))
}

pub fn hotplug(run: &mut Run) {
    say("Inner event, a CPU goes offline or comes back, ns an event\n");
    let head = ["case", "library", "plain", "library/plain"];
    let mut table = Table::new(&head);
    let cases = SIZES.into_iter().flat_map(of_size).chain(worst());
    for (name, scene) in cases {
        if !run.wants(&name) {
            continue;
        }
        let scene = scene();
        let work = Work::Inner(scene.events.clone());
        let row = run.row(format!("hotplug {name}"), &mut two(&scene), &work);
        let mut cells = vec![name];
        cells.extend(against_plain(&row));
        table.row(cells);
    }
    table.print();
}

/// One, some and all tasks on one of n CPUs.
fn of_size(n: usize) -> Vec<Case> {
    let turns = case(
        format!("{n} CPUs, 1 task: out and back by turns"),
        move || turns(n),
    );
    let one = |tasks: usize| {
        let name = format!("{n} CPUs, {tasks} tasks: out, to one row");
        case(name, move || to_one(n, tasks, Prios::Equal))
    };
    let all = |tasks: usize| {
        let name = format!("{n} CPUs, {tasks} tasks: out, over all others");
        case(name, move || to_all(n, tasks, Prios::Random))
    };
    let back = case(
        format!("{n} CPUs, {MOST} tasks: back, and one comes"),
        move || comes_back(&to_one(n, MOST, Prios::Equal)),
    );
    let mut cases = vec![turns, one(FEW), one(MOST)];
    if n > 2 {
        cases.extend([all(FEW), all(most(n))]);
    }
    cases.push(back);
    cases
}

/// What may cost the most.
fn worst() -> [Case; 9] {
    [
        case("2 CPUs, 511 tasks, falling priorities: out", || {
            to_one(2, MOST, Prios::Falling)
        }),
        case("2 CPUs, 511 tasks, random priorities: out", || {
            to_one(2, MOST, Prios::Random)
        }),
        case("2 CPUs, 256 tasks: out, before 255 lower ones", || {
            among(true, Prios::Equal)
        }),
        case(
            "2 CPUs, 256 tasks, random priorities: out, among 255",
            || among(false, Prios::Random),
        ),
        case("64 CPUs, 1 task: out, then 62 moves", || pushes(false)),
        case("64 CPUs, 1 task: out, 62 moves past pinned tasks", || {
            pushes(true)
        }),
        case("64 CPUs: back, nobody waits", || returns(0, false)),
        case("64 CPUs: back, 448 wait and none may use it", || {
            returns(WAITING, false)
        }),
        case("64 CPUs: back, the last of 448 is drawn", || {
            returns(WAITING, true)
        }),
    ]
}
