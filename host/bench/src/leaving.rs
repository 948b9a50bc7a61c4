//! Machines of which a CPU goes offline, the last one if nothing else is said.

use crate::machines::{accept, event, fresh, full, put, Scene, AFFINITY, OFFLINE, ONLINE};
use crate::rng::Rng;
use binding::{Event, Tables, TASKS};

/// Above all tasks that leave.
const TOP: usize = 99;

/// The priorities of tasks that leave or stay, in the order of their numbers.
#[derive(Clone, Copy)]
pub enum Prios {
    Equal,
    Falling,
    Random,
}

impl Prios {
    fn of(self, count: usize) -> Vec<usize> {
        let mut rng = Rng::new(count as u64);
        let prio = |i: usize| match self {
            Prios::Equal => 50,
            Prios::Falling => 98 - i * 98 / count,
            Prios::Random => 1 + rng.below(98),
        };
        (0..count).map(prio).collect()
    }
}

/// Adds a task that stands in the last CPU's row and may use another CPU too. It wakes pinned: else it would go there.
fn put_last(t: &mut Tables, who: usize, prio: usize, other: usize) {
    let own = 1 << (t.n - 1);
    put(t, who, 1, prio, own);
    let e = Event {
        mask: own | 1 << other,
        ..event(AFFINITY, who)
    };
    accept(t, e);
}

fn goes(t: Tables) -> Scene {
    let events = vec![event(OFFLINE, t.n - 1)];
    Scene { start: t, events }
}

/// The CPU has so many tasks. Each may use CPU 0 as well, which runs a higher one, so that no task is movable.
pub fn to_one(n: usize, tasks: usize, prios: Prios) -> Scene {
    let mut t = fresh(n);
    put(&mut t, TASKS - 1, 1, TOP, 1);
    for (who, prio) in prios.of(tasks).into_iter().enumerate() {
        put_last(&mut t, who, prio, 0);
    }
    goes(t)
}

/// How many tasks a CPU of n can have if all others run one.
pub fn most(n: usize) -> usize {
    TASKS - (n - 1)
}

/// The same, but each may use one of the other CPUs, all of them in turn, and each of these runs a higher one.
pub fn to_all(n: usize, tasks: usize, prios: Prios) -> Scene {
    let mut t = fresh(n);
    let others = n - 1;
    for c in 0..others {
        put(&mut t, TASKS - 1 - c, 1, TOP, 1 << c);
    }
    for (who, prio) in prios.of(tasks).into_iter().enumerate() {
        put_last(&mut t, who, prio, who % others);
    }
    goes(t)
}

/// Two CPUs: 256 tasks go to CPU 0, where 255 wait below one that runs. These are lower than all who come, or the two
/// have the same kind of priorities.
pub fn among(lower: bool, prios: Prios) -> Scene {
    let mut t = fresh(2);
    let half = TASKS / 2;
    put(&mut t, TASKS - 1, 1, TOP, 1);
    for (i, prio) in prios.of(half - 1).into_iter().enumerate() {
        put(&mut t, half + i, 1, if lower { 1 } else { prio }, 1);
    }
    for (who, prio) in prios.of(half).into_iter().enumerate() {
        put_last(&mut t, who, prio, 0);
    }
    goes(t)
}

/// 64 CPUs: the one that goes runs the highest task, which goes to CPU 0. Task c runs on CPU c and may use the next, and
/// priorities fall: each moves on by one CPU, 62 moves. With `pinned` each row has 7 more tasks, which can't move, next below
/// the one that runs: so as many levels as can be are below them.
pub fn pushes(pinned: bool) -> Scene {
    let mut t = fresh(64);
    put_last(&mut t, 63, TOP, 0);
    for c in 0..63 {
        put(&mut t, c, 1, 95 - c, 3 << c);
    }
    for i in (0..7 * 63).filter(|_| pinned) {
        let c = i % 63;
        put(&mut t, 64 + i, 1, 94 - c, 1 << c);
    }
    let scene = goes(t);
    let moves = scene.start.clone().event(scene.events[0]).moves;
    assert_eq!(moves, 62);
    scene
}

/// The CPU of another scene is gone, and comes back.
pub fn comes_back(scene: &Scene) -> Scene {
    let mut t = scene.start.clone();
    for &e in &scene.events {
        accept(&mut t, e);
    }
    let events = vec![event(ONLINE, t.n - 1)];
    Scene { start: t, events }
}

/// One task that may use all CPUs. CPU 0, where it runs, goes offline and comes back; then CPU 1, where it runs now; and
/// so on.
pub fn turns(n: usize) -> Scene {
    let mut t = fresh(n);
    put(&mut t, 0, 1, 50, full(n));
    let turn = [0, 1].map(|c| [event(OFFLINE, c), event(ONLINE, c)]);
    Scene {
        start: t,
        events: turn.concat().repeat(8),
    }
}
