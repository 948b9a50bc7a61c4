//! The machines that are timed: where they start, and what happens to them.

use crate::rng::Rng;
use binding::{Event, Tables, TASKS};

pub const ADD: u32 = 1;
pub const WAKE: u32 = 3;
pub const SLEEP: u32 = 4;
pub const PRIORITY: u32 = 5;
pub const AFFINITY: u32 = 6;
pub const TICK: u32 = 7;
pub const YIELD: u32 = 8;
pub const ORDINARY: u32 = 9;
pub const OFFLINE: u32 = 10;
pub const ONLINE: u32 = 11;

/// How many events of a mix are timed at once.
const MIXED: usize = 256;

/// Tables to start from, and the events from there on, all of them accepted. They are a settled machine's: a fresh one
/// on which events were accepted.
pub struct Scene {
    pub start: Tables,
    pub events: Vec<Event>,
}

impl Scene {
    /// How many tasks wait at the start.
    pub fn waiting(&self) -> usize {
        let waiting = |&count: &u16| count.saturating_sub(1) as usize;
        self.start.counts.iter().map(waiting).sum()
    }
}

pub fn event(kind: u32, who: usize) -> Event {
    Event {
        kind,
        who: who as u32,
        a: 0,
        b: 0,
        mask: 0,
    }
}

pub fn full(n: usize) -> u64 {
    u64::MAX >> (64 - n)
}

pub fn accept(t: &mut Tables, e: Event) {
    let answer = t.event(e).answer;
    assert_eq!(answer, 0, "{e:?}");
}

/// With document 01's full slice.
pub fn fresh(n: usize) -> Tables {
    Tables::fresh_with_slice(n, 100).expect("1 to 64 CPUs")
}

/// Adds a task and wakes it.
pub fn put(t: &mut Tables, who: usize, policy: u32, prio: usize, mask: u64) {
    add(t, who, policy, prio, mask);
    accept(t, event(WAKE, who));
}

fn add(t: &mut Tables, who: usize, policy: u32, prio: usize, mask: u64) {
    let e = Event {
        a: policy,
        b: prio as u32,
        mask,
        ..event(ADD, who)
    };
    accept(t, e);
}

/// Any CPU, some CPUs, one CPU or two.
pub fn some_mask(rng: &mut Rng, n: usize) -> u64 {
    let one = |rng: &mut Rng| 1u64 << rng.below(n);
    match rng.below(10) {
        0..=3 => full(n),
        4..=6 => (rng.next() & full(n)) | one(rng),
        7..=8 => one(rng),
        _ => one(rng) | one(rng),
    }
}

/// About six tasks of ten are runnable; half of all are RR.
pub fn mixed(n: usize, tasks: usize) -> Scene {
    let mut rng = Rng::new((n * 1000 + tasks) as u64);
    let mut t = fresh(n);
    for who in 0..tasks {
        let (policy, prio) = (1 + rng.below(2) as u32, 1 + rng.below(99));
        let mask = some_mask(&mut rng, n);
        add(&mut t, who, policy, prio, mask);
        if rng.below(10) < 6 {
            accept(&mut t, event(WAKE, who));
        }
    }
    let start = t.clone();
    let mut events = Vec::new();
    while events.len() < MIXED {
        let e = some_event(&mut rng, &t, tasks);
        if t.event(e).answer == 0 {
            events.push(e);
        }
    }
    Scene { start, events }
}

/// Of ten events three are ticks, four wake a task or put it to sleep, and one each sets a priority and a mask.
fn some_event(rng: &mut Rng, t: &Tables, tasks: usize) -> Event {
    let who = rng.below(tasks);
    let cpu = rng.below(t.n);
    match rng.below(20) {
        0..=5 => event(TICK, cpu),
        6..=13 if t.state[who] == 1 => event(WAKE, who),
        6..=13 => event(SLEEP, who),
        14..=15 => Event {
            b: 1 + rng.below(99) as u32,
            ..event(PRIORITY, who)
        },
        16..=17 => Event {
            mask: some_mask(rng, t.n),
            ..event(AFFINITY, who)
        },
        18 => event(YIELD, cpu),
        _ => Event {
            b: rng.below(2) as u32,
            ..event(ORDINARY, cpu)
        },
    }
}

/// The tasks of `chain` that wait and can't move: none, or 7 more in each row, which are below every CPU's level or next below
/// the one that runs.
#[derive(Clone, Copy)]
pub enum Pinned {
    None,
    Low,
    High,
}

/// Task c runs on CPU c and may use the next; priorities fall. One more, the highest, wakes on CPU 0: every
/// other task moves on by one CPU, 63 moves.
pub fn chain(pinned: Pinned) -> Scene {
    let mut t = fresh(64);
    for c in 0..64 {
        put(&mut t, c, 1, 95 - c, 3 << c);
    }
    for who in 64..TASKS - 1 {
        let c = who % 64;
        match pinned {
            Pinned::None => (),
            Pinned::Low => put(&mut t, who, 1, 30, 1 << c),
            Pinned::High => put(&mut t, who, 1, 94 - c, 1 << c),
        }
    }
    add(&mut t, TASKS - 1, 1, 99, 1);
    let events = vec![event(WAKE, TASKS - 1)];
    let moves = t.clone().event(events[0]).moves;
    assert_eq!(moves, 63);
    Scene { start: t, events }
}

/// 64 CPUs in two halves. Those of the first run high tasks, and 448 more wait there, which may use all of this half. Those of
/// the second run low ones at 32 levels: each who waits is above all of them and may use none. Ticks, which change nothing.
pub fn halves() -> Scene {
    let mut t = fresh(64);
    for c in 0..64 {
        let prio = if c < 32 { 90 } else { c - 31 };
        put(&mut t, c, 1, prio, 1 << c);
    }
    for who in 64..TASKS {
        put(&mut t, who, 1, 60, 1 << (who % 32));
        let e = Event {
            mask: full(32),
            ..event(AFFINITY, who)
        };
        accept(&mut t, e);
    }
    Scene {
        start: t,
        events: vec![event(TICK, 0); 8],
    }
}

/// One CPU with 511 equal tasks, and one more that wakes and sleeps, again and again: at the end of the row, or
/// at its front.
pub fn full_row(front: bool) -> Scene {
    let mut t = fresh(1);
    for who in 0..TASKS - 1 {
        put(&mut t, who, 1, 50, 1);
    }
    let prio = if front { 99 } else { 1 };
    add(&mut t, TASKS - 1, 1, prio, 1);
    let pair = [event(WAKE, TASKS - 1), event(SLEEP, TASKS - 1)];
    Scene {
        start: t,
        events: pair.repeat(8),
    }
}

/// One CPU with 512 equal tasks, of which the first yields: it goes from the front of the row to its end.
pub fn yields() -> Scene {
    let mut t = fresh(1);
    for who in 0..TASKS {
        put(&mut t, who, 1, 50, 1);
    }
    Scene {
        start: t,
        events: vec![event(YIELD, 0); 16],
    }
}

/// As many as 64 CPUs and 512 tasks allow in `draws` and `returns`.
pub const WAITING: usize = 8;

/// CPUs that fall idle in `draws`, or come back in `returns`.
const FALLING: usize = 8;

/// 64 CPUs, of which the first 8 run one task each, and on each of the others so many tasks wait. The first 8 tasks go to
/// sleep, one after the other: each time a CPU falls idle, and all who wait are looked at. They are pinned; but with
/// `drawn` the last one of the last CPU may use the idle one and goes there.
pub fn draws(waiting: usize, drawn: bool) -> Scene {
    let mut t = fresh(64);
    for c in 0..FALLING {
        put(&mut t, c, 1, 60, 1 << c);
    }
    drawing(t, waiting, drawn, SLEEP)
}

/// The same where the first 8 CPUs are offline, and come back.
pub fn returns(waiting: usize, drawn: bool) -> Scene {
    let mut t = fresh(64);
    for c in 0..FALLING {
        accept(&mut t, event(OFFLINE, c));
    }
    drawing(t, waiting, drawn, ONLINE)
}

/// The other CPUs of these, and an event of the kind for each of the first 8.
fn drawing(mut t: Tables, waiting: usize, drawn: bool, kind: u32) -> Scene {
    for c in FALLING..64 {
        put(&mut t, c, 1, 60, 1 << c);
    }
    for i in 0..waiting * (64 - FALLING) {
        put(&mut t, 64 + i, 1, 50, 1 << (FALLING + i / waiting));
    }
    let last = 64 + waiting * (64 - FALLING);
    for c in (0..FALLING).filter(|_| drawn) {
        let e = Event {
            mask: 1 << 63 | 1 << c,
            ..event(AFFINITY, last - FALLING + c)
        };
        accept(&mut t, e);
    }
    let events: Vec<Event> = (0..FALLING).rev().map(|c| event(kind, c)).collect();
    let mut after = t.clone();
    for &e in &events {
        assert_eq!(after.event(e).moves, u32::from(drawn));
    }
    Scene { start: t, events }
}

/// All n CPUs idle.
pub fn idle(n: usize) -> Tables {
    fresh(n)
}

/// CPU c runs priority 98 - c, so that CPU 0 stands at level 100, the highest that a search can find.
pub fn busy(n: usize) -> Tables {
    let mut t = fresh(n);
    for c in 0..n {
        put(&mut t, c, 1, 98 - c, 1 << c);
    }
    t
}
