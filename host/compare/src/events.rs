//! Random calls: such as a scheduler would see, and such as it should refuse.

mod hotplug;

pub use hotplug::take_offline;

use crate::call::Call;
use crate::generate::{full, Style};
use crate::rng::Rng;
use crate::tables::ticks_left;
use binding::{Event, Tables};
use hotplug::{go_or_come, mostly_online, nowhere, past_offline, wrong_side};

/// The next call of a run. `pool` are the task numbers in use.
pub fn call(rng: &mut Rng, t: &Tables, style: &Style, pool: &[u16]) -> Call {
    match rng.below(1000) {
        0 => Call::MakeFresh,
        1 => Call::MakeFreshDefault,
        2..=20 => Call::Check,
        21..=70 => find(rng, t),
        71..=220 => Call::Event(hostile(rng, t, style, pool)),
        _ => Call::Event(plausible(rng, t, style, pool)),
    }
}

/// An event that the tables mostly accept. The numbers that its kind does not use are any.
pub fn plausible(rng: &mut Rng, t: &Tables, style: &Style, pool: &[u16]) -> Event {
    if let Some(e) = seldom(rng, t) {
        return e;
    }
    let who = rng.pick(pool);
    let kind = match t.state.get(who as usize) {
        _ if rng.percent(30) => rng.pick(&[7, 7, 7, 8, 9, 9]),
        Some(0) => rng.pick(&[1, 1, 1, 1, 1, 1, 1, 3, 5]),
        Some(1) => rng.pick(&[2, 3, 3, 3, 3, 3, 3, 5, 6]),
        _ => rng.pick(&[3, 4, 4, 4, 5, 5, 5, 6, 6, 6]),
    };
    let junk = rng.bits();
    let mut e = Event {
        kind,
        who: u32::from(who),
        a: junk as u32,
        b: (junk >> 32) as u32,
        mask: rng.bits() >> rng.below(64),
    };
    match kind {
        1 => e.a = u32::from(style.policy(rng)),
        7 | 8 => e.who = mostly_online(rng, t) as u32,
        9 => e.who = rng.below(style.n) as u32,
        _ => (),
    }
    match kind {
        1 | 5 => e.b = u32::from(style.prio(rng)),
        9 => e.b = rng.below(2) as u32,
        _ => (),
    }
    if matches!(kind, 1 | 6) {
        e.mask = style.mask(rng);
    }
    e
}

/// Now and then an event for what would come up seldom: a CPU that goes offline or comes back, a mask that begins with an
/// offline CPU, a new priority among equals, or a tick where a slice ends soonest.
fn seldom(rng: &mut Rng, t: &Tables) -> Option<Event> {
    match rng.below(50) {
        0..=5 => return Some(go_or_come(rng, t)),
        6 | 7 => return past_offline(rng, t),
        _ => (),
    }
    let shared: Vec<usize> = (0..t.n).filter(|&cpu| t.counts[cpu] > 1).collect();
    if !shared.is_empty() && rng.percent(10) {
        let row = t.row(rng.pick(&shared));
        return Some(among_equals(rng, t, row));
    }
    let least = (0..t.n).filter_map(|cpu| ticks_left(t, cpu)).min()?;
    if rng.percent(65) {
        return None;
    }
    let soonest: Vec<usize> = (0..t.n)
        .filter(|&cpu| ticks_left(t, cpu) == Some(least))
        .collect();
    let cpu = rng.pick(&soonest);
    Some(of_kind(rng, 7, cpu))
}

/// An event of this kind on a CPU or of a task; its other numbers are any.
fn of_kind(rng: &mut Rng, kind: u32, who: usize) -> Event {
    let junk = rng.bits();
    Event {
        kind,
        who: who as u32,
        a: junk as u32,
        b: (junk >> 32) as u32,
        mask: rng.bits(),
    }
}

/// One of a row gets the priority of one of that row.
fn among_equals(rng: &mut Rng, t: &Tables, row: &[u16]) -> Event {
    let (who, like) = (rng.pick(row), rng.pick(row));
    Event {
        kind: 5,
        who: who.into(),
        a: rng.bits() as u32,
        b: t.prio[usize::from(like)].into(),
        mask: rng.bits(),
    }
}

/// An event that should be refused: aimed at one refusal number, or with any numbers gone wrong.
pub fn hostile(rng: &mut Rng, t: &Tables, style: &Style, pool: &[u16]) -> Event {
    let mut e = plausible(rng, t, style, pool);
    if rng.percent(60) {
        return match rng.within(3, 12) {
            10 => nowhere(rng, t),
            11 => wrong_side(rng, t),
            12 => {
                let cpu = mostly_online(rng, t);
                of_kind(rng, 10, cpu)
            }
            number => aimed(rng, t, style, pool, number),
        };
    }
    for _ in 0..rng.pick(&[1, 1, 2, 4]) {
        match rng.below(5) {
            0 => e.kind = edge(rng, e.kind, style.n),
            1 => e.who = edge(rng, e.who, style.n),
            2 => e.a = edge(rng, e.a, style.n),
            3 => e.b = edge(rng, e.b, style.n),
            _ => e.mask = edge_mask(rng, style.n),
        }
    }
    e
}

/// An event in which mostly nothing is wrong but what the refusal number speaks of.
fn aimed(rng: &mut Rng, t: &Tables, style: &Style, pool: &[u16], number: usize) -> Event {
    let free = pool
        .iter()
        .find(|&&id| t.state.get(id as usize) == Some(&0));
    let mut e = Event {
        kind: rng.pick(&[1, 1, 5, 6, 9]),
        who: u32::from(rng.pick(pool)),
        a: u32::from(style.policy(rng)),
        b: u32::from(style.prio(rng)),
        mask: style.mask(rng),
    };
    match number {
        3 => e.kind = edge(rng, e.kind, style.n),
        4 => e.who = edge(rng, e.who, style.n),
        5 => e.kind = rng.within(1, 6) as u32,
        6 => e.a = edge(rng, e.a, style.n),
        7 => e.b = edge(rng, e.b, style.n),
        8 => e.mask = edge_mask(rng, style.n),
        _ => e.kind = 8,
    }
    match (number, free) {
        (6, _) => e.kind = 1,
        (8, _) if e.kind == 9 => e.kind = 6,
        (9, _) => e.who = rng.below(style.n) as u32,
        _ => (),
    }
    // Now and then the refusal after it fits too.
    match number {
        _ if rng.percent(80) => (),
        5 => e.a = edge(rng, e.a, style.n),
        6 => e.b = edge(rng, e.b, style.n),
        7 => e.mask = edge_mask(rng, style.n),
        _ => (),
    }
    if let (6..=8, Some(&id), 1) = (number, free, e.kind) {
        e.who = u32::from(id);
    }
    e
}

/// Numbers about the limits, and such as are the old one when cut to 8 or 16 bits.
fn edge(rng: &mut Rng, old: u32, n: usize) -> u32 {
    const EDGES: [u32; 29] = [
        0,
        1,
        2,
        3,
        4,
        8,
        9,
        10,
        11,
        12,
        13,
        63,
        64,
        65,
        98,
        99,
        100,
        101,
        102,
        255,
        256,
        510,
        511,
        512,
        513,
        65535,
        65536,
        1 << 31,
        u32::MAX,
    ];
    match rng.below(8) {
        0 => old.wrapping_add(256),
        1 => old.wrapping_add(65536),
        2 => n as u32,
        3 => n as u32 - 1,
        4 => rng.bits() as u32,
        _ => rng.pick(&EDGES),
    }
}

fn edge_mask(rng: &mut Rng, n: usize) -> u64 {
    let past = 1u64.checked_shl(n as u32).unwrap_or(0);
    match rng.below(7) {
        0 => 0,
        1 => past,
        2 => full(n),
        3 => full(n) | past,
        4 => u64::MAX,
        5 => 1 << 63,
        _ => rng.bits(),
    }
}

/// A question to the finder: about one CPU, or about any, with a level about the limits now and then.
pub fn find(rng: &mut Rng, t: &Tables) -> Call {
    if rng.percent(40) {
        return find_one(rng, t);
    }
    let level = match rng.below(10) {
        0 => rng.pick(&[102, 103, 255, 256, 257, 65535, 65536 + 50, u32::MAX]),
        1..=3 => rng.pick(&[0, 1, 2, 3, 100, 101]),
        _ => rng.within(0, 101) as u32,
    };
    let mask = match rng.percent(20) {
        true => edge_mask(rng, t.n),
        false => rng.bits() & full(t.n),
    };
    Call::Find(level, mask)
}

/// About one CPU, and perhaps another, with its level, the next or the highest: the search comes past all lower ones.
fn find_one(rng: &mut Rng, t: &Tables) -> Call {
    let (cpu, other) = (rng.below(t.n), rng.below(t.n));
    let own = u32::from(t.levels[cpu]).min(101);
    let level = rng.pick(&[own, (own + 1).min(101), 101]);
    let mask = rng.pick(&[0, 0, 1 << other]) | 1u64 << cpu;
    Call::Find(level, mask)
}
