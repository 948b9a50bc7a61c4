//! Random recordings: such as a node would write, with events that are refused among them, and such as are cut or spoilt.

use super::write::{cut, divide, first, record};
use crate::events::{hostile, plausible};
use crate::generate::Style;
use crate::rng::Rng;
use binding::{Event, Tables, TASKS};

/// Half of them long, of events that a machine of its own mostly accepts, whole, cut, stopped or spoilt; the others short and
/// spoilt, or bytes as they come.
pub fn recording(rng: &mut Rng) -> Vec<u8> {
    let style = Style::random(rng);
    match rng.below(4) {
        0 => any_bytes(rng),
        1 => {
            let events = rng.below(20);
            let mut bytes = night(rng, &style, events);
            spoil(rng, &mut bytes);
            bytes
        }
        _ => long(rng, &style),
    }
}

fn long(rng: &mut Rng, style: &Style) -> Vec<u8> {
    let events = match rng.below(10) {
        0 => rng.below(4),
        1 => rng.within(62, 67),
        2 => rng.within(126, 131),
        _ => rng.within(100, 500),
    };
    let mut bytes = night(rng, style, events);
    match rng.below(10) {
        0..=3 => (),
        4 | 5 => bytes.truncate(rng.below(bytes.len() + 1)),
        6 | 7 => add_stop(rng, &mut bytes),
        _ => spoil(rng, &mut bytes),
    }
    bytes
}

/// A whole recording of so many events.
pub fn night(rng: &mut Rng, style: &Style, events: usize) -> Vec<u8> {
    let mut machine = Tables::fresh_with_slice(style.n, style.full_slice).expect("in range");
    let named = style.full_slice != 100 || rng.percent(30);
    let mut bytes = first(style.n as u8, named.then_some(style.full_slice as u16));
    let pool = pool(rng, style);
    let mut stamp = match rng.percent(50) {
        true => u32::MAX - rng.below(100_000) as u32,
        false => rng.bits() as u32,
    };
    let mut opening = match style.n <= 8 && rng.percent(25) {
        true => unplugging(style.n),
        false => Vec::new(),
    };
    opening.truncate(events);
    for i in 0..events {
        let e = match opening.get(i) {
            Some(&e) => e,
            None => known(rng, &machine, style, &pool),
        };
        stamp = next_stamp(rng, stamp);
        bytes.extend(record(stamp, e));
        machine.event(e);
    }
    bytes
}

/// All CPUs go offline but the last, which may not; then the others come back.
pub fn unplugging(n: usize) -> Vec<Event> {
    let event = |kind, cpu| Event::new(kind, cpu, 0, 0, 0);
    let others = 0..n as u32 - 1;
    let go = (0..n as u32).map(|cpu| event(10, cpu));
    go.chain(others.map(|cpu| event(11, cpu))).collect()
}

/// The task numbers of a recording: few, so that they come up again, about as many as CPUs, or any.
fn pool(rng: &mut Rng, style: &Style) -> Vec<u16> {
    let mut ids: Vec<u16> = (0..TASKS as u16).collect();
    if rng.percent(50) {
        rng.shuffle(&mut ids);
    }
    let most = rng.pick(&[3, 3 * style.n + 2, TASKS]);
    ids.truncate(most.min(TASKS));
    ids
}

/// An event of a kind that a recording can have, as much of it as a record has a place for.
fn known(rng: &mut Rng, machine: &Tables, style: &Style, pool: &[u16]) -> Event {
    loop {
        let e = match rng.percent(25) {
            true => hostile(rng, machine, style, pool),
            false => plausible(rng, machine, style, pool),
        };
        if (1..=11).contains(&e.kind) {
            return cut(e);
        }
    }
}

/// Mostly a little later; or the same, one step back, or any.
fn next_stamp(rng: &mut Rng, stamp: u32) -> u32 {
    let step = match rng.below(20) {
        0 | 1 => 0,
        2 => u32::MAX,
        3 => rng.bits() as u32,
        4 => 1 << rng.below(32),
        _ => rng.within(1, 20_000) as u32,
    };
    stamp.wrapping_add(step)
}

/// A kind that stops the replay, and perhaps bytes behind it.
fn add_stop(rng: &mut Rng, bytes: &mut Vec<u8>) {
    bytes.push(rng.pick(&[0, 0, 12, 12, 13, 14, 128, 255]));
    let behind = rng.pick(&[0, 0, 1, 3, 20]);
    bytes.extend((0..behind).map(|_| rng.bits() as u8));
}

/// Some bytes changed, a record left out, or one of them twice.
fn spoil(rng: &mut Rng, bytes: &mut Vec<u8>) {
    let records = divide(bytes);
    let at = rng.below(records.len());
    let (before, behind) = records.split_at(at);
    match rng.below(4) {
        0 => *bytes = [before, &behind[1..]].concat().concat(),
        1 => *bytes = [before, &behind[..1], behind].concat().concat(),
        _ => {
            for _ in 0..rng.within(1, 4) {
                let at = rng.below(bytes.len());
                let bit = 1 << rng.below(8);
                bytes[at] = rng.pick(&[0, 12, 255, bytes[at] ^ bit]);
            }
        }
    }
}

/// Any bytes, mostly behind a good first record, so that some of them are read.
fn any_bytes(rng: &mut Rng) -> Vec<u8> {
    let mut bytes = match rng.below(4) {
        0 => Vec::new(),
        1 => first(rng.bits() as u8, Some(rng.bits() as u16)),
        _ => first(rng.within(1, 64) as u8, None),
    };
    let low = rng.percent(70);
    let many = rng.below(200);
    bytes.extend((0..many).map(|_| match low {
        true => rng.below(13) as u8,
        false => rng.bits() as u8,
    }));
    bytes
}
