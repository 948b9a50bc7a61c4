//! Recordings of 65,535, 65,536 and 65,537 records, and such with a byte behind them.

use super::case::{Case, Failure};
use super::counters::Counters;
use super::origin;
use super::write::{first, record};
use binding::Event;
use reference::Mutant;

/// Events of the longest whole recording; its first record is one more.
const EVENTS: u32 = 65_535;

/// So many events of one CPU: an RR task is added and wakes, then ticks, three of four on a CPU that is not there.
fn ticks(events: u32) -> Vec<u8> {
    let stamp = |i: u32| i.wrapping_mul(1_000_003);
    let mut bytes = first(1, None);
    bytes.extend(record(stamp(0), Event::new(1, 7, 2, 50, 1)));
    bytes.extend(record(stamp(1), Event::new(3, 7, 0, 0, 0)));
    for i in 2..events {
        let cpu = u32::from(i % 4 != 0);
        bytes.extend(record(stamp(i), Event::new(7, cpu, 0, 0, 0)));
    }
    bytes
}

/// All of them.
pub const ALL: usize = 7;

/// Something behind 65,536 records, and behind one fewer: the first `many` of all. A byte too many comes first: most errors
/// show there.
pub fn run(many: usize, mutant: Mutant, counters: &mut Counters) -> Option<Failure> {
    let full = ticks(EVENTS);
    let tick = record(0, Event::new(7, 0, 0, 0, 0));
    let with = |more: &[u8]| [&full, more].concat();
    let fewer = ticks(EVENTS - 1);
    let recordings: [Vec<u8>; ALL] = [
        with(&[7]),
        with(&[]),
        [&fewer, &tick[..5]].concat(),
        with(&tick),
        with(&[0]),
        with(&[200]),
        fewer,
    ];
    recordings.into_iter().take(many).find_map(|bytes| {
        let case = Case::of(bytes);
        case.run_counted(origin(None, mutant), counters)
    })
}
