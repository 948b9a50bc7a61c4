//! Nights replayed.

use crate::by_hand;
use crate::keep::Row;
use crate::night::{night, Night, EVENTS};
use crate::say::say;
use crate::side::{Side, Timed};
use crate::table::{ns, to_plain, Table};
use crate::timing::Run;
use binding::{Tables, CPUS};
use plain::Record;
use replay::replay_lent;

/// CPUs, tasks, and how many of a hundred tasks are runnable.
const NIGHTS: [(&str, usize, usize, usize); 6] = [
    ("quiet", 4, 4, 30),
    ("busy", 4, 60, 70),
    ("overloaded", 4, 500, 90),
    ("quiet", 64, 20, 30),
    ("busy", 64, 200, 70),
    ("overloaded", 64, 500, 90),
];

/// Whether there is a night of so many CPUs and tasks.
pub fn has(size: (usize, usize)) -> bool {
    NIGHTS.iter().any(|&(_, n, tasks, _)| (n, tasks) == size)
}

pub fn replay(run: &mut Run) {
    if !run.effort.wants(has) {
        return;
    }
    say("Replay of a recording of 65,535 events, ns an event\n");
    let head = [
        "night",
        "N",
        "tasks",
        "runnable",
        "running",
        "refused",
        "moves",
        "library",
        "million/s",
        "plain",
        "library/plain",
    ];
    let mut table = Table::new(&head);
    for (name, n, tasks, share) in NIGHTS {
        if run.effort.only.is_some_and(|only| only != (n, tasks)) {
            continue;
        }
        let night = night(n, tasks, share);
        let recording = Recording(night.bytes.clone());
        let row = run.row(format!("replay {n} {tasks}"), &mut sides(), &recording);
        let mut cells = vec![name.to_string(), n.to_string(), tasks.to_string()];
        cells.extend(happened(&night));
        cells.extend(against_plain(&row));
        table.row(cells);
    }
    table.print();
}

fn happened(night: &Night) -> [String; 4] {
    [
        format!("{:.1}", night.runnable),
        format!("{:.1}", night.running),
        night.refused.to_string(),
        night.moves.to_string(),
    ]
}

/// With how many million events the library replays in a second.
fn against_plain(row: &Row) -> [String; 4] {
    let [library, plain] = [row.times[0], row.times[1]];
    [
        ns(library),
        format!("{:.1}", 1000.0 / library),
        ns(plain),
        to_plain(row),
    ]
}

/// The bytes of a night.
#[derive(Clone)]
struct Recording(Vec<u8>);

impl Timed for Recording {
    /// It is replayed by one call.
    fn parts(&self) -> Vec<Recording> {
        vec![self.clone()]
    }

    fn calls(&self) -> usize {
        EVENTS
    }
}

/// All numbers of a report in one.
fn mixed(numbers: [u64; 7], times: &[u64; CPUS]) -> u64 {
    let all = numbers.iter().chain(times);
    all.fold(0, |mixed: u64, number| {
        mixed.wrapping_mul(0x9e37_79b9_7f4a_7c15) ^ number
    })
}

/// The library. A replay makes its tables fresh.
struct Ours(Tables);

impl Side<Recording> for Ours {
    fn restart(&mut self) {}

    fn run(&mut self, recording: &Recording) -> u64 {
        let mut times = [0; CPUS];
        let r = replay_lent(&recording.0, &mut self.0, &mut times);
        let numbers = [
            r.answer.into(),
            r.ending.into(),
            r.place as u64,
            r.cpus as u64,
            r.full_slice.into(),
            r.moves,
            r.refused.into(),
        ];
        mixed(numbers, &times)
    }

    fn tables(&self) -> Tables {
        self.0.clone()
    }
}

/// The plain version.
struct ByHand(plain::Tables, Record);

impl Side<Recording> for ByHand {
    fn restart(&mut self) {}

    fn run(&mut self, recording: &Recording) -> u64 {
        let r = plain::replay(&recording.0, &mut self.0, &mut self.1);
        let numbers = [
            r.answer.into(),
            r.ending as u64,
            r.place as u64,
            r.cpus as u64,
            r.full_slice.into(),
            r.moves,
            r.refused.into(),
        ];
        mixed(numbers, &r.times)
    }

    fn tables(&self) -> Tables {
        by_hand::joined(&self.0, &self.1)
    }
}

/// Both, in tables for 64 CPUs.
fn sides() -> [Box<dyn Side<Recording>>; 2] {
    let start = Tables::zeroed(CPUS);
    let by_hand = ByHand(by_hand::tables(&start), by_hand::record(&start));
    [Box::new(Ours(start)), Box::new(by_hand)]
}
