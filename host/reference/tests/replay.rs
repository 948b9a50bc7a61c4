//! The sentences of L1, "Replay a night", and what L7 and L8 say of recordings, on the reference alone. Recordings are bytes,
//! and what they give is worked out by hand.

use reference::{check, event, make_fresh, replay, Ending, Event, Mutant, Report, Tables};
use Ending::{Cut, Stopped, Whole};

/// Tables for 64 CPUs that hold nothing sensible, the times too.
struct Run {
    t: Tables,
    times: Vec<u64>,
}

impl Run {
    fn new() -> Run {
        Run {
            t: Tables::blank(64, 0),
            times: vec![7; 64],
        }
    }

    fn replay(&mut self, bytes: &[u8]) -> Report {
        replay(bytes, &mut self.t, &mut self.times, Mutant::None).report
    }

    fn row(&self, cpu: usize) -> &[u16] {
        &self.t.rows[512 * cpu..512 * cpu + usize::from(self.t.counts[cpu])]
    }
}

/// How a recording ends, where, and the N that is reported.
fn end(bytes: &[u8]) -> (Ending, usize, usize) {
    let report = Run::new().replay(bytes);
    assert_eq!(report.answer, 0);
    (report.ending, report.place, report.cpus)
}

fn times(bytes: &[u8]) -> Vec<u64> {
    let mut run = Run::new();
    let cpus = run.replay(bytes).cpus;
    assert!(run.times[cpus..].iter().all(|&time| time == 0));
    run.times[..cpus].to_vec()
}

/// One CPU; task 0 (FIFO, 50) is added and wakes at 0.
const ONE: [u8; 26] = [
    0, 1, // N
    1, 0, 0, 0, 0, 0, 0, 1, 50, 1, 0, 0, 0, 0, 0, 0, 0, // add
    3, 0, 0, 0, 0, 0, 0, // wake
];

/// A tick on a CPU, with a stamp.
fn tick(stamp: u32, cpu: u8) -> [u8; 6] {
    let [a, b, c, d] = stamp.to_le_bytes();
    [7, a, b, c, d, cpu]
}

/// "Kind 0 comes first and only there: one byte, N." "In recordings kind 0 still means 100, and a new first kind 12, body three
/// bytes (N, then slice), names another".
#[test]
fn the_first_record_makes_the_machine() {
    for (bytes, cpus, full_slice) in [
        (&[0, 1][..], 1, 100),
        (&[0, 64], 64, 100),
        (&[12, 3, 1, 0], 3, 1),
        (&[12, 3, 0, 1], 3, 256),
        (&[12, 3, 232, 3], 3, 1000),
    ] {
        let mut run = Run::new();
        let report = run.replay(bytes);
        assert_eq!((report.cpus, report.full_slice), (cpus, full_slice));
        assert_eq!(end(bytes), (Whole, bytes.len(), cpus));
        let mut fresh = Tables::blank(cpus, full_slice);
        make_fresh(&mut fresh, Mutant::None);
        assert_eq!(run.t.rows[..512 * cpus], fresh.rows);
        assert_eq!((&run.t.log, run.t.online), (&fresh.log, fresh.online));
        assert_eq!((&run.t.state, &run.t.levels), (&fresh.state, &fresh.levels));
    }
}

/// "empty is cut"; "a first kind not 0, an N out of range [...] stops the replay"; "a slice out of range, [...] or a bad N, its
/// slice cut or not, stops the replay". "without a good first record, N and all totals are 0 and tables and record stay as they
/// were".
#[test]
fn without_a_good_first_record_nothing_changes() {
    for (bytes, ending) in [
        (&[][..], Cut),
        (&[0], Cut),
        (&[12], Cut),
        (&[12, 64], Cut),
        (&[12, 64, 1], Cut),
        (&[0, 0], Stopped),
        (&[0, 65], Stopped),
        (&[0, 255], Stopped),
        (&[12, 0], Stopped),
        (&[12, 65, 1], Stopped),
        (&[12, 65, 1, 0], Stopped),
        (&[12, 1, 0, 0], Stopped),
        (&[12, 1, 233, 3], Stopped),
        (&[1], Stopped),
        (&[11], Stopped),
        (&[13], Stopped),
    ] {
        let mut run = Run::new();
        let report = run.replay(bytes);
        let nothing = Report {
            answer: 0,
            ending,
            place: 0,
            cpus: 0,
            full_slice: 0,
            moves: 0,
            refused: 0,
        };
        assert_eq!(report, nothing, "{bytes:?}");
        assert_eq!(run.t, Tables::blank(64, 0));
        assert_eq!(run.times, [0; 64]);
    }
}

/// "An unknown kind (a later 0 is one) [...] stops the replay with the place of that record's first byte, and goes before
/// 'cut'."; "a later 12 [...] stops the replay".
#[test]
fn an_unknown_kind_stops_where_it_begins() {
    for kind in [0, 12, 13, 14, 200, 255] {
        assert_eq!(end(&[0, 1, kind]), (Stopped, 2, 1));
        assert_eq!(end(&[&ONE[..], &[kind, 1, 2]].concat()), (Stopped, 26, 1));
    }
    for kind in 1..=11 {
        assert_eq!(end(&[0, 1, kind]), (Cut, 2, 1));
    }
}

/// "Body lengths: add 16 [...]; remove, wake, sleep 6; priority 7; mask 14; tick and yield 5; ordinary work 6"; of kinds 10 and
/// 11 "their replay bodies are 5 bytes".
#[test]
fn bodies_have_their_lengths() {
    for (kind, body) in (1..).zip([16, 6, 6, 6, 7, 14, 5, 5, 6, 5, 5]) {
        let bytes = [vec![0, 1, kind], vec![0; body]].concat();
        assert_eq!(end(&bytes), (Whole, 3 + body, 1));
        assert_eq!(end(&bytes[..2 + body]), (Cut, 2, 1));
    }
}

/// "A recording cut at any byte gives what its whole records give, and says 'cut' unless the cut falls between records".
#[test]
fn a_cut_recording_gives_what_its_whole_records_give() {
    let whole = [&ONE[..], &tick(300, 0), &tick(500, 0)].concat();
    let ends = [2, 19, 26, 32, 38];
    for length in 2..=whole.len() {
        let place = *ends.iter().rfind(|&&end| end <= length).unwrap();
        let ending = if place == length { Whole } else { Cut };
        let (mut cut, mut before) = (Run::new(), Run::new());
        let report = cut.replay(&whole[..length]);
        let full = before.replay(&whole[..place]);
        assert_eq!(report, Report { ending, ..full });
        assert_eq!((&cut.t, &cut.times), (&before.t, &before.times));
    }
}

/// The event's numbers: task 258, RR, priority 99, mask of CPUs 0 and 63.
#[test]
fn numbers_are_low_byte_first() {
    let mut run = Run::new();
    run.replay(&[
        0, 64, // N
        1, 0, 0, 0, 0, 2, 1, 2, 99, 1, 0, 0, 0, 0, 0, 0, 128, // add
    ]);
    assert_eq!((run.t.state[258], run.t.policy[258]), (1, 2));
    assert_eq!((run.t.prio[258], run.t.slice[258]), (99, 100));
    assert_eq!(run.t.mask[258], 1 << 63 | 1);
}

/// "Stamps are 32 bits and run past the end to zero; the time between records is their difference modulo 2^32." It goes to a
/// CPU with a task before the event that ends it.
#[test]
fn times_are_differences() {
    let ticks = |stamps: &[u32]| {
        let ticks = stamps.iter().flat_map(|&stamp| tick(stamp, 0));
        times(&ONE.into_iter().chain(ticks).collect::<Vec<u8>>())
    };
    assert_eq!(ticks(&[]), [0]);
    assert_eq!(ticks(&[1000]), [1000]);
    assert_eq!(ticks(&[1000, 1000]), [1000]);
    assert_eq!(ticks(&[1000, 999]), [1000 + u64::from(u32::MAX)]);
    assert_eq!(ticks(&[u32::MAX, 0]), [1 << 32]);
    assert_eq!(ticks(&[0x0102_0304]), [0x0102_0304]);
    let far = 1 << 31;
    assert_eq!(ticks(&[far, 0, far, 0]), [1 << 33]);
}

/// The time until the first wake is nobody's, nor is that after a sleep; the sleep ends a time that counts.
#[test]
fn a_cpu_without_a_task_has_no_time() {
    let mut late = ONE;
    late[20] = 10; // The wake is at 10.
    let bytes = [&late[..], &[4, 30, 0, 0, 0, 0, 0], &tick(70, 0)].concat();
    assert_eq!(times(&bytes), [20]);
}

/// "the time it had a real-time task": ordinary work is none, and an offline CPU has none.
#[test]
fn ordinary_work_and_offline_cpus_have_no_time() {
    let ordinary = [9, 0, 0, 0, 0, 1, 1];
    let offline = [10, 0, 0, 0, 0, 2];
    let bytes = [&[0, 3], &ONE[2..], &ordinary, &offline, &tick(50, 0)].concat();
    assert_eq!(times(&bytes), [50, 0, 0]);
}

/// "Refused events are counted and skipped; their stamps count."
#[test]
fn refused_events_count() {
    let bytes = [&ONE[..], &tick(40, 1), &tick(30, 0), &tick(35, 255)].concat();
    let mut run = Run::new();
    let report = run.replay(&bytes);
    assert_eq!((report.refused, report.ending), (2, Whole));
    assert_eq!(run.times[0], 40 + (1 << 32) - 10 + 5);
}

/// "rows, counts and flags beyond the recording's N stay as they were"; the machine is the one that the events make.
#[test]
fn the_machine_is_in_the_first_rows() {
    let mut run = Run::new();
    let bytes = [&[0, 2], &ONE[2..], &[9, 0, 0, 0, 0, 1, 1]].concat();
    run.replay(&bytes);
    assert_eq!((run.row(0), run.row(1)), (&[0][..], &[][..]));
    assert_eq!(run.t.flags[..3], [0, 1, 7]);
    assert!(run.t.rows[1024..].iter().all(|&place| place == 7));
    assert!(run.t.counts[2..].iter().all(|&count| count == 7));
    let mut by_events = Tables::blank(2, 100);
    make_fresh(&mut by_events, Mutant::None);
    for (kind, who, b, mask) in [(1, 0, 50, 1), (3, 0, 0, 0), (9, 1, 1, 0)] {
        let a = 1;
        let e = Event {
            kind,
            who,
            a,
            b,
            mask,
        };
        assert_eq!(event(&mut by_events, e, Mutant::None).answer, 0);
    }
    run.t.n = 2;
    run.t.full_slice = 100;
    run.t.rows.truncate(1024);
    run.t.counts.truncate(2);
    run.t.flags.truncate(2);
    assert_eq!(run.t, by_events);
    assert_eq!(check(&run.t, Mutant::None), 0);
}

/// "the total of moves": K2, in which one task moves, and twice more by new masks.
#[test]
fn moves_are_added_up() {
    let mut run = Run::new();
    let report = run.replay(&[
        0, 2, // N
        1, 0, 0, 0, 0, 0, 0, 1, 50, 3, 0, 0, 0, 0, 0, 0, 0, // add 0
        1, 0, 0, 0, 0, 1, 0, 1, 40, 3, 0, 0, 0, 0, 0, 0, 0, // add 1
        3, 0, 0, 0, 0, 1, 0, // wake 1
        3, 0, 0, 0, 0, 0, 0, // wake 0: task 1 moves to CPU 1
        6, 0, 0, 0, 0, 0, 0, 2, 0, 0, 0, 0, 0, 0, 0, // task 0 to CPU 1: task 1 moves to CPU 0
        6, 0, 0, 0, 0, 0, 0, 1, 0, 0, 0, 0, 0, 0, 0, // and back
    ]);
    assert_eq!((report.moves, report.refused), (3, 0));
    assert_eq!((run.row(0), run.row(1)), (&[0][..], &[1][..]));
}

/// "At most 65,536 records, the first included"; "any byte after record 65,536 (the start of one too many) stops the replay".
#[test]
fn one_record_too_many_stops() {
    let ticks = |many: usize| [vec![0, 1], tick(0, 9).repeat(many)].concat();
    let full = ticks(65_535);
    let place = full.len();
    assert_eq!(end(&full), (Whole, place, 1));
    for more in [&[7][..], &[0], &[255], &tick(0, 0)] {
        assert_eq!(end(&[&full, more].concat()), (Stopped, place, 1));
    }
    assert_eq!(Run::new().replay(&ticks(65_536)).refused, 65_535);
    let fewer = [ticks(65_534), vec![7]].concat();
    assert_eq!(end(&fewer), (Cut, place - 6, 1));
}

/// "in tables lent for 64 CPUs (another length is refused with 1)"
#[test]
fn tables_of_another_length_are_refused() {
    let refused = Report {
        answer: 1,
        ending: Stopped,
        place: 0,
        cpus: 0,
        full_slice: 0,
        moves: 0,
        refused: 0,
    };
    let mut small = Run::new();
    small.t = Tables::blank(1, 100);
    assert_eq!(small.replay(&ONE), refused);
    assert_eq!((small.t, small.times), (Tables::blank(1, 100), vec![0; 64]));
    for len in [0, 63, 65] {
        let mut run = Run::new();
        run.times = vec![7; len];
        assert_eq!(run.replay(&ONE), refused);
        assert_eq!((run.t, run.times), (Tables::blank(64, 0), vec![0; len]));
    }
    let mut log = Run::new();
    log.t.log.pop();
    assert_eq!(log.replay(&[]), refused);
}
