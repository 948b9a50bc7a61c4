//! The check of demand 3 and of the log's levels passes K5's last event and fails each part when that part is spoiled; and so
//! with CPUs that go offline and come back.

use binding::{Event, Tables};
use compare::demand3::{check, Before};

const WAKE_3: Event = Event::new(3, 3, 0, 0, 0);

/// K5 up to the wake of task 3, what was before it, and the tables after: the log is (0,0,1,22), (1,1,2,12).
fn k5() -> (Before, Tables) {
    let mut t = Tables::fresh(3).expect("3 CPUs");
    for (who, prio, mask) in [(0, 30, 3), (1, 20, 6), (2, 10, 4), (3, 40, 1)] {
        assert_eq!(t.event(Event::new(1, who, 1, prio, mask)).answer, 0);
    }
    for who in 0..3 {
        assert_eq!(t.event(Event::new(3, who, 0, 0, 0)).answer, 0);
    }
    let before = Before::of(&t);
    assert_eq!(t.event(WAKE_3).moves, 2);
    (before, t)
}

/// What the check says of K5's tables after `spoil`.
fn says(moves: u32, spoil: impl FnOnce(&mut Tables)) -> String {
    let (before, mut t) = k5();
    spoil(&mut t);
    check(&before, WAKE_3, moves, &t).expect_err("spoiled")
}

#[test]
fn k5_passes() {
    let (before, t) = k5();
    assert_eq!(check(&before, WAKE_3, 2, &t), Ok(()));
}

#[test]
fn as_many_migrations_as_cpus() {
    assert!(says(3, |_| ()).contains("3 migrations"));
}

#[test]
fn a_count_that_is_not_the_log() {
    assert!(says(1, |_| ()).contains("without a log entry"));
    let wrong_to = says(2, |t| t.log[6] = 0);
    assert!(wrong_to.contains("not where the log says it went"));
    let wrong_from = says(2, |t| t.log[5] = 0);
    assert!(wrong_from.contains("not where the log says it waited"));
    assert!(says(2, |t| t.log[4] = 65535).contains("no move"));
}

#[test]
fn a_cpu_that_receives_two() {
    let twice = says(2, |t| {
        t.log[2] = 2;
        t.cpu[0] = 2;
    });
    assert!(twice.contains("receives two tasks: CPU 2"));
}

#[test]
fn a_task_that_moves_twice() {
    // Task 3 is the event's own, so where it waited is not known: only the double entry is wrong.
    let (before, mut t) = k5();
    t.log[..8].copy_from_slice(&[3, 1, 0, 0, 3, 0, 2, 0]);
    t.cpu[0] = 0;
    t.cpu[1] = 1;
    let said = check(&before, WAKE_3, 2, &t).expect_err("spoiled");
    assert!(said.contains("moves twice: task 3"), "{said}");
}

#[test]
fn a_priority_that_rises() {
    assert!(says(2, |t| t.prio[1] = 31).contains("rises after log entry 0"));
}

/// Among them the level after the move, and the origin's. Who ran on CPU 1 has moved on, and who ran on CPU 2 waits there.
#[test]
fn a_level_that_is_not_the_one_before_the_move() {
    for level in [0, 21, 23, 32, 42, 65535] {
        let said = says(2, |t| t.log[3] = level);
        let words = format!("log entry 0 gives level {level}, and CPU 1 was at 22");
        assert_eq!(said, words);
    }
    for level in [0, 11, 13, 22, 32, 65535] {
        let said = says(2, |t| t.log[7] = level);
        let words = format!("log entry 1 gives level {level}, and CPU 2 was at 12");
        assert_eq!(said, words);
    }
}

/// Of a CPU without a real-time task the flag is the level.
#[test]
fn a_level_without_a_task() {
    for flag in [0, 1] {
        let mut t = Tables::fresh(2).expect("2 CPUs");
        for e in [
            Event::new(9, 1, 0, flag, 0),
            Event::new(1, 0, 1, 50, 1),
            Event::new(1, 1, 1, 40, 3),
            Event::new(3, 0, 0, 0, 0),
        ] {
            assert_eq!(t.event(e).answer, 0);
        }
        let before = Before::of(&t);
        let wake = Event::new(3, 1, 0, 0, 0);
        assert_eq!(t.event(wake).moves, 1);
        assert_eq!(check(&before, wake, 1, &t), Ok(()));
        t.log[3] = 1 - flag as u16;
        let said = check(&before, wake, 1, &t).expect_err("spoiled");
        assert!(said.ends_with(&format!("CPU 1 was at {flag}")), "{said}");
    }
}

#[test]
fn a_waiter_that_outranks() {
    let lower = says(2, |t| {
        t.mask[2] = 5;
        t.prio[3] = 9;
    });
    assert_eq!(lower, "task 2 waits and outranks what runs on CPU 0");
    let empty = says(2, |t| {
        t.mask[2] = 5;
        t.state[3] = 1;
        t.counts[0] = 0;
    });
    assert_eq!(empty, "task 2 waits and outranks what runs on CPU 0");
}

#[test]
fn an_equal_does_not_outrank() {
    let (before, mut t) = k5();
    t.mask[2] = 5;
    t.prio[3] = 10;
    assert_eq!(check(&before, WAKE_3, 2, &t), Ok(()));
}

#[test]
fn a_task_in_no_row_or_in_two() {
    assert!(says(2, |t| t.counts[0] = 0).contains("task 3 stands 0 times"));
    let twice = says(2, |t| {
        t.rows[1] = 2;
        t.counts[0] = 2;
    });
    assert!(twice.contains("task 2 stands 2 times"));
    assert!(says(2, |t| t.state[2] = 1).contains("task 2 stands 1 times"));
}

const OFFLINE_0: Event = Event::new(10, 0, 0, 0, 0);

/// A fresh machine after these events, each of which must be accepted.
fn after(cpus: usize, events: impl IntoIterator<Item = Event>) -> Tables {
    let mut t = Tables::fresh(cpus).expect("1 to 64 CPUs");
    for e in events {
        assert_eq!(t.event(e).answer, 0);
    }
    t
}

/// Three CPUs, tasks 0 (50, mask 3) and 1 (40, mask 6), and CPU 0 goes offline: task 0 leaves for CPU 1, and the log is
/// (1,1,2,0).
fn offline() -> (Before, Tables) {
    let mut t = after(
        3,
        [
            Event::new(1, 0, 1, 50, 3),
            Event::new(1, 1, 1, 40, 6),
            Event::new(3, 0, 0, 0, 0),
            Event::new(3, 1, 0, 0, 0),
        ],
    );
    let before = Before::of(&t);
    assert_eq!(t.event(OFFLINE_0).moves, 1);
    assert_eq!(check(&before, OFFLINE_0, 1, &t), Ok(()));
    (before, t)
}

/// "both by the online mask after the event's own effect"; a task that leaves needs no log entry, and goes to the
/// lowest-numbered CPU.
#[test]
fn a_cpu_that_goes_offline() {
    let says = |moves, spoil: fn(&mut Tables)| {
        let (before, mut t) = offline();
        spoil(&mut t);
        check(&before, OFFLINE_0, moves, &t).expect_err("spoiled")
    };
    assert_eq!(says(2, |_| ()), "2 migrations on 2 online CPUs");
    let online = says(1, |t| t.online = 7);
    assert_eq!(online, "the online mask is 0x7, and must be 0x6");
    let elsewhere = says(1, |t| t.cpu[0] = 2);
    assert_eq!(elsewhere, "task 0 moved without a log entry");
    let gone = says(1, |t| t.log[1] = 0);
    assert_eq!(gone, "log entry 0 has an offline CPU");
}

/// A task waits, and outranks what ran on CPU 1 alone: that is offline. Back, the task goes there.
#[test]
fn an_offline_cpu_is_not_outranked() {
    let mut t = after(
        2,
        [
            Event::new(10, 1, 0, 0, 0),
            Event::new(1, 0, 1, 50, 1),
            Event::new(1, 1, 1, 40, 3),
            Event::new(3, 0, 0, 0, 0),
        ],
    );
    let before = Before::of(&t);
    let wake = Event::new(3, 1, 0, 0, 0);
    assert_eq!(t.event(wake).moves, 0);
    assert_eq!(check(&before, wake, 0, &t), Ok(()));
    let (before, waits) = (Before::of(&t), t.clone());
    let back = Event::new(11, 1, 0, 0, 0);
    assert_eq!(t.event(back).moves, 1);
    assert_eq!(check(&before, back, 1, &t), Ok(()));
    let stays = Tables { online: 3, ..waits };
    let said = check(&before, back, 0, &stays).expect_err("spoiled");
    assert_eq!(said, "task 1 waits and outranks what runs on CPU 1");
}
