//! K1 to K12 of the paper on the reference alone, and the sentences of some requests. L2, "Say what was displaced": with it
//! "K2, K5, K8 follow (the fourth numbers are 0; 22 and 12; 0)", and so do the moves of K7 and K10, to idle CPUs. L3,
//! "Lowered priority goes in front": with it "K11 becomes [0,1]". L4, "The finder is slow". L7, "Shorter slice by default":
//! "K9 is run with 100 named", and so are the others here. L8, "Take a core out": K1 to K12 keep all CPUs online.

use reference::{check, event, find, make_fresh, make_fresh_default, Event, Made, Mutant, Tables};

const FIFO: u32 = 1;
const RR: u32 = 2;

struct Run {
    t: Tables,
    moves: u32,
}

impl Run {
    fn fresh(n: usize) -> Run {
        Run::fresh_with_slice(n, 100)
    }

    fn fresh_with_slice(n: usize, full_slice: u32) -> Run {
        let mut t = Tables::blank(n, full_slice);
        assert_eq!(make_fresh(&mut t, Mutant::None), made(full_slice));
        Run { t, moves: 0 }
    }

    fn fresh_default(n: usize) -> Run {
        let mut t = Tables::blank(n, 100);
        assert_eq!(make_fresh_default(&mut t, Mutant::None), made(25));
        Run { t, moves: 0 }
    }

    fn answer(&mut self, kind: u32, who: u32, a: u32, b: u32, mask: u64) -> u8 {
        let e = Event {
            kind,
            who,
            a,
            b,
            mask,
        };
        let outcome = event(&mut self.t, e, Mutant::None);
        assert_eq!(check(&self.t, Mutant::None), 0);
        self.moves = outcome.moves;
        outcome.answer
    }

    fn does(&mut self, kind: u32, who: u32, a: u32, b: u32, mask: u64) -> &mut Run {
        assert_eq!(self.answer(kind, who, a, b, mask), 0);
        self
    }

    fn add(&mut self, who: u32, prio: u32, mask: u64) -> &mut Run {
        self.does(1, who, FIFO, prio, mask)
    }

    fn add_rr(&mut self, who: u32, prio: u32, mask: u64) -> &mut Run {
        self.does(1, who, RR, prio, mask)
    }

    fn ticks(&mut self, times: usize) -> &mut Run {
        for _ in 0..times {
            self.does(7, 0, 0, 0, 0);
        }
        self
    }

    fn wake(&mut self, who: u32) -> &mut Run {
        self.does(3, who, 0, 0, 0)
    }

    fn prio(&mut self, who: u32, prio: u32) -> &mut Run {
        self.does(5, who, 0, prio, 0)
    }

    fn mask(&mut self, who: u32, mask: u64) -> &mut Run {
        self.does(6, who, 0, 0, mask)
    }

    fn ordinary(&mut self, cpu: u32, flag: u32) -> &mut Run {
        self.does(9, cpu, 0, flag, 0)
    }

    fn offline(&mut self, cpu: u32) -> &mut Run {
        self.does(10, cpu, 0, 0, 0)
    }

    fn online(&mut self, cpu: u32) -> &mut Run {
        self.does(11, cpu, 0, 0, 0)
    }

    /// "A refusal reports 0 moves and changes nothing."
    fn refuses(&mut self, kind: u32, who: u32, mask: u64, number: u8) -> &mut Run {
        let before = self.t.clone();
        assert_eq!(self.answer(kind, who, 1, 1, mask), number);
        assert_eq!((self.moves, &self.t), (0, &before));
        self
    }

    fn rows(&self) -> Vec<Vec<u16>> {
        let row = |c: usize| self.t.rows[512 * c..512 * c + self.t.counts[c] as usize].to_vec();
        (0..self.t.n).map(row).collect()
    }

    /// "63 entries of four": those of the last event.
    fn log(&self) -> &[u16] {
        &self.t.log[..4 * self.moves as usize]
    }
}

/// A maker that accepts hands back the full slice.
fn made(full_slice: u32) -> Made {
    Made {
        answer: 0,
        full_slice,
    }
}

/// "0 on a refusal"
const REFUSED: Made = Made {
    answer: 1,
    full_slice: 0,
};

fn k2() -> Run {
    let mut run = Run::fresh(2);
    run.add(0, 50, 3).add(1, 40, 3).wake(1).wake(0);
    run
}

fn k3() -> Run {
    let mut run = k2();
    run.add(2, 40, 3).wake(2);
    run
}

fn k5() -> Run {
    let mut run = Run::fresh(3);
    run.add(0, 30, 3).add(1, 20, 6).add(2, 10, 4).add(3, 40, 1);
    run.wake(0).wake(1).wake(2);
    assert_eq!(run.moves, 0);
    assert_eq!(run.rows(), [[0], [1], [2]]);
    run.wake(3);
    run
}

#[test]
fn k1_one_task_runs() {
    let mut run = Run::fresh(1);
    run.add(0, 50, 1).wake(0);
    assert_eq!(run.rows(), [[0]]);
    assert_eq!(run.t.levels[0], 52);
    assert_eq!(run.moves, 0);
}

#[test]
fn k2_the_lower_moves_away() {
    let run = k2();
    assert_eq!(run.log(), [1, 0, 1, 0]);
    assert_eq!(run.rows(), [[0], [1]]);
    assert_eq!(run.t.levels[..2], [52, 42]);
}

#[test]
fn k3_equal_does_not_outrank() {
    let run = k3();
    assert_eq!(run.rows(), [vec![0, 2], vec![1]]);
    assert_eq!(run.moves, 0);
}

#[test]
fn k4_the_waiter_runs_after_a_sleep() {
    let mut run = k3();
    run.does(4, 0, 0, 0, 0);
    assert_eq!(run.rows(), [[2], [1]]);
    assert_eq!(run.moves, 0);
}

#[test]
fn k5_a_chain_of_two() {
    let run = k5();
    assert_eq!(run.moves, 2);
    assert_eq!(run.log(), [0, 0, 1, 22, 1, 1, 2, 12]);
    assert_eq!(run.rows(), [vec![3], vec![0], vec![1, 2]]);
    assert_eq!(run.t.counts, [1, 1, 2]);
    assert_eq!(run.t.levels[..3], [42, 32, 22]);
    assert_eq!(run.t.cpu[..4], [1, 2, 2, 0]);
}

#[test]
fn k6_running_tasks_stay() {
    let mut run = k5();
    run.does(4, 3, 0, 0, 0);
    assert_eq!(run.moves, 0);
    assert_eq!(run.t.levels[0], 0);
    assert_eq!(run.rows(), [vec![], vec![0], vec![1, 2]]);
}

#[test]
fn k7_past_a_pinned_waiter() {
    let mut run = Run::fresh(2);
    run.add(0, 60, 1).add(1, 50, 1).add(2, 40, 3);
    run.wake(0).wake(1).wake(2);
    assert_eq!(run.log(), [2, 0, 1, 0]);
    assert_eq!(run.rows(), [vec![0, 1], vec![2]]);
}

#[test]
fn k8_a_mask_without_the_cpu() {
    let mut run = k2();
    run.does(6, 0, 0, 0, 2);
    assert_eq!(run.rows(), [[1], [0]]);
    assert_eq!(run.log(), [1, 1, 0, 0]);
}

#[test]
fn k9_a_slice_ends() {
    let mut run = Run::fresh_with_slice(1, 100);
    run.add_rr(0, 20, 1).add_rr(1, 20, 1);
    run.wake(0).wake(1);
    run.ticks(99);
    assert_eq!(run.t.slice[0], 1);
    assert_eq!(run.rows(), [[0, 1]]);
    run.ticks(1);
    assert_eq!(run.rows(), [[1, 0]]);
    assert_eq!(run.t.slice[0], 100);
}

#[test]
fn k10_idle_before_ordinary() {
    let mut run = Run::fresh(3);
    run.does(9, 1, 0, 1, 0).add(0, 50, 7).add(1, 40, 7);
    run.wake(0).wake(1);
    assert_eq!(run.log(), [1, 0, 2, 0]);
    assert_eq!(run.rows(), [vec![0], vec![], vec![1]]);
    assert_eq!(run.t.levels[..3], [52, 1, 42]);
}

#[test]
fn k11_lowered_to_an_equal() {
    let mut run = Run::fresh(1);
    run.add(0, 50, 1).add(1, 30, 1).wake(0).wake(1);
    assert_eq!(run.rows(), [[0, 1]]);
    run.prio(0, 30);
    assert_eq!(run.rows(), [[0, 1]]);
}

#[test]
fn k12_refusals() {
    for n in [0, 65] {
        let mut t = Tables::blank(n, 100);
        let before = t.clone();
        assert_eq!(make_fresh(&mut t, Mutant::None), REFUSED);
        assert_eq!(make_fresh_default(&mut t, Mutant::None), REFUSED);
        assert_eq!(t, before);
    }
    let mut run = Run::fresh(2);
    assert_eq!(run.answer(1, 512, FIFO, 50, 3), 4);
    assert_eq!(run.answer(1, 511, FIFO, 0, 3), 7);
    assert_eq!(run.answer(1, 511, FIFO, 100, 3), 7);
    assert_eq!(run.answer(1, 511, FIFO, 1, 0), 8);
    assert_eq!(run.answer(1, 511, FIFO, 1, 4), 8);
    assert_eq!(run.answer(8, 1, 0, 0, 0), 9);
    run.add(511, 1, 3).wake(511);
    assert_eq!(run.answer(3, 511, 0, 0, 0), 5);
    let mut widest = Run::fresh(64);
    widest.add(511, 99, 1 << 63).wake(511);
    assert_eq!(widest.t.levels[63], 101);
}

#[test]
fn the_finder_answers_the_lowest_level_below() {
    let run = k5();
    let ask = |level, mask| {
        let found = find(&run.t, level, mask, Mutant::None);
        (found.answer, found.level, found.mask)
    };
    assert_eq!(ask(101, 7), (0, 22, 4));
    assert_eq!(ask(101, 3), (0, 32, 2));
    assert_eq!(ask(22, 7), (0, 255, 0));
    assert_eq!(ask(102, 7), (7, 255, 0));
    assert_eq!(ask(101, 8), (8, 255, 0));
    assert_eq!(ask(101, 0), (8, 255, 0));
}

/// "Each log entry shall also give the level of the destination before the move": 1 is ordinary work.
#[test]
fn l2_over_ordinary_work() {
    let mut run = Run::fresh(2);
    run.does(9, 1, 0, 1, 0).add(0, 50, 3).add(1, 40, 3);
    run.wake(0).wake(1);
    assert_eq!(run.log(), [1, 0, 1, 1]);
}

/// "the level of the destination before the move", not before the event: task 3, which goes to sleep, held CPU 1 at
/// level 47, and task 2 is left there.
#[test]
fn l2_the_event_comes_before_the_move() {
    let mut run = Run::fresh(2);
    run.add(0, 50, 1).add(1, 40, 3).add(2, 30, 2).add(3, 45, 2);
    run.wake(0).wake(3).wake(2).wake(1);
    assert_eq!(run.moves, 0);
    assert_eq!(run.t.levels[..2], [52, 47]);
    run.does(4, 3, 0, 0, 0);
    assert_eq!(run.log(), [1, 0, 1, 32]);
    assert_eq!(run.t.levels[..2], [52, 42]);
}

/// "The log becomes 252 numbers, 63 entries of four": task c runs on CPU c and may use the next one too, and the highest
/// of all takes CPU 0.
#[test]
fn l2_the_longest_log() {
    let mut run = Run::fresh(64);
    for c in 0..64 {
        run.add(c, 95 - c, 3 << c).wake(c);
    }
    run.add(511, 99, 1).wake(511);
    assert_eq!(run.moves, 63);
    let entries = (0..63).flat_map(|c| [c, c, c + 1, 95 - (c + 1) + 2]);
    assert_eq!(run.t.log, entries.collect::<Vec<u16>>());
}

/// "every log number is set to 65535", "log entries from that number on stay as they were"
#[test]
fn l2_entries_from_the_count_on_stay() {
    let mut run = k5();
    let rest = vec![65535; 252 - 8];
    assert_eq!(run.t.log, [run.log(), &rest].concat());
    let before = run.t.log.clone();
    run.does(4, 3, 0, 0, 0);
    assert_eq!(run.moves, 0);
    assert_eq!(run.t.log, before);
    run.add(4, 50, 2).wake(4);
    assert_eq!(run.log(), [0, 1, 0, 0]);
    assert_eq!(run.t.log[4..], before[4..]);
}

/// "The log becomes 252 numbers [...] and refusal 1 [...] follow"
#[test]
fn l2_a_log_of_another_length() {
    let good = k2().t;
    assert_eq!(good.log.len(), 252);
    for length in [0, 63, 188, 189, 190, 251, 253, 504] {
        let mut t = good.clone();
        t.log.resize(length, 0);
        let before = t.clone();
        let sleep = Event {
            kind: 4,
            who: 0,
            a: 0,
            b: 0,
            mask: 0,
        };
        let outcome = event(&mut t, sleep, Mutant::None);
        assert_eq!((outcome.answer, outcome.moves), (1, 0), "{length}");
        assert_eq!(check(&t, Mutant::None), 1, "{length}");
        assert_eq!(make_fresh(&mut t, Mutant::None), REFUSED, "{length}");
        assert_eq!(
            make_fresh_default(&mut t, Mutant::None),
            REFUSED,
            "{length}"
        );
        assert_eq!(t, before, "{length}");
    }
}

/// One CPU, and tasks of these priorities, woken from the highest on: they stand in number order.
fn one_row(prios: &[u32]) -> Run {
    let mut run = Run::fresh(1);
    for (who, &prio) in (0..).zip(prios) {
        run.add(who, prio, 1).wake(who);
    }
    assert_eq!(run.rows(), [(0..prios.len() as u16).collect::<Vec<u16>>()]);
    run
}

/// "lowered, it goes before its equals": it keeps running, at its new level.
#[test]
fn l3_lowered_to_its_followers() {
    let mut run = one_row(&[50, 30, 30]);
    run.prio(0, 30);
    assert_eq!(run.rows(), [[0, 1, 2]]);
    assert_eq!((run.t.levels[0], run.moves), (32, 0));
}

/// "behind every higher priority and before all others of the new one"
#[test]
fn l3_lowered_below_a_follower() {
    let mut run = one_row(&[50, 40, 30]);
    run.prio(0, 30);
    assert_eq!(run.rows(), [[1, 0, 2]]);
    assert_eq!((run.t.levels[0], run.moves), (42, 0));
}

/// The same while it waits: behind 60 and 40, before both of 30.
#[test]
fn l3_lowered_while_it_waits() {
    let mut run = one_row(&[60, 50, 40, 30, 30]);
    run.prio(1, 30);
    assert_eq!(run.rows(), [[0, 2, 1, 3, 4]]);
    assert_eq!((run.t.levels[0], run.moves), (62, 0));
}

/// From among its equals, to a priority that nobody has and to the lowest: it goes as far back as it must.
#[test]
fn l3_lowered_from_among_equals() {
    let mut run = one_row(&[50, 50, 50, 30, 20]);
    run.prio(1, 40);
    assert_eq!(run.rows(), [[0, 2, 1, 3, 4]]);
    run.prio(0, 10);
    assert_eq!(run.rows(), [[2, 1, 3, 4, 0]]);
}

/// "raised, it goes behind its equals": past a lower one, where it stands already, and to the front.
#[test]
fn l3_raised_goes_behind_its_equals() {
    let mut run = one_row(&[50, 50, 30, 20]);
    run.prio(3, 50);
    assert_eq!(run.rows(), [[0, 1, 3, 2]]);
    run.prio(2, 50);
    assert_eq!(run.rows(), [[0, 1, 3, 2]]);
    run.prio(1, 60);
    assert_eq!(run.rows(), [[1, 0, 3, 2]]);
    assert_eq!(run.t.levels[0], 62);
}

/// "unchanged, it stays": the first, one between and the last.
#[test]
fn l3_unchanged_stays() {
    let mut run = one_row(&[30, 30, 30]);
    let before = run.t.clone();
    for who in 0..3 {
        run.prio(who, 30);
        assert_eq!((&run.t, run.moves), (&before, 0));
    }
}

/// Task 2 holds CPU 1 at level 62 and is lowered to 30. CPU 1 is then at 32, and task 1, which waits on CPU 0 at level 42,
/// goes there.
#[test]
fn l3_another_moves_then() {
    let mut run = Run::fresh(2);
    run.add(0, 50, 1).add(1, 40, 3).add(2, 60, 2);
    run.wake(0).wake(2).wake(1);
    assert_eq!(run.rows(), [vec![0, 1], vec![2]]);
    run.prio(2, 30);
    assert_eq!(run.log(), [1, 0, 1, 32]);
    assert_eq!(run.rows(), [vec![0], vec![1, 2]]);
    assert_eq!(run.t.levels[..2], [52, 42]);
}

/// Task 0 may use the idle CPU 1. Lowered to 30 it runs before its equal, and who runs is not moved; lowered to 20 it
/// waits behind task 1, and goes there.
#[test]
fn l3_it_moves_itself_if_it_waits_then() {
    let mut run = Run::fresh(2);
    run.add(0, 50, 3).add(1, 30, 1).wake(0).wake(1);
    run.prio(0, 30);
    assert_eq!(run.moves, 0);
    assert_eq!(run.rows(), [vec![0, 1], vec![]]);
    run.prio(0, 20);
    assert_eq!(run.log(), [0, 0, 1, 0]);
    assert_eq!(run.rows(), [[1], [0]]);
    assert_eq!(run.t.levels[..2], [32, 22]);
}

/// "asleep: the number only": it then wakes as any other, behind its equals.
#[test]
fn l3_a_sleeper_is_lowered() {
    let mut run = Run::fresh(1);
    run.add(0, 30, 1).add(1, 50, 1).add(2, 20, 1);
    run.wake(0).wake(2);
    let mut expected = run.t.clone();
    expected.prio[1] = 30;
    run.prio(1, 30);
    assert_eq!((&run.t, run.moves), (&expected, 0));
    run.wake(1);
    assert_eq!(run.rows(), [[0, 1, 2]]);
}

/// A machine whose CPUs are at these levels, not 2. Tasks are pinned, and c is the task of CPU c.
fn at_levels(levels: &[u8]) -> Run {
    let mut run = Run::fresh(levels.len());
    for (cpu, &level) in (0..).zip(levels) {
        match level {
            0 => &mut run,
            1 => run.ordinary(cpu, 1),
            255 => run.offline(cpu),
            _ => run.add(cpu, u32::from(level) - 2, 1 << cpu).wake(cpu),
        };
    }
    assert_eq!(run.t.levels[..levels.len()], *levels);
    run
}

/// Level, mask and masks read, of a question that is not refused.
fn found(run: &Run, level: u32, mask: u64) -> (u8, u64, u32) {
    let found = find(&run.t, level, mask, Mutant::None);
    assert_eq!(found.answer, 0);
    (found.level, found.mask, found.masks_read)
}

/// "one for each level with a CPU below the asked one, up to the answered one", which is one of them.
#[test]
fn l4_up_to_the_answered_level() {
    let run = at_levels(&[0, 5, 7]);
    assert_eq!(found(&run, 8, 7), (0, 1, 1));
    assert_eq!(found(&run, 8, 6), (5, 2, 2));
    assert_eq!(found(&run, 8, 4), (7, 4, 3));
    assert_eq!(found(&run, 101, 4), (7, 4, 3));
    assert_eq!(found(&run, 6, 6), (5, 2, 2));
    assert_eq!(found(&run, 1, 7), (0, 1, 1));
}

/// "all of them on none": below the asked one, which is itself none of them.
#[test]
fn l4_all_of_them_on_none() {
    let run = at_levels(&[0, 5, 7, 101]);
    assert_eq!(found(&run, 101, 8), (255, 0, 3));
    assert_eq!(found(&run, 8, 8), (255, 0, 3));
    assert_eq!(found(&run, 7, 12), (255, 0, 2));
    assert_eq!(found(&run, 6, 12), (255, 0, 2));
    assert_eq!(found(&run, 5, 14), (255, 0, 1));
    assert_eq!(found(&run, 1, 14), (255, 0, 1));
    assert_eq!(found(&run, 0, 15), (255, 0, 0));
    let busy = at_levels(&[101, 101]);
    assert_eq!(found(&busy, 101, 3), (255, 0, 0));
}

/// "one for each level": not one for each CPU, nor for each level without one.
#[test]
fn l4_levels_and_not_cpus() {
    let run = at_levels(&[0, 1, 0, 52, 1, 0]);
    assert_eq!(found(&run, 101, 63), (0, 37, 1));
    assert_eq!(found(&run, 101, 4), (0, 4, 1));
    assert_eq!(found(&run, 101, 26), (1, 18, 2));
    assert_eq!(found(&run, 101, 8), (52, 8, 3));
    let idle = Run::fresh(64);
    assert_eq!(found(&idle, 101, u64::MAX), (0, u64::MAX, 1));
}

/// "the two words of level bits": levels about 64, and one word without a bit.
#[test]
fn l4_both_words() {
    let run = at_levels(&[1, 63, 64, 65, 101]);
    for (cpu, level, masks_read) in [(0, 1, 1), (1, 63, 2), (2, 64, 3), (3, 65, 4)] {
        let alone = 1 << cpu;
        assert_eq!(found(&run, 101, alone), (level, alone, masks_read));
        let just_above = u32::from(level) + 1;
        assert_eq!(found(&run, just_above, alone), (level, alone, masks_read));
        let itself = u32::from(level);
        assert_eq!(found(&run, itself, alone), (255, 0, masks_read - 1));
    }
    assert_eq!(found(&run, 101, 16), (255, 0, 4));
    let high = at_levels(&[64, 101, 70]);
    assert_eq!(found(&high, 64, 7), (255, 0, 0));
    assert_eq!(found(&high, 65, 6), (255, 0, 1));
    assert_eq!(found(&high, 101, 6), (70, 4, 2));
    let low = at_levels(&[63, 3]);
    assert_eq!(found(&low, 101, 1), (63, 1, 2));
}

/// 64 CPUs at as many levels: no search reads more.
#[test]
fn l4_as_many_levels_as_cpus() {
    let levels: Vec<u8> = (37..=100).collect();
    let run = at_levels(&levels);
    for (cpu, &level) in levels.iter().enumerate() {
        let masks_read = cpu as u32 + 1;
        assert_eq!(found(&run, 101, 1 << cpu), (level, 1 << cpu, masks_read));
    }
    assert_eq!(found(&run, 100, 1 << 63), (255, 0, 63));
}

/// A CPU at INVALID is at no level.
#[test]
fn l4_offline_cpus_have_no_mask() {
    let run = at_levels(&[255, 52, 255]);
    assert_eq!(found(&run, 101, 7), (52, 2, 1));
    assert_eq!(found(&run, 101, 5), (255, 0, 1));
    assert_eq!(found(&run, 52, 7), (255, 0, 0));
}

/// "0 on a refusal", whatever the record holds.
#[test]
fn l4_a_refusal_has_read_none() {
    let good = at_levels(&[0, 5, 7]).t;
    let refuses = |t: &Tables, level, mask, answer| {
        let found = find(t, level, mask, Mutant::None);
        let numbers = (found.answer, found.level, found.mask, found.masks_read);
        assert_eq!(numbers, (answer, 255, 0, 0));
    };
    refuses(&good, 102, 7, 7);
    refuses(&good, u32::MAX, 0, 7);
    refuses(&good, 101, 0, 8);
    refuses(&good, 101, 15, 8);
    for n in [0, 65] {
        let t = Tables { n, ..good.clone() };
        refuses(&t, 101, 7, 1);
    }
    let mut longer = good.clone();
    longer.levels.push(255);
    refuses(&longer, 101, 7, 1);
    let mut damaged = good.clone();
    damaged.level_words[0] |= 1 << 6;
    refuses(&damaged, 101, 7, 2);
    refuses(&damaged, 102, 0, 2);
}

/// "kinds 1 and 7 use that number": two equal RR tasks with each full slice, and the tick that ends the first one's.
#[test]
fn l7_a_slice_lasts_as_long_as_named() {
    for full_slice in [1, 2, 3, 25, 100, 999, 1000] {
        let mut run = Run::fresh_with_slice(1, full_slice);
        run.add_rr(0, 20, 1).add_rr(1, 20, 1).wake(0).wake(1);
        let left = |run: &Run| [run.t.slice[0], run.t.slice[1]].map(u32::from);
        assert_eq!(left(&run), [full_slice; 2]);
        run.ticks(full_slice as usize - 1);
        assert_eq!(left(&run), [1, full_slice]);
        assert_eq!(run.rows(), [[0, 1]]);
        run.ticks(1);
        assert_eq!(left(&run), [full_slice; 2]);
        assert_eq!(run.rows(), [[1, 0]]);
    }
}

/// "25 by a second maker told none"
#[test]
fn l7_the_second_maker_gives_25() {
    let mut run = Run::fresh_default(2);
    run.add(0, 50, 1).add_rr(1, 40, 2);
    assert_eq!(run.t.slice[..2], [25, 25]);
    run.wake(1).does(7, 1, 0, 0, 0);
    assert_eq!(run.t.slice[1], 24);
}

/// With a full slice of 1 every tick of an RR task puts it behind its equals, and a FIFO task stays.
#[test]
fn l7_a_slice_of_one_tick() {
    let mut run = Run::fresh_with_slice(1, 1);
    run.add_rr(0, 20, 1).add_rr(1, 20, 1).add(2, 20, 1);
    run.wake(0).wake(1).wake(2);
    assert_eq!(run.rows(), [[0, 1, 2]]);
    run.ticks(1);
    assert_eq!(run.rows(), [[1, 2, 0]]);
    run.ticks(1);
    assert_eq!(run.rows(), [[2, 0, 1]]);
    run.ticks(3);
    assert_eq!(run.rows(), [[2, 0, 1]]);
    assert_eq!(run.t.slice[..3], [1, 1, 1]);
}

/// "one out of range is refused with 1", by each entry that is handed it; the finder is not.
#[test]
fn l7_a_full_slice_out_of_range() {
    let good = k2().t;
    let sleep = Event {
        kind: 4,
        who: 0,
        a: 0,
        b: 0,
        mask: 0,
    };
    for full_slice in [0, 1001, 65535, 65536, 65536 + 25, u32::MAX] {
        let mut t = good.clone();
        t.full_slice = full_slice;
        let before = t.clone();
        assert_eq!(check(&t, Mutant::None), 1, "{full_slice}");
        let outcome = event(&mut t, sleep, Mutant::None);
        assert_eq!((outcome.answer, outcome.moves), (1, 0), "{full_slice}");
        assert_eq!(make_fresh(&mut t, Mutant::None), REFUSED, "{full_slice}");
        assert_eq!(find(&t, 101, 3, Mutant::None).answer, 0, "{full_slice}");
        assert_eq!(t, before, "{full_slice}");
        assert_eq!(make_fresh_default(&mut t, Mutant::None), made(25));
        assert_eq!(t.full_slice, 25);
    }
}

/// The same machine with 60 in its column. "W2 [...] use that number": a good number is good for it if it is no less.
#[test]
fn l7_another_number_for_the_same_tables() {
    let mut run = Run::fresh_with_slice(1, 60);
    run.add(0, 50, 1);
    assert_eq!(run.t.slice[0], 60);
    for (full_slice, answer) in [
        (1, 2),
        (50, 2),
        (59, 2),
        (60, 0),
        (61, 0),
        (100, 0),
        (1000, 0),
        (1001, 1),
    ] {
        run.t.full_slice = full_slice;
        assert_eq!(check(&run.t, Mutant::None), answer, "{full_slice}");
    }
}

/// The number is "handed in with each event": a task keeps what it has until it is added or its slice ends.
#[test]
fn l7_a_longer_slice_from_an_event_on() {
    let mut run = Run::fresh_with_slice(1, 2);
    run.add_rr(0, 20, 1).wake(0).ticks(1);
    run.t.full_slice = 40;
    run.add_rr(1, 20, 1).wake(1);
    assert_eq!(run.t.slice[..2], [1, 40]);
    run.ticks(1);
    assert_eq!(run.t.slice[..2], [40, 40]);
    assert_eq!(run.rows(), [[1, 0]]);
    run.t.full_slice = 2;
    assert_eq!(check(&run.t, Mutant::None), 2);
}

/// "its tasks leave front to back, each entering the lowest-numbered allowed online CPU"; "An offline CPU has an empty row and
/// level INVALID." Back, it is idle, and the highest that waits goes to it.
#[test]
fn l8_running_and_waiting_tasks_leave() {
    let mut run = Run::fresh(2);
    assert_eq!(run.t.online, 3);
    run.add(0, 50, 3).add(1, 40, 3).add(2, 30, 3);
    run.wake(0).wake(1).wake(2);
    assert_eq!(run.rows(), [vec![0, 2], vec![1]]);
    run.offline(0);
    assert_eq!(run.rows(), [vec![], vec![0, 1, 2]]);
    assert_eq!((run.t.online, run.moves), (2, 0));
    assert_eq!(run.t.levels[..2], [255, 52]);
    assert_eq!(run.t.cpu[..3], [1, 1, 1]);
    assert!(run.t.level_masks.iter().all(|mask| mask & 1 == 0));
    assert_eq!(run.t.level_counts.iter().sum::<u8>(), 1);
    run.online(0);
    assert_eq!(run.log(), [1, 1, 0, 0]);
    assert_eq!(run.rows(), [vec![1], vec![0, 2]]);
    assert_eq!(run.t.online, 3);
    assert_eq!(run.t.levels[..2], [42, 52]);
}

/// Each enters "behind every task of the same or a higher priority", so front to back keeps the order among equals.
#[test]
fn l8_equals_keep_their_order() {
    let mut run = Run::fresh(2);
    run.add(0, 40, 3).add(1, 40, 3).add(2, 40, 2);
    run.wake(2).wake(0).wake(1);
    assert_eq!(run.rows(), [vec![0, 1], vec![2]]);
    run.offline(0);
    assert_eq!(run.rows(), [vec![], vec![2, 0, 1]]);
}

/// Three masks, each with another lowest-numbered CPU beside the one that goes; the CPUs there run higher tasks.
#[test]
fn l8_each_by_its_mask() {
    let mut run = Run::fresh(4);
    run.add(10, 90, 1).add(11, 90, 4).add(12, 90, 8);
    run.wake(10).wake(11).wake(12);
    run.add(0, 60, 10).add(1, 50, 6).add(2, 40, 2);
    run.wake(0).wake(1).wake(2).mask(2, 3);
    assert_eq!(run.rows(), [vec![10], vec![0, 1, 2], vec![11], vec![12]]);
    run.offline(1);
    assert_eq!(run.rows(), [vec![10, 2], vec![], vec![11, 1], vec![12, 0]]);
    assert_eq!((run.moves, run.t.online), (0, 13));
    assert_eq!(run.t.levels[..4], [92, 255, 92, 92]);
    assert_eq!(run.t.cpu[..3], [3, 2, 0]);
}

/// "then migrations follow": task 0 displaces task 1, which goes to the idle CPU. That task 0 left is no migration.
#[test]
fn l8_migrations_follow() {
    let mut run = Run::fresh(3);
    run.add(0, 50, 3).add(1, 40, 6).wake(0).wake(1);
    run.offline(0);
    assert_eq!(run.log(), [1, 1, 2, 0]);
    assert_eq!(run.rows(), [vec![], vec![0], vec![1]]);
}

/// "10, a runnable task [...] would have no allowed online CPU": one that waits too, and no sleeper.
#[test]
fn l8_a_pinned_task_keeps_its_cpu_online() {
    let mut run = Run::fresh(2);
    run.add(0, 50, 3).add(1, 40, 1).add(2, 30, 1);
    run.wake(0).wake(1);
    assert_eq!(run.rows(), [vec![0, 1], vec![]]);
    run.refuses(10, 0, 0, 10);
    run.does(4, 1, 0, 0, 0).offline(0);
    assert_eq!(run.rows(), [vec![], vec![0]]);
    assert_eq!(run.t.cpu[..3], [1, 0, 0]);
}

/// "12, kind 10 for the last online CPU", and 10 before it; "11, [...] kind 10 or 11 where it is already so"
#[test]
fn l8_the_last_and_already_so() {
    let mut run = Run::fresh(2);
    run.refuses(11, 0, 0, 11).refuses(11, 1, 0, 11);
    run.offline(1);
    run.refuses(10, 1, 0, 11).refuses(10, 0, 0, 12);
    run.add(0, 50, 3).wake(0);
    run.refuses(10, 0, 0, 10).refuses(10, 1, 0, 11);
    run.online(1).refuses(11, 1, 0, 11);
    Run::fresh(1).refuses(10, 0, 0, 12).refuses(11, 0, 0, 11);
}

/// "11, tick or yield on an offline CPU"; "Where 9 and 11 both fit, 11 is given."
#[test]
fn l8_tick_and_yield() {
    let mut run = Run::fresh(2);
    run.refuses(8, 1, 0, 9).does(7, 1, 0, 0, 0);
    run.offline(1);
    run.refuses(8, 1, 0, 11).refuses(7, 1, 0, 11);
    run.refuses(8, 0, 0, 9).does(7, 0, 0, 0, 0);
}

/// "Refusal 3 is for kinds not 1 to 11, refusal 4's CPU check covers 10 and 11"
#[test]
fn l8_numbers() {
    let mut run = Run::fresh(2);
    run.refuses(0, 0, 0, 3).refuses(12, 0, 0, 3);
    for who in [2, 3, 64, 65, 256, u32::MAX] {
        run.refuses(10, who, 0, 4).refuses(11, who, 0, 4);
    }
    let mut widest = Run::fresh(64);
    widest.offline(63).online(63).refuses(10, 64, 0, 4);
}

/// A wake goes to its CPU if that is allowed and online, else to the lowest-numbered such; "10, [...] the task woken"
#[test]
fn l8_a_wake_without_its_cpu() {
    let mut run = Run::fresh(3);
    run.add(0, 50, 6).add(1, 40, 2).add(2, 30, 3);
    run.offline(1).wake(0);
    assert_eq!((run.t.cpu[0], run.moves), (2, 0));
    run.refuses(3, 1, 0, 10).wake(2);
    assert_eq!(run.rows(), [vec![2], vec![], vec![0]]);
    run.does(4, 0, 0, 0, 0).online(1).wake(0).wake(1);
    assert_eq!(run.rows(), [[2], [1], [0]]);
}

/// "10, [...] the runnable task whose mask changes"; a sleeper's may be one of offline CPUs only.
#[test]
fn l8_a_mask_of_offline_cpus() {
    let mut run = Run::fresh(3);
    run.add(0, 50, 1).add(1, 40, 1).wake(0).offline(1);
    run.refuses(6, 0, 2, 10)
        .refuses(6, 0, 8, 8)
        .refuses(6, 0, 0, 8);
    run.mask(1, 2);
    assert_eq!((run.t.mask[1], run.t.cpu[1]), (2, 0));
    run.refuses(3, 1, 0, 10);
    run.mask(0, 6);
    assert_eq!(run.rows(), [vec![], vec![], vec![0]]);
    run.mask(0, 7);
    assert_eq!(run.rows(), [vec![], vec![], vec![0]]);
}

/// "add keeps document 01's wording": the lowest-numbered CPU of the mask, online or not.
#[test]
fn l8_an_add_looks_at_the_mask_alone() {
    let mut run = Run::fresh(2);
    run.offline(0).add(0, 50, 3).add(1, 40, 1);
    assert_eq!(run.t.cpu[..2], [0, 0]);
    run.wake(0).refuses(3, 1, 0, 10);
    assert_eq!(run.t.cpu[..2], [1, 0]);
}

/// No task goes to an offline CPU, whatever its flag.
#[test]
fn l8_no_move_to_an_offline_cpu() {
    let mut run = Run::fresh(3);
    run.offline(1).add(0, 50, 7).add(1, 40, 7).add(2, 30, 3);
    run.wake(0).wake(1);
    assert_eq!(run.log(), [1, 0, 2, 0]);
    run.wake(2);
    assert_eq!(run.rows(), [vec![0, 2], vec![], vec![1]]);
    assert_eq!(run.moves, 0);
}

/// "Ordinary work on an offline CPU sets only the flag." Back, its level is its flag, and that is what a move displaces.
#[test]
fn l8_ordinary_work_on_an_offline_cpu() {
    let mut run = Run::fresh(2);
    let seen = |run: &Run| (run.t.flags[1], run.t.levels[1]);
    run.offline(1).ordinary(1, 1);
    assert_eq!(seen(&run), (1, 255));
    run.online(1);
    assert_eq!(seen(&run), (1, 1));
    run.offline(1);
    assert_eq!(seen(&run), (1, 255));
    run.ordinary(1, 0);
    assert_eq!(seen(&run), (0, 255));
    run.online(1);
    assert_eq!(seen(&run), (0, 0));
    run.offline(1).ordinary(1, 1);
    run.add(0, 50, 3).add(1, 40, 3).wake(0).wake(1).online(1);
    assert_eq!(run.log(), [1, 0, 1, 1]);
    assert_eq!(seen(&run), (1, 42));
}

/// Task c runs on CPU c, each lower than the one before. CPU 0 goes, then 1 and so on: task 0 goes to the next, and who ran
/// there to the CPU of the lowest, if another is left. Back, each CPU in turn gets the highest that waits.
#[test]
fn l8_one_after_the_other() {
    let mut run = Run::fresh(64);
    for task in 0..64 {
        run.add(task, 99 - task, u64::MAX).wake(task);
    }
    assert_eq!(run.rows(), (0..64).map(|task| [task]).collect::<Vec<_>>());
    for cpu in 0..62 {
        run.offline(cpu);
        assert_eq!(run.t.online, u64::MAX << (cpu + 1));
        assert_eq!(run.t.rows[512 * (cpu as usize + 1)], 0);
        assert!((run.moves as usize) < 63 - cpu as usize);
    }
    run.offline(62);
    assert_eq!((run.moves, run.t.online), (0, 1 << 63));
    assert_eq!(run.rows()[63], (0..64).collect::<Vec<u16>>());
    assert_eq!(run.t.level_counts.iter().sum::<u8>(), 1);
    run.refuses(10, 63, 0, 10);
    for cpu in 0..63 {
        run.online(cpu);
        assert_eq!(run.log(), [cpu as u16 + 1, 63, cpu as u16, 0]);
    }
    assert_eq!(run.t.online, u64::MAX);
    assert_eq!(run.t.counts, [1; 64]);
}

/// "Refusal 2 also covers an online mask of 0 or with bits at N or above"; an offline CPU with a task in its row or with
/// another level than INVALID; and INVALID at an online one.
#[test]
fn l8_ill_formed() {
    let mut run = Run::fresh(3);
    run.add(0, 50, 1).wake(0).offline(2);
    let good = run.t.clone();
    let asked = |t: &Tables| (check(t, Mutant::None), t.online);
    for online in [0, 1 | 8, 1 << 63, 3 | 1 << 63, u64::MAX] {
        let t = Tables {
            online,
            ..good.clone()
        };
        assert_eq!(asked(&t), (2, online));
    }
    for (online, answer) in [(1, 2), (2, 2), (3, 0), (7, 2)] {
        let t = Tables {
            online,
            ..good.clone()
        };
        assert_eq!(asked(&t), (answer, online));
    }
    let levels = |online, levels: &[u8]| {
        let mut t = Tables {
            online,
            ..good.clone()
        };
        let record = reference::Record::of(levels);
        t.level_masks = record.masks;
        t.level_counts = record.counts;
        t.level_words = record.words;
        t.levels = record.levels;
        (
            check(&t, Mutant::None),
            find(&t, 101, 7, Mutant::None).answer,
        )
    };
    assert_eq!(levels(3, &[52, 0, 255]), (0, 0));
    assert_eq!(levels(3, &[52, 0, 0]), (2, 0));
    assert_eq!(levels(7, &[52, 0, 0]), (0, 0));
    assert_eq!(levels(7, &[52, 0, 255]), (2, 0));
    assert_eq!(levels(1, &[52, 255, 255]), (0, 0));
    assert_eq!(levels(2, &[255, 0, 255]), (2, 0));
    assert_eq!(levels(0, &[255, 255, 255]), (2, 0));
}

/// "the finder takes any" record that holds INVALID below N, and finds no such CPU.
#[test]
fn l8_the_finder_with_offline_cpus() {
    let mut run = Run::fresh(3);
    run.offline(0).ordinary(1, 1);
    let ask = |level, mask| {
        let found = find(&run.t, level, mask, Mutant::None);
        (found.answer, found.level, found.mask)
    };
    assert_eq!(ask(101, 7), (0, 0, 4));
    assert_eq!(ask(101, 3), (0, 1, 2));
    assert_eq!(ask(101, 1), (0, 255, 0));
}

/// "Old table contents don't matter to the fresh maker", and a refused one changes nothing.
#[test]
fn l8_fresh_is_all_online() {
    for (n, online) in [(1, 1), (2, 3), (63, u64::MAX >> 1), (64, u64::MAX)] {
        for old in [0, 1, u64::MAX] {
            let mut t = Tables {
                online: old,
                ..Tables::blank(n, 100)
            };
            assert_eq!(make_fresh(&mut t, Mutant::None), made(100));
            assert_eq!((t.online, check(&t, Mutant::None)), (online, 0));
            t.online = old;
            assert_eq!(make_fresh_default(&mut t, Mutant::None), made(25));
            assert_eq!(t.online, online);
            t = Tables {
                full_slice: 0,
                online: old,
                ..t
            };
            assert_eq!(make_fresh(&mut t, Mutant::None), REFUSED);
            assert_eq!(t.online, old);
        }
    }
}
