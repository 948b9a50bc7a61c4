//! The plain version answers as the library does and leaves the same in every table: random calls on well-formed
//! and on damaged tables, events on machines that are not settled, events from fresh machines on, which are told that the
//! machine is settled, and recordings.

mod recordings;
mod side;

use binding::{Event, Tables};
use compare::call::Call;
use compare::damage::{other_full_slice, wrong_number, wrong_size};
use compare::events;
use compare::generate::{chain, full, machine, Style};
use compare::rng::Rng;
use compare::tables::ticks_left;
use side::Pair;

#[test]
fn well_formed() {
    let mut calls = 0;
    let mut moves = 0;
    let mut refilled = 0;
    for case in 0.. {
        let mut rng = Rng::for_case(11, case);
        let style = Style::random(&mut rng);
        let (plan, pool) = match case % 8 {
            0 => chain(&mut rng, &style, true),
            _ => machine(&mut rng, &style),
        };
        let mut pair = Pair::new(plan.tables());
        for _ in 0..rng.pick(&[1, 4, 16, 64, 256]) {
            let call = events::call(&mut rng, &pair.ours, &style, &pool);
            refilled += usize::from(refills(&pair.ours, call));
            moves += pair.call(call);
            calls += 1;
        }
        if calls > 80_000 {
            break;
        }
    }
    assert!(moves > 5_000, "only {moves} moves");
    assert!(refilled > 2_000, "only {refilled} slices ended");
}

/// Whether the call is a tick that ends a slice, of whatever length.
fn refills(t: &Tables, call: Call) -> bool {
    match call {
        Call::Event(e) if e.kind == 7 && (e.who as usize) < t.n => {
            ticks_left(t, e.who as usize) == Some(1)
        }
        _ => false,
    }
}

#[test]
fn damaged() {
    let mut calls = 0;
    let mut replugged = 0;
    for case in 0.. {
        let mut rng = Rng::for_case(12, case);
        let style = Style::random(&mut rng);
        let (plan, pool) = machine(&mut rng, &style);
        let good = plan.tables();
        let mut bad = good.clone();
        for _ in 0..rng.pick(&[0, 1, 1, 2, 5]) {
            wrong_number(&mut rng, &good).apply(&mut bad);
        }
        if rng.percent(15) {
            wrong_size(&mut rng, &good).apply(&mut bad);
        }
        if rng.percent(25) {
            other_full_slice(&mut rng, &good).apply(&mut bad);
        }
        replugged += usize::from(bad.online != good.online);
        let mut pair = Pair::new(bad);
        let event = events::plausible(&mut rng, &good, &style, &pool);
        let find = events::find(&mut rng, &good);
        let maker = rng.pick(&[Call::MakeFresh, Call::MakeFreshDefault]);
        for call in [Call::Check, find, Call::Event(event), maker] {
            pair.call(call);
            calls += 1;
        }
        if calls > 60_000 {
            break;
        }
    }
    assert!(replugged > 500, "only {replugged} other online masks");
}

/// A style of 1 to 64 CPUs, by the number of the case.
fn style_of(seed: u64, case: u64) -> (Rng, Style) {
    let mut rng = Rng::for_case(seed, case);
    let mut style = Style::random(&mut rng);
    style.n = 1 + case as usize % 64;
    (rng, style)
}

/// A fresh machine is settled, and every event leaves it so.
#[test]
fn settled_from_fresh() {
    let mut seen = Seen::default();
    for case in 0..128 {
        let (mut rng, style) = style_of(13, case);
        let (_, pool) = machine(&mut rng, &style);
        let fresh = Tables::fresh_with_slice(style.n, style.full_slice);
        let fresh = fresh.expect("1 to 64 CPUs, 1 to 1000 ticks");
        live(&mut rng, &style, &pool, Pair::new(fresh), &mut seen, 1000);
    }
    assert!(seen.moved[3..=6].iter().all(|&times| times > 100));
    assert!(seen.moved[10..].iter().all(|&times| times > 100));
    assert!(seen.refused[9..=11].iter().all(|&times| times > 100));
}

/// So is a machine that has accepted an event: here with short slices and long chains of moves.
#[test]
fn settled_by_an_event() {
    let mut seen = Seen::default();
    for case in 0..1600 {
        let (mut rng, style) = style_of(14, case);
        let (plan, pool) = match case {
            0..64 => chain(&mut rng, &style, true),
            _ => machine(&mut rng, &style),
        };
        let mut pair = Pair::new(plan.tables());
        pair.call(Call::Event(event(9, 0)));
        if case < 64 {
            seen.event(&mut pair, event(3, 511));
        }
        live(&mut rng, &style, &pool, pair, &mut seen, 150);
    }
    assert!(seen.moved[3..=8].iter().all(|&times| times > 10));
    assert!(seen.moved[10..].iter().all(|&times| times > 100));
    assert_eq!(seen.most, 63);
    assert!(seen.left > 256, "at most {} tasks left a CPU", seen.left);
}

/// Most machines are not settled whose tasks are allowed more CPUs than before: the steps are looked for among all who wait.
#[test]
fn not_settled() {
    let (mut moves, mut most) = (0, 0);
    for case in 0..1600 {
        let (mut rng, style) = style_of(19, case);
        let (plan, pool) = machine(&mut rng, &style);
        let mut t = plan.tables();
        for who in 0..t.state.len() {
            if t.state[who] == 2 {
                t.mask[who] |= rng.bits() & rng.bits() & full(t.n);
            }
        }
        let e = events::plausible(&mut rng, &t, &style, &pool);
        let taken = Pair::new(t).call(Call::Event(e));
        moves += taken;
        most = most.max(taken);
    }
    assert!(moves > 4_000, "only {moves} moves");
    assert!(most > 50, "at most {most} at once");
}

/// The CPUs go out one after the other until one is left, and all come back: with no tasks, or with some that may use any.
#[test]
fn until_one_is_left() {
    let mut seen = Seen::default();
    for case in 0..128 {
        let (mut rng, style) = style_of(15, case);
        let mut pair = Pair::new(Tables::fresh(style.n).expect("1 to 64 CPUs"));
        for who in 0..rng.pick(&[0, 5, 50, 500]) {
            let add = Event {
                a: style.policy(&mut rng).into(),
                b: style.prio(&mut rng).into(),
                mask: full(style.n),
                ..event(1, who)
            };
            seen.event(&mut pair, add);
            seen.event(&mut pair, event(3, who));
        }
        let mut cpus: Vec<u32> = (0..style.n as u32).collect();
        for kinds in [&[10, 7, 8, 9][..], &[11]] {
            rng.shuffle(&mut cpus);
            for &cpu in &cpus {
                for &kind in kinds {
                    seen.event(&mut pair, event(kind, cpu));
                }
            }
        }
    }
    assert!(seen.refused[10..].iter().all(|&times| times > 20));
    assert!(seen.moved[11] > 1000, "only {} returns", seen.moved[11]);
    assert!(seen.left > 400, "at most {} tasks left a CPU", seen.left);
}

/// Events of each kind that moved tasks, and how often each refusal was given; the most moves, and the most tasks that a
/// CPU had when it went offline.
#[derive(Default)]
struct Seen {
    moved: [usize; 12],
    refused: [usize; 13],
    most: u32,
    left: u16,
}

impl Seen {
    /// An event on a settled machine.
    fn event(&mut self, pair: &mut Pair, e: Event) {
        let tasks = pair.ours.counts.get(e.who as usize).copied();
        let outcome = pair.settled_event(e);
        match outcome.answer {
            0 if e.kind == 10 => self.left = self.left.max(tasks.unwrap_or(0)),
            0 => (),
            number => self.refused[number as usize] += 1,
        }
        if outcome.moves > 0 {
            self.moved[e.kind as usize] += 1;
            self.most = self.most.max(outcome.moves);
        }
    }
}

fn event(kind: u32, who: u32) -> Event {
    Event {
        kind,
        who,
        a: 0,
        b: 0,
        mask: 0,
    }
}

/// Events on a settled machine.
fn live(
    rng: &mut Rng,
    style: &Style,
    pool: &[u16],
    mut pair: Pair,
    seen: &mut Seen,
    events: usize,
) {
    for _ in 0..events {
        let e = match rng.percent(3) {
            true => events::hostile(rng, &pair.ours, style, pool),
            false => events::plausible(rng, &pair.ours, style, pool),
        };
        seen.event(&mut pair, e);
    }
}
