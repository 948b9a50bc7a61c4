//! Mode damaged: tables that are not well-formed or have other lengths, and every entry called on them.

use crate::call::Call;
use crate::case::{Case, Failure, Origin};
use crate::counters::Counters;
use crate::damage::{other_full_slice, wrong_number, wrong_size, Damage};
use crate::events;
use crate::generate::{machine, Style};
use crate::rng::Rng;
use binding::Tables;
use reference::Mutant;

pub(crate) fn origin(from: Option<(u64, u64)>, mutant: Mutant) -> Origin {
    Origin {
        mode: "damaged",
        from,
        mutant,
    }
}

/// One case: the failure, if any.
pub fn run_case(
    seed: u64,
    number: u64,
    mutant: Mutant,
    counters: &mut Counters,
) -> Option<Failure> {
    let mut rng = Rng::for_case(seed ^ 0xda3a_6ed0, number);
    let style = Style::random(&mut rng);
    let (plan, pool) = machine(&mut rng, &style);
    let tables = plan.tables();
    let damage = damage(&mut rng, &tables);
    let calls = calls(&mut rng, &tables, &style, &pool);
    let case = Case {
        plan,
        damage,
        calls,
    };
    case.run_counted(origin(Some((seed, number)), mutant), counters)
}

/// Another full slice alone; or numbers, sizes and the full slice as it comes, or nothing.
fn damage(rng: &mut Rng, good: &Tables) -> Vec<Damage> {
    if rng.percent(20) {
        return vec![other_full_slice(rng, good)];
    }
    let mut damage = Vec::new();
    if rng.percent(80) {
        for _ in 0..rng.pick(&[1, 1, 1, 2, 5]) {
            damage.push(wrong_number(rng, good));
        }
    }
    if rng.percent(25) {
        damage.push(wrong_size(rng, good));
    }
    if rng.percent(10) {
        damage.push(other_full_slice(rng, good));
    }
    damage
}

/// Every entry, the makers last: what comes second meets a fresh machine, or what a refusal left.
fn calls(rng: &mut Rng, tables: &Tables, style: &Style, pool: &[u16]) -> Vec<Call> {
    let mut calls = vec![Call::Check];
    for _ in 0..2 {
        calls.push(Call::Event(events::plausible(rng, tables, style, pool)));
        calls.push(events::find(rng, tables));
    }
    calls.push(Call::Event(events::hostile(rng, tables, style, pool)));
    let mut makers = [Call::MakeFresh, Call::MakeFreshDefault];
    rng.shuffle(&mut makers);
    for maker in makers {
        calls.extend([maker, Call::Check]);
    }
    calls
}

/// Random cases until so many calls have been compared.
pub fn run(seed: u64, calls: u64, mutant: Mutant, counters: &mut Counters) -> Option<Failure> {
    let until = counters.calls + calls;
    let mut number = 0;
    while counters.calls < until {
        if let Some(failure) = run_case(seed, number, mutant, counters) {
            return Some(failure);
        }
        number += 1;
    }
    None
}
