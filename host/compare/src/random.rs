//! Mode random: well-formed machines, and long or short runs of calls on each.

use crate::call::Call;
use crate::case::{Case, Failure, Origin};
use crate::counters::Counters;
use crate::events;
use crate::generate::{chain, machine, Style};
use crate::plan::Plan;
use crate::rng::Rng;
use binding::Event;
use reference::Mutant;

/// How many calls: mostly few, since only the first event meets an unsettled machine; now and then very many.
fn length(rng: &mut Rng) -> usize {
    match rng.below(200) {
        0 => 2000,
        1..=15 => 200,
        16..=40 => 60,
        _ => rng.pick(&[1, 1, 2, 2, 8]),
    }
}

/// CPUs of the cases that begin with a chain of moves when one of them goes offline.
const CHAINS: [usize; 6] = [1, 2, 3, 4, 63, 64];

/// A machine, the task numbers in use, and the call to begin with, if it is not any. Case N-1 begins with the
/// longest chain of moves that N CPUs can have, and those after it with the longest when one of N goes offline.
fn opening(rng: &mut Rng, style: &mut Style, number: u64) -> (Plan, Vec<u16>, Option<Call>) {
    let number = number as usize;
    if number < 64 + CHAINS.len() {
        let (n, first) = match number < 64 {
            true => (number + 1, Event::new(3, 511, 0, 0, 0)),
            false => (CHAINS[number - 64], Event::new(10, 0, 0, 0, 0)),
        };
        style.n = n;
        let (plan, pool) = chain(rng, style, true);
        return (plan, pool, Some(Call::Event(first)));
    }
    let (plan, pool) = machine(rng, style);
    // A later event finds the machine settled.
    let first = match rng.percent(30) {
        true => events::take_offline(rng, &plan.tables()),
        false => None,
    };
    (plan, pool, first.map(Call::Event))
}

/// One case: the failure, if any.
pub fn run_case(
    seed: u64,
    number: u64,
    mutant: Mutant,
    counters: &mut Counters,
) -> Option<Failure> {
    let mut rng = Rng::for_case(seed, number);
    let mut style = Style::random(&mut rng);
    let (plan, pool, mut first) = opening(&mut rng, &mut style, number);
    let length = length(&mut rng);
    let mut case = Case {
        plan,
        damage: Vec::new(),
        calls: Vec::new(),
    };
    let origin = Origin {
        mode: "random",
        from: Some((seed, number)),
        mutant,
    };
    let mut pair = case.start(mutant);
    counters.cases += 1;
    for _ in 0..length {
        let random = || events::call(&mut rng, &pair.ours, &style, &pool);
        let call = first.take().unwrap_or_else(random);
        case.calls.push(call);
        match pair.call(call) {
            Ok(agreed) => counters.count(call, agreed),
            Err(difference) => return Some(origin.failure(case, counters, difference)),
        }
    }
    None
}

/// Cases until so many calls have been compared.
pub fn run(seed: u64, calls: u64, mutant: Mutant, counters: &mut Counters) -> Option<Failure> {
    let until = counters.calls + calls;
    let mut number = 0;
    while counters.calls < until {
        if let Some(failure) = run_case(seed, number, mutant, counters) {
            return Some(failure);
        }
        number += 1;
    }
    None
}
