//! What can come up while CPUs are offline, go or come back. A run is to have met each of it often.

use crate::call::Answer;
use binding::{Event, Tables};

/// An event, the tables before it, which pass the check, and what it gave.
pub struct Seen<'a> {
    t: &'a Tables,
    e: Event,
    who: usize,
    answer: Answer,
}

/// In words, and whether an event is one. Its numbers are in range.
type Way = (&'static str, fn(&Seen) -> bool);

pub const WAYS: [Way; 17] = [
    ("a CPU with two tasks or more went offline", |s| {
        s.gave(10, 0) && s.t.counts[s.who] > 1
    }),
    ("moves followed a CPU that went offline", |s| {
        s.gave(10, 0) && s.answer.moves > 0
    }),
    ("moves followed a CPU that came back", |s| {
        s.gave(11, 0) && s.answer.moves > 0
    }),
    ("a CPU with ordinary work came back", |s| {
        s.gave(11, 0) && s.t.flags[s.who] == 1
    }),
    ("a wake left its allowed CPU, which was offline", |s| {
        s.gave(3, 0) && s.own_allowed(s.t.mask[s.who]) && !s.t.is_online(s.own())
    }),
    ("ordinary work was set on an offline CPU", |s| {
        s.gave(9, 0) && !s.t.is_online(s.who)
    }),
    ("an add was to an offline CPU", |s| {
        s.gave(1, 0) && s.begins_offline()
    }),
    ("a new mask passed over an offline CPU", |s| {
        s.gave(6, 0) && s.t.state[s.who] == 2 && !s.own_allowed(s.e.mask) && s.begins_offline()
    }),
    ("a sleeper got a mask of offline CPUs", |s| {
        s.gave(6, 0) && s.t.state[s.who] == 1 && s.e.mask & s.t.online == 0
    }),
    ("a wake had no online CPU", |s| s.gave(3, 10)),
    ("a new mask had no online CPU", |s| s.gave(6, 10)),
    ("a pinned task kept its CPU online", |s| {
        s.gave(10, 10) && s.t.online.count_ones() > 1
    }),
    ("the last online CPU had tasks", |s| {
        s.gave(10, 10) && s.t.online.count_ones() == 1
    }),
    ("a tick was on an offline CPU", |s| s.gave(7, 11)),
    ("a yield was on an offline CPU", |s| s.gave(8, 11)),
    ("an offline CPU was to go", |s| s.gave(10, 11)),
    ("an online CPU was to come back", |s| s.gave(11, 11)),
];

impl Seen<'_> {
    fn gave(&self, kind: u32, number: u8) -> bool {
        (self.e.kind, self.answer.number) == (kind, number)
    }

    /// The task's CPU.
    fn own(&self) -> usize {
        self.t.cpu[self.who].into()
    }

    fn own_allowed(&self, mask: u64) -> bool {
        mask >> self.own() & 1 == 1
    }

    /// The lowest-numbered CPU of the event's mask is offline.
    fn begins_offline(&self) -> bool {
        !self.t.is_online(self.e.mask.trailing_zeros() as usize)
    }
}

/// Which of them an event is: accepted or refused with 10 or more, its numbers are in range.
pub fn ways(t: &Tables, e: Event, answer: Answer) -> [bool; WAYS.len()] {
    if matches!(answer.number, 1..=9) {
        return [false; WAYS.len()];
    }
    let who = e.who as usize;
    let seen = Seen { t, e, who, answer };
    WAYS.map(|(_, is)| is(&seen))
}

#[cfg(test)]
mod tests {
    use super::*;
    use crate::call::Call;
    use crate::pair::Pair;
    use reference::Mutant;

    /// What the last of some events is, after CPU 0 of two has run task 0 and kept task 2 waiting, and CPU 1 has run task 1;
    /// task 3 sleeps on CPU 0. All may use both.
    fn last_is(events: &[Event]) -> Vec<&'static str> {
        let t = Tables::fresh(2).expect("2 CPUs");
        let mut pair = Pair::new(t, Mutant::None);
        let add = |who| Event::new(1, who, 1, 50, 3);
        let wake = |who| Event::new(3, who, 0, 0, 0);
        let first = (0..4).map(add).chain((0..3).map(wake));
        let all = first.chain(events.iter().copied());
        let seen = all.map(|e| pair.call(Call::Event(e)).expect("the same").hotplug);
        let last = seen.last().expect("an event");
        let is = WAYS.iter().zip(last).filter(|(_, is)| *is);
        is.map(|((way, _), _)| *way).collect()
    }

    fn on(kind: u32, who: u32) -> Event {
        Event::new(kind, who, 0, 1, 1)
    }

    #[test]
    fn each_is_told_from_the_others() {
        for (events, way) in [
            (vec![on(10, 0)], "a CPU with two tasks or more went offline"),
            (
                vec![on(10, 0), on(11, 0)],
                "moves followed a CPU that came back",
            ),
            (
                vec![on(10, 0), on(3, 3)],
                "a wake left its allowed CPU, which was offline",
            ),
            (
                vec![on(10, 0), on(9, 0)],
                "ordinary work was set on an offline CPU",
            ),
            (
                vec![on(10, 0), on(6, 3)],
                "a sleeper got a mask of offline CPUs",
            ),
            (
                vec![on(10, 0), on(6, 3), on(3, 3)],
                "a wake had no online CPU",
            ),
            (vec![on(10, 0), on(6, 0)], "a new mask had no online CPU"),
            (
                vec![on(6, 0), on(10, 0)],
                "a pinned task kept its CPU online",
            ),
            (vec![on(10, 0), on(10, 1)], "the last online CPU had tasks"),
            (vec![on(10, 0), on(7, 0)], "a tick was on an offline CPU"),
            (vec![on(10, 0), on(8, 0)], "a yield was on an offline CPU"),
            (vec![on(10, 0), on(10, 0)], "an offline CPU was to go"),
            (vec![on(11, 0)], "an online CPU was to come back"),
        ] {
            assert_eq!(last_is(&events), [way]);
        }
        for events in [[on(3, 3)], [on(9, 0)], [on(6, 3)], [on(10, 2)], [on(12, 0)]] {
            assert_eq!(last_is(&events), [""; 0]);
        }
    }
}
