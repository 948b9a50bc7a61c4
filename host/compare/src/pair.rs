//! The same tables twice, one for our library and one for the reference, and calls made on both. An event on tables that
//! pass the check is also made by our library without the check.

use crate::call::{Agreed, Answer, Call, Inner};
use crate::difference::Difference;
use crate::tables::{first_difference, for_reference, right_lengths, ticks_left};
use crate::{demand3, finder, hotplug};
use binding::{Event, Outcome, Tables};
use inner::{Checked, Settled};
use reference::Mutant;
use std::cmp::Ordering;

#[derive(Clone)]
pub struct Pair {
    pub ours: Tables,
    pub theirs: reference::Tables,
    mutant: Mutant,
}

impl Pair {
    pub fn new(tables: Tables, mutant: Mutant) -> Pair {
        let theirs = for_reference(&tables);
        Pair {
            ours: tables,
            theirs,
            mutant,
        }
    }

    /// Makes the call on both and compares all that was answered and all tables, byte by byte. An event is made once more
    /// without its check.
    pub fn call(&mut self, call: Call) -> Result<Agreed, Difference> {
        let Call::Event(e) = call else {
            return self.agree_on(call);
        };
        let before = self.ours.clone();
        let mut agreed = self.agree_on(call)?;
        if agreed.answer.number == 0 {
            self.accepted(&demand3::Before::of(&before), e, agreed.answer)?;
            agreed.among_equals = compare_among_equals(&before, e);
            agreed.refilled = e.kind == 7 && ticks_left(&before, e.who as usize) == Some(1);
        }
        agreed.hotplug = hotplug::ways(&before, e, agreed.answer);
        agreed.inner = self.call_inner(before, e, agreed.answer)?;
        Ok(agreed)
    }

    /// The call on both, and what can be said of any.
    fn agree_on(&mut self, call: Call) -> Result<Agreed, Difference> {
        let full_slice = self.ours.full_slice;
        let answer = self.call_both(call)?;
        let finder = match call {
            Call::Find(level, _) => finder::ways(&self.ours, level, answer),
            _ => [false; finder::WAYS.len()],
        };
        Ok(Agreed {
            answer,
            inner: Inner::No,
            full_slice,
            slice_alone: answer.number == 1 && right_lengths(&self.ours),
            among_equals: None,
            refilled: false,
            hotplug: [false; hotplug::WAYS.len()],
            finder,
        })
    }

    /// Both had the same tables before, and the reference writes nothing when it refuses: so a refusal that
    /// writes is found here too.
    fn call_both(&mut self, call: Call) -> Result<Answer, Difference> {
        let ours = self.call_ours(call);
        let theirs = self.call_theirs(call);
        same(ours, &self.ours, theirs, &self.theirs)?;
        Ok(ours)
    }

    /// The event on the tables before it, without their check, if they pass it: the answers 1 and 2 say that they do not.
    fn call_inner(&self, before: Tables, e: Event, theirs: Answer) -> Result<Inner, Difference> {
        if matches!(theirs.number, 1 | 2) {
            return Ok(Inner::No);
        }
        let mut any = Checked::new(before.clone());
        let answer = event_answer(any.event(e));
        self.inner_same(false, answer, any.tables(), theirs)?;
        if !reference::settled(&for_reference(&before)) {
            return Ok(Inner::Unsettled);
        }
        let mut settled = Settled::new(before);
        let answer = event_answer(settled.event(e));
        self.inner_same(true, answer, settled.tables(), theirs)?;
        Ok(Inner::Settled)
    }

    fn inner_same(
        &self,
        settled: bool,
        answer: Answer,
        tables: &Tables,
        theirs: Answer,
    ) -> Result<(), Difference> {
        same(answer, tables, theirs, &self.theirs)
            .map_err(|difference| Difference::Inner(settled, Box::new(difference)))
    }

    fn accepted(&self, before: &demand3::Before, e: Event, ours: Answer) -> Result<(), Difference> {
        demand3::check(before, e, ours.moves, &self.ours).map_err(Difference::Demand3)?;
        match self.ours.check() {
            0 => Ok(()),
            number => Err(Difference::IllFormed(number)),
        }
    }

    fn call_ours(&mut self, call: Call) -> Answer {
        match call {
            Call::MakeFresh => {
                let made = self.ours.make_fresh();
                maker_answer(made.answer, made.full_slice)
            }
            Call::MakeFreshDefault => {
                let made = self.ours.make_fresh_default();
                maker_answer(made.answer, made.full_slice)
            }
            Call::Check => Answer::plain(self.ours.check()),
            Call::Event(e) => event_answer(self.ours.event(e)),
            Call::Find(level, mask) => {
                let found = self.ours.find(level, mask);
                Answer {
                    level: found.level,
                    mask: found.mask,
                    masks_read: found.masks_read,
                    ..Answer::plain(found.answer)
                }
            }
        }
    }

    fn call_theirs(&mut self, call: Call) -> Answer {
        let (t, m) = (&mut self.theirs, self.mutant);
        match call {
            Call::MakeFresh => {
                let made = reference::make_fresh(t, m);
                maker_answer(made.answer, made.full_slice)
            }
            Call::MakeFreshDefault => {
                let made = reference::make_fresh_default(t, m);
                maker_answer(made.answer, made.full_slice)
            }
            Call::Check => Answer::plain(reference::check(t, m)),
            Call::Event(e) => {
                let outcome = reference::event(t, for_reference_event(e), m);
                Answer {
                    moves: outcome.moves,
                    ..Answer::plain(outcome.answer)
                }
            }
            Call::Find(level, mask) => {
                let found = reference::find(t, level, mask, m);
                Answer {
                    level: found.level,
                    mask: found.mask,
                    masks_read: found.masks_read,
                    ..Answer::plain(found.answer)
                }
            }
        }
    }
}

/// See [`Agreed`]. The tables are as before the event, which they accept.
fn compare_among_equals(t: &Tables, e: Event) -> Option<Ordering> {
    let who = e.who as usize;
    if e.kind != 5 || t.state[who] != 2 {
        return None;
    }
    let equal = |&other: &u16| {
        let other = usize::from(other);
        other != who && u32::from(t.prio[other]) == e.b
    };
    let row = t.row(t.cpu[who].into());
    let found = row.iter().any(equal);
    found.then(|| e.b.cmp(&t.prio[who].into()))
}

fn maker_answer(number: u8, full_slice: u32) -> Answer {
    Answer {
        full_slice,
        ..Answer::plain(number)
    }
}

fn event_answer(outcome: Outcome) -> Answer {
    Answer {
        moves: outcome.moves,
        ..Answer::plain(outcome.answer)
    }
}

/// The same answer, and the same in every table.
fn same(
    answer: Answer,
    ours: &Tables,
    their_answer: Answer,
    theirs: &reference::Tables,
) -> Result<(), Difference> {
    if answer != their_answer {
        return Err(Difference::Answer(answer, their_answer));
    }
    match first_difference(ours, theirs) {
        None => Ok(()),
        Some((table, index, ours, theirs)) => Err(Difference::Table {
            table,
            index,
            ours,
            theirs,
        }),
    }
}

pub fn for_reference_event(e: Event) -> reference::Event {
    reference::Event {
        kind: e.kind,
        who: e.who,
        a: e.a,
        b: e.b,
        mask: e.mask,
    }
}

#[cfg(test)]
mod tests {
    use super::*;

    /// Tasks 0 (50), 1 and 2 (30) stand in one row; task 3 (30) sleeps on that CPU.
    #[test]
    fn a_new_priority_is_compared_among_equals_alone() {
        let mut t = Tables::fresh(1).expect("1 CPU");
        for (who, prio) in [(0, 50), (1, 30), (2, 30), (3, 30)] {
            assert_eq!(t.event(Event::new(1, who, 1, prio, 1)).answer, 0);
        }
        for who in 0..3 {
            assert_eq!(t.event(Event::new(3, who, 0, 0, 0)).answer, 0);
        }
        let way = |who, prio| compare_among_equals(&t, Event::new(5, who, 0, prio, 0));
        assert_eq!(way(0, 30), Some(Ordering::Less));
        assert_eq!(way(1, 30), Some(Ordering::Equal));
        assert_eq!(way(2, 50), Some(Ordering::Greater));
        assert_eq!([way(0, 50), way(0, 40), way(3, 30)], [None; 3]);
        assert_eq!(compare_among_equals(&t, Event::new(4, 1, 0, 30, 0)), None);
    }

    /// Tables of 2 CPUs, lent with other numbers.
    #[test]
    fn a_refusal_is_for_the_full_slice_alone_or_not() {
        let calls = [
            Call::MakeFresh,
            Call::Check,
            Call::Event(Event::new(7, 0, 0, 0, 0)),
        ];
        for (n, full_slice, answer) in [
            (2, 1000, (0, false)),
            (2, 1001, (1, true)),
            (65, 1000, (1, false)),
            (65, 1001, (1, false)),
        ] {
            for call in calls {
                let t = Tables::fresh(2).expect("2 CPUs");
                let mut pair = Pair::new(Tables { n, full_slice, ..t }, Mutant::None);
                let agreed = pair.call(call).expect("the same");
                assert_eq!((agreed.answer.number, agreed.slice_alone), answer, "{call}");
                assert_eq!(agreed.full_slice, full_slice);
            }
        }
    }

    /// An RR task with slices of 2 ticks.
    #[test]
    fn a_tick_that_refills_is_seen() {
        let t = Tables::fresh_with_slice(1, 2).expect("1 CPU");
        let mut pair = Pair::new(t, Mutant::None);
        let mut refills = |e| pair.call(Call::Event(e)).expect("the same").refilled;
        assert!(!refills(Event::new(1, 0, 2, 50, 1)));
        assert!(!refills(Event::new(3, 0, 0, 0, 0)));
        let tick = Event::new(7, 0, 0, 0, 0);
        assert_eq!([tick; 4].map(&mut refills), [false, true, false, true]);
        assert!(!refills(tick));
        assert!(!refills(Event::new(8, 0, 0, 0, 0)));
    }
}
