//! Request L7, "Shorter slice by default": cases beside K9, worked out by hand. "The full slice becomes a number of the
//! machine, 1 to 1,000: given to the maker, handed back by it (25 by a second maker told none, 0 on a refusal), and handed
//! in with each event or check. W2 and kinds 1 and 7 use that number, and one out of range is refused with 1."

use super::Step::{self, Check, Do, Left, Make, Rows, Slice, With};
use super::{add, add_rr, fresh, refused, tick, wake, FIFO};
use binding::Event;

/// A machine of one CPU with two equal RR tasks, and as many ticks as the full slice has: the last one ends the slice.
fn whole_slice(make: Step, full_slice: u16) -> Vec<Step> {
    let mut steps = vec![make, add_rr(0, 20, 1), add_rr(1, 20, 1), wake(0), wake(1)];
    steps.extend([Slice(0, full_slice), Slice(1, full_slice)]);
    steps.extend((1..full_slice).map(|_| tick(0)));
    steps.extend([Slice(0, 1), Rows(&[&[0, 1]])]);
    steps.extend([tick(0), Slice(0, full_slice), Rows(&[&[1, 0]])]);
    steps.extend([Slice(1, full_slice), Check(0)]);
    steps
}

/// The longest: its first tick, and its last.
fn thousand() -> Vec<Step> {
    vec![
        Make(1, Some(1000), 0, 1000),
        add_rr(0, 20, 1),
        add_rr(1, 20, 1),
        wake(0),
        wake(1),
        Slice(0, 1000),
        tick(0),
        Slice(0, 999),
        Rows(&[&[0, 1]]),
        Left(0, 1),
        tick(0),
        Slice(0, 1000),
        Rows(&[&[1, 0]]),
        Left(0, 1001),
        Check(2),
    ]
}

/// Every tick of an RR task puts it behind its equals, before a lower one; under a FIFO task nothing happens.
fn one_tick() -> Vec<Step> {
    vec![
        Make(1, Some(1), 0, 1),
        add_rr(0, 20, 1),
        add_rr(1, 20, 1),
        add(2, 20, 1),
        add_rr(3, 10, 1),
        wake(0),
        wake(1),
        wake(2),
        wake(3),
        Rows(&[&[0, 1, 2, 3]]),
        tick(0),
        Rows(&[&[1, 2, 0, 3]]),
        tick(0),
        Rows(&[&[2, 0, 1, 3]]),
        tick(0),
        Rows(&[&[2, 0, 1, 3]]),
        Slice(0, 1),
        Slice(2, 1),
    ]
}

/// "one out of range is refused with 1", and a refusal hands back 0: makers, check and event. 65561 is 65536 more than 25.
fn out_of_range() -> Vec<Step> {
    let mut steps = vec![Make(2, Some(25), 0, 25), add(0, 50, 1), Check(0)];
    for full_slice in [0, 1001, 65535, 65536, 65561, u32::MAX] {
        steps.extend([
            refused(2, Some(full_slice)),
            With(full_slice),
            Check(1),
            Do(Event::new(3, 0, 0, 0, 0), 1),
            Do(Event::new(1, 1, FIFO, 50, 1), 1),
            Do(Event::new(7, 0, 0, 0, 0), 1),
        ]);
    }
    steps.extend([With(25), Check(0), Slice(0, 25), Slice(1, 0)]);
    steps.extend([refused(0, None), refused(65, None)]);
    steps.extend([refused(0, Some(25)), refused(65, Some(0))]);
    steps.extend([Make(2, Some(1), 0, 1), Make(2, Some(1000), 0, 1000)]);
    steps
}

/// A column that holds 60: any number from there on is good for it, and W2 refuses one below.
fn sixty_left() -> Vec<Step> {
    vec![
        fresh(1),
        add_rr(0, 20, 1),
        wake(0),
        Left(0, 60),
        Check(0),
        With(50),
        Check(2),
        Do(Event::new(7, 0, 0, 0, 0), 2),
        Do(Event::new(4, 0, 0, 0, 0), 2),
        With(59),
        Check(2),
        With(60),
        Check(0),
        With(1000),
        Check(0),
    ]
}

/// Another number from an event on: who was added before keeps what it has until its slice ends.
fn another_number() -> Vec<Step> {
    vec![
        Make(1, Some(2), 0, 2),
        add_rr(0, 20, 1),
        wake(0),
        tick(0),
        With(40),
        add_rr(1, 20, 1),
        wake(1),
        Slice(0, 1),
        Slice(1, 40),
        tick(0),
        Slice(0, 40),
        Rows(&[&[1, 0]]),
        With(2),
        Check(2),
        With(39),
        Check(2),
    ]
}

/// The cases, each with a name of one word.
pub(super) fn cases() -> [(&'static str, Vec<Step>); 8] {
    [
        ("slice-1", whole_slice(Make(1, Some(1), 0, 1), 1)),
        ("slice-one-tick", one_tick()),
        ("slice-25", whole_slice(Make(1, Some(25), 0, 25), 25)),
        ("slice-default", whole_slice(Make(1, None, 0, 25), 25)),
        ("slice-1000", thousand()),
        ("slice-out-of-range", out_of_range()),
        ("slice-60-left", sixty_left()),
        ("slice-another", another_number()),
    ]
}
