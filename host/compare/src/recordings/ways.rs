//! What can come up in a recording. A run is to have met each of it so often.

use super::case::Agreed;
use reference::Recorded;

/// A recording, and what it gave.
pub struct Seen<'a> {
    pub bytes: &'a [u8],
    pub agreed: &'a Agreed,
}

/// In words, the least number of times in a run of all modes, and whether a recording is one.
type Way = (&'static str, u64, fn(&Seen) -> bool);

const WHOLE: u8 = 0;
const CUT: u8 = 1;
const STOPPED: u8 = 2;

/// Records of a recording, at most.
const MOST: usize = 65_536;

pub const WAYS: [Way; 27] = [
    ("whole", 500, |s| s.ended(WHOLE)),
    ("cut in the first record", 40, |s| {
        s.ended(CUT) && !s.has_first()
    }),
    ("cut in an event's record", 500, |s| {
        s.ended(CUT) && s.has_first()
    }),
    ("stopped by the first kind", 40, |s| {
        s.first_stops() && !matches!(s.bytes[0], 0 | 12)
    }),
    ("stopped by N of kind 0", 20, |s| {
        s.bad_cpus() && s.bytes[0] == 0
    }),
    ("stopped by N of kind 12", 40, |s| {
        s.bad_cpus() && s.bytes[0] == 12 && s.bytes.len() > 3
    }),
    ("stopped by N of kind 12, its slice cut", 20, |s| {
        s.bad_cpus() && s.bytes[0] == 12 && s.bytes.len() <= 3
    }),
    ("stopped by the slice", 40, |s| {
        s.first_stops() && s.bytes[0] == 12 && !s.bad_cpus()
    }),
    ("stopped by a later 0", 40, |s| {
        s.stopped_by(|kind| kind == 0)
    }),
    ("stopped by a later 12", 40, |s| {
        s.stopped_by(|kind| kind == 12)
    }),
    ("stopped by a kind over 12", 500, |s| {
        s.stopped_by(|kind| kind > 12)
    }),
    ("stopped by the last byte", 40, |s| {
        s.stopped_by(|_| true) && s.agreed.report.place + 1 == s.bytes.len()
    }),
    ("65,535 records, and cut", 1, |s| {
        s.ended(CUT) && s.records() == MOST - 1
    }),
    ("65,536 records, and whole", 1, |s| {
        s.ended(WHOLE) && s.records() == MOST
    }),
    ("65,536 records, and bytes of another", 2, |s| {
        s.ended(STOPPED) && s.records() == MOST
    }),
    ("no event", 40, |s| s.has_first() && s.records() == 1),
    ("more than 64 events", 40, |s| s.records() > 65),
    ("no slice was named", 500, |s| {
        s.has_first() && s.bytes[0] == 0
    }),
    ("a slice was named", 500, |s| {
        s.has_first() && s.bytes[0] == 12
    }),
    ("a stamp ran past its end", 500, |s| {
        s.follow(|from, to| to < from)
    }),
    ("two stamps were equal", 500, |s| {
        s.follow(|from, to| to == from)
    }),
    ("a stamp went one step back", 40, |s| {
        s.follow(|from, to| from.wrapping_sub(to) == 1)
    }),
    ("a time of more than 32 bits", 40, |s| {
        s.agreed.times.iter().any(|&time| time >> 32 != 0)
    }),
    ("the last event was refused", 500, |s| {
        s.agreed
            .events
            .last()
            .is_some_and(|last| last.1.answer != 0)
    }),
    ("nothing was refused", 40, |s| {
        s.records() > 1 && s.agreed.report.refused == 0
    }),
    ("moves", 500, |s| s.agreed.report.moves > 0),
    ("all 64 CPUs", 10, |s| s.agreed.report.cpus == 64),
];

impl Seen<'_> {
    fn ended(&self, ending: u8) -> bool {
        self.agreed.report.answer == 0 && self.agreed.report.ending == ending
    }

    fn has_first(&self) -> bool {
        self.agreed.report.cpus != 0
    }

    fn first_stops(&self) -> bool {
        self.ended(STOPPED) && !self.has_first()
    }

    fn bad_cpus(&self) -> bool {
        self.first_stops() && matches!(self.bytes[0], 0 | 12) && !(1..=64).contains(&self.bytes[1])
    }

    /// A later kind stops it, and not the number of records.
    fn stopped_by(&self, is: impl Fn(u8) -> bool) -> bool {
        self.ended(STOPPED)
            && self.has_first()
            && self.records() < MOST
            && is(self.bytes[self.agreed.report.place])
    }

    /// Whole ones, the first included.
    fn records(&self) -> usize {
        usize::from(self.has_first()) + self.agreed.events.len()
    }

    /// Whether two stamps that follow each other are so.
    fn follow(&self, are: impl Fn(u32, u32) -> bool) -> bool {
        let stamp = |event: &(Recorded, _)| event.0.stamp;
        let mut pairs = self.agreed.events.windows(2);
        pairs.any(|pair| are(stamp(&pair[0]), stamp(&pair[1])))
    }
}

#[cfg(test)]
mod tests {
    use super::super::case::Case;
    use super::super::write::{first, record};
    use super::*;
    use binding::Event;
    use reference::Mutant;

    fn ways(bytes: Vec<u8>) -> Vec<&'static str> {
        let agreed = Case::of(bytes.clone()).run(Mutant::None);
        let Ok(agreed) = agreed else {
            panic!("{bytes:?} differs");
        };
        let seen = Seen {
            bytes: &bytes,
            agreed: &agreed,
        };
        let are = WAYS.iter().filter(|(_, _, is)| is(&seen));
        are.map(|(way, _, _)| *way).collect()
    }

    #[test]
    fn endings_are_told_from_each_other() {
        for (bytes, way) in [
            (vec![], "cut in the first record"),
            (vec![12, 1, 1], "cut in the first record"),
            (vec![7, 0], "stopped by the first kind"),
            (vec![0, 65], "stopped by N of kind 0"),
            (vec![12, 0, 1, 0], "stopped by N of kind 12"),
            (vec![12, 0, 1], "stopped by N of kind 12, its slice cut"),
            (vec![12, 1, 0, 0], "stopped by the slice"),
        ] {
            assert_eq!(ways(bytes), [way]);
        }
        for (bytes, way) in [
            (vec![0, 64, 0, 1], "stopped by a later 0"),
            (vec![0, 64, 12, 1], "stopped by a later 12"),
            (vec![0, 64, 13, 1], "stopped by a kind over 12"),
            (vec![0, 64, 7, 1], "cut in an event's record"),
            (vec![0, 64], "whole"),
        ] {
            let rest = ["no event", "no slice was named", "all 64 CPUs"];
            assert_eq!(ways(bytes), [vec![way], rest.to_vec()].concat());
        }
        assert!(ways(vec![0, 1, 13]).contains(&"stopped by the last byte"));
    }

    /// Two ticks on a CPU that is not there.
    #[test]
    fn stamps_are_told_from_each_other() {
        let ticks = |from, to| {
            let tick = |stamp| record(stamp, Event::new(7, 1, 0, 0, 0));
            ways([first(1, Some(1)), tick(from), tick(to)].concat())
        };
        let rest = ["whole", "a slice was named", "the last event was refused"];
        let with = |some: &[&'static str]| [&rest[..2], some, &rest[2..]].concat();
        assert_eq!(ticks(1, 2), with(&[]));
        assert_eq!(ticks(2, 2), with(&["two stamps were equal"]));
        assert_eq!(ticks(9, 2), with(&["a stamp ran past its end"]));
        let back = ["a stamp ran past its end", "a stamp went one step back"];
        assert_eq!(ticks(9, 8), with(&back));
    }
}
