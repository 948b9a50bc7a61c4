//! What can come up when the finder is asked. A run is to have met each of it often.

use crate::call::Answer;
use binding::{Tables, INVALID};

/// A question that was not refused: the tables, the level that it was asked with, and what it gave.
pub struct Seen<'a> {
    t: &'a Tables,
    asked: u32,
    answer: Answer,
}

/// In words, and whether a question is one.
type Way = (&'static str, fn(&Seen) -> bool);

pub const WAYS: [Way; 4] = [
    ("the finder read two masks or more and found a level", |s| {
        s.found() && s.answer.masks_read > 1
    }),
    ("the finder read a mask or more and found none", |s| {
        !s.found() && s.answer.masks_read > 0
    }),
    (
        "the finder read masks of the first word and found a level of the second",
        |s| s.found() && s.answer.level >= 64 && s.t.level_words[0] != 0,
    ),
    (
        "the finder found none, and the asked level had a CPU",
        |s| !s.found() && s.t.level_counts[s.asked as usize] > 0,
    ),
];

impl Seen<'_> {
    fn found(&self) -> bool {
        self.answer.level != INVALID
    }
}

/// Which of them a question with this level is.
pub fn ways(t: &Tables, asked: u32, answer: Answer) -> [bool; WAYS.len()] {
    if answer.number != 0 {
        return [false; WAYS.len()];
    }
    let seen = Seen { t, asked, answer };
    WAYS.map(|(_, is)| is(&seen))
}

#[cfg(test)]
mod tests {
    use super::*;
    use crate::call::Call;
    use crate::damage::Damage;
    use crate::pair::Pair;
    use reference::Mutant;

    /// What a question is, of three CPUs at these levels.
    fn is(levels: [u8; 3], level: u32, mask: u64) -> Vec<&'static str> {
        let mut t = Tables::fresh(3).expect("3 CPUs");
        for (cpu, level) in levels.into_iter().enumerate() {
            Damage::Relevel { cpu, level }.apply(&mut t);
        }
        let mut pair = Pair::new(t, Mutant::None);
        let agreed = pair.call(Call::Find(level, mask)).expect("the same");
        let is = WAYS.iter().zip(agreed.finder).filter(|(_, is)| *is);
        is.map(|((way, _), _)| *way).collect()
    }

    #[test]
    fn each_is_told_from_the_others() {
        let [two, none, second, asked] = WAYS.map(|(way, _)| way);
        assert_eq!(is([0, 5, 7], 8, 2), [two]);
        assert_eq!(is([5, 64, 101], 101, 2), [two, second]);
        assert_eq!(is([0, 5, 7], 4, 2), [none]);
        assert_eq!(is([0, 5, 7], 5, 2), [none, asked]);
        assert_eq!(is([5, 5, 7], 5, 7), [asked]);
        for (levels, level, mask) in [
            ([0, 5, 7], 8, 1),
            ([64, 70, 101], 65, 1),
            ([1, 5, 7], 0, 2),
            ([INVALID; 3], 101, 7),
            ([0, 5, 7], 102, 2),
            ([0, 5, 7], 5, 8),
        ] {
            assert_eq!(is(levels, level, mask), [""; 0]);
        }
    }
}
