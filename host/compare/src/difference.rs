//! What was found to be wrong after a call.

use crate::call::Answer;
use crate::tables::{LOG, NAMES};
use binding::LOG_WIDTH;
use std::fmt;

#[derive(Clone, Debug, PartialEq, Eq)]
pub enum Difference {
    /// The answers differ: ours, the reference's.
    Answer(Answer, Answer),
    /// A table differs. Without an index it is the lengths that differ.
    Table {
        table: usize,
        index: Option<usize>,
        ours: u64,
        theirs: u64,
    },
    /// Our own result breaks a part of demand 3.
    Demand3(String),
    /// The machine with which an accepted event or a replay ended is refused by our checker.
    IllFormed(u8),
    /// The event without its check differs, told that the machine is settled or not.
    Inner(bool, Box<Difference>),
    /// What a replay reports differs: ours, the reference's.
    Report(Box<[replay::Answer; 2]>),
    /// A place of a replay's times differs.
    Time {
        index: usize,
        ours: u64,
        theirs: u64,
    },
}

impl fmt::Display for Difference {
    fn fmt(&self, f: &mut fmt::Formatter) -> fmt::Result {
        match self {
            Difference::Answer(ours, theirs) => {
                write!(f, "answers differ\n  ours   {ours:?}\n  theirs {theirs:?}")
            }
            Difference::Table {
                table,
                index: Some(index),
                ours,
                theirs,
            } => {
                let place = place(*table, *index);
                write!(f, "{place} differs: ours {ours:#x}, theirs {theirs:#x}")
            }
            Difference::Table {
                table,
                ours,
                theirs,
                ..
            } => {
                let name = NAMES[*table];
                write!(f, "length of {name} differs: ours {ours}, theirs {theirs}")
            }
            Difference::Demand3(part) => write!(f, "demand 3: {part}"),
            Difference::IllFormed(number) => {
                write!(f, "the checker answers {number} on the machine left")
            }
            Difference::Inner(settled, difference) => {
                write!(f, "inner event, settled = {settled}: {difference}")
            }
            Difference::Report(both) => {
                let [ours, theirs] = &**both;
                write!(f, "reports differ\n  ours   {ours:?}\n  theirs {theirs:?}")
            }
            Difference::Time {
                index,
                ours,
                theirs,
            } => write!(f, "times[{index}] differs: ours {ours}, theirs {theirs}"),
        }
    }
}

/// The numbers of a log entry, in words.
const ENTRY: [&str; LOG_WIDTH] = ["task", "from", "to", "displaced level"];

/// A place of a table; in the log, also which number of which entry it is.
fn place(table: usize, index: usize) -> String {
    let place = format!("{}[{index}]", NAMES[table]);
    match table {
        LOG => {
            let (entry, number) = (index / LOG_WIDTH, ENTRY[index % LOG_WIDTH]);
            format!("{place} (entry {entry}, {number})")
        }
        _ => place,
    }
}

#[cfg(test)]
mod tests {
    use super::*;

    #[test]
    fn a_place_of_the_log_has_its_entry() {
        let words = |table, index| {
            let difference = Difference::Table {
                table,
                index: Some(index),
                ours: 22,
                theirs: 12,
            };
            difference.to_string()
        };
        let differs = "differs: ours 0x16, theirs 0xc";
        assert_eq!(words(LOG, 0), format!("log[0] (entry 0, task) {differs}"));
        assert_eq!(words(LOG, 5), format!("log[5] (entry 1, from) {differs}"));
        assert_eq!(
            words(LOG, 251),
            format!("log[251] (entry 62, displaced level) {differs}")
        );
        assert_eq!(words(13, 63), format!("levels[63] {differs}"));
    }
}
