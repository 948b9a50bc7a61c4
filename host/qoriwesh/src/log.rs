//! The moves of an event, as the log has them.

use binding::{Tables, TASKS};

/// One migration: an entry of the log, and the mover's priority.
#[derive(Clone, Copy, Debug, PartialEq, Eq)]
pub struct Move {
    pub task: u16,
    pub prio: u8,
    pub from: u16,
    pub to: u16,
    /// The level of `to` before the move.
    pub displaced: u16,
}

/// The moves of an accepted event, from the tables that it left; or what cannot be a move (a defect).
pub fn moves(after: &Tables, count: u32) -> Result<Vec<Move>, String> {
    let entries = after.moves(count);
    if entries.len() != count as usize {
        return Err(format!("{count} moves do not fit the log"));
    }
    entries.map(|entry| read(after, entry)).collect()
}

/// A mover is where it went, and outranks what was there. Both CPUs are online.
fn read(after: &Tables, entry: binding::Move) -> Result<Move, String> {
    let binding::Move {
        task,
        from,
        to,
        displaced,
    } = entry;
    let (who, online) = (task as usize, |cpu: u16| after.is_online(cpu as usize));
    let between = from != to && online(from) && online(to);
    let moved = who < TASKS && between && u16::from(after.cpu[who]) == to;
    if !moved || displaced >= u16::from(after.prio[who]) + 2 {
        return Err(format!(
            "the log's ({task},{from},{to},{displaced}) is no move"
        ));
    }
    Ok(Move {
        task,
        prio: after.prio[who],
        from,
        to,
        displaced,
    })
}

#[cfg(test)]
mod tests {
    use super::*;
    use crate::parse::{parse, Action};

    /// Runs a text; every event must be accepted. The tables after the last event, and its number of moves.
    fn run(text: &str) -> (Tables, u32) {
        let mut tables = Tables::zeroed(1);
        let mut moves = 0;
        for line in parse(text.as_bytes()).unwrap() {
            match line.action {
                Action::Machine { cpus, .. } => tables = Tables::fresh(cpus).unwrap(),
                Action::Event { event, .. } => {
                    let outcome = tables.event(event);
                    assert_eq!(outcome.answer, 0, "line {}", line.number);
                    moves = outcome.moves;
                }
            }
        }
        (tables, moves)
    }

    fn last_moves(text: &str) -> Vec<Move> {
        let (tables, count) = run(text);
        moves(&tables, count).unwrap()
    }

    const CHAIN: &str = "cpus 3\nadd 0 fifo 30 0-1\nadd 1 fifo 20 1-2\nadd 2 fifo 10 2\n\
                         add 3 fifo 40 0\nwake 0\nwake 1\nwake 2\nwake 3";

    #[test]
    fn a_move_has_its_entry_and_the_mover_s_priority() {
        let first = Move {
            task: 0,
            prio: 30,
            from: 0,
            to: 1,
            displaced: 22,
        };
        let second = Move {
            task: 1,
            prio: 20,
            from: 1,
            to: 2,
            displaced: 12,
        };
        assert_eq!(last_moves(CHAIN), [first, second]);
    }

    #[test]
    fn an_event_without_moves_has_none_of_an_earlier_log() {
        assert_eq!(last_moves(&format!("{CHAIN}\nsleep 3")), []);
    }

    #[test]
    fn idle_and_ordinary_work() {
        let displaced = |text: &str| last_moves(text)[0].displaced;
        let tasks = "add 0 fifo 9 0-1\nadd 1 fifo 9 0-1\nwake 0\nwake 1";
        assert_eq!(displaced(&format!("cpus 2\n{tasks}")), 0);
        assert_eq!(displaced(&format!("cpus 2\nordinary 1 on\n{tasks}")), 1);
    }

    #[test]
    fn a_count_that_does_not_fit_the_log_is_told() {
        let (tables, _) = run(CHAIN);
        let message = moves(&tables, 64).unwrap_err();
        assert_eq!(message, "64 moves do not fit the log");
    }

    /// Each number of the second entry, one of its CPUs offline, and an entry that was never written.
    #[test]
    fn an_entry_that_is_no_move_is_told() {
        let (tables, count) = run(CHAIN);
        for (place, value) in [
            (4, 2),
            (4, 512),
            (5, 2),
            (5, 3),
            (6, 1),
            (6, 3),
            (7, 22),
            (7, 65535),
        ] {
            let mut other = tables.clone();
            other.log[place] = value;
            assert!(moves(&other, count).is_err(), "{place} {value}");
        }
        for cpu in [1, 2] {
            let mut other = tables.clone();
            other.online &= !(1 << cpu);
            let message = moves(&other, count).unwrap_err();
            assert!(message.ends_with(" is no move"), "{message}");
        }
        let message = moves(&tables, 3).unwrap_err();
        let unwritten = "the log's (65535,65535,65535,65535) is no move";
        assert_eq!(message, unwritten);
    }
}
