//! The tasks of a CPU that is taken offline: where each goes, and where it comes to stand there.
//!
//! Their going is no migration and no log has it, so it is read off. The row before says who leaves, and in which order. A task
//! that moved on went to where the log says that it waited; any other to its CPU after the event. It enters behind its equals.
//! Played again on the rows before, this and the moves must give the rows after.

use crate::log::Move;
use crate::words;
use binding::{Event, Tables};

/// The kind of event that takes a CPU offline.
const OFFLINE: u32 = 10;

/// A task, and its priority.
#[derive(Clone, Copy, Debug, PartialEq, Eq)]
pub struct Ranked {
    pub task: u16,
    pub prio: u8,
}

/// A task that leaves `from` for `to`, and whom or what it finds there.
#[derive(Clone, Copy, Debug, PartialEq, Eq)]
pub struct Leaver {
    pub who: Ranked,
    pub from: u16,
    pub to: u16,
    pub finds: Finds,
}

/// Where a task comes to stand in the row that it enters.
#[derive(Clone, Copy, Debug, PartialEq, Eq)]
pub enum Finds {
    /// It stands right behind this task.
    Behind(Ranked),
    /// It is first, and this task, which ran, is next.
    Before(Ranked),
    /// No task: ordinary work.
    OrdinaryWork,
    Idle,
}

/// Who leaves, in this order, if the event is an accepted one that takes a CPU offline; or that its rows contradict its
/// moves (a defect).
pub fn leavers(
    before: &Tables,
    e: Event,
    after: &Tables,
    moves: &[Move],
) -> Result<Vec<Leaver>, String> {
    if e.kind != OFFLINE {
        return Ok(Vec::new());
    }
    let contradicts = || format!("the rows after '{}' contradict its moves", words::event(e));
    let mut rows = Rows::of(before);
    let mut leavers = Vec::new();
    for &task in before.row(e.who as usize) {
        let to = entered(task, after, moves);
        let leaver = rows.go(task, e.who as u16, to);
        let leaver = leaver.filter(|_| after.is_online(to as usize));
        leavers.push(leaver.ok_or_else(contradicts)?);
    }
    for m in moves {
        rows.go(m.task, m.from, m.to).ok_or_else(contradicts)?;
    }
    let end = (0..after.n).map(|cpu| after.row(cpu));
    if !end.eq(rows.rows.iter()) {
        return Err(contradicts());
    }
    Ok(leavers)
}

/// The CPU whose row the task entered: where it waited, if it moved on; else where it is.
fn entered(task: u16, after: &Tables, moves: &[Move]) -> u16 {
    match moves.iter().find(|m| m.task == task) {
        Some(m) => m.from,
        None => u16::from(after.cpu[task as usize]),
    }
}

/// Rows that tasks leave and enter.
struct Rows<'a> {
    tables: &'a Tables,
    rows: Vec<Vec<u16>>,
}

impl Rows<'_> {
    fn of(tables: &Tables) -> Rows<'_> {
        let rows = (0..tables.n).map(|cpu| tables.row(cpu).to_vec()).collect();
        Rows { tables, rows }
    }

    fn ranked(&self, task: u16) -> Ranked {
        let prio = self.tables.prio[task as usize];
        Ranked { task, prio }
    }

    /// A task leaves a row and enters another, behind its equals; if it is in the one, and there is the other.
    fn go(&mut self, task: u16, from: u16, to: u16) -> Option<Leaver> {
        let who = self.ranked(task);
        let row = self.rows.get_mut(from as usize)?;
        let place = row.iter().position(|&other| other == task)?;
        row.remove(place);
        let row = self.rows.get(to as usize)?;
        let ahead = |other: &&u16| self.ranked(**other).prio >= who.prio;
        let place = row.iter().take_while(ahead).count();
        let finds = self.finds(to as usize, place);
        self.rows[to as usize].insert(place, task);
        Some(Leaver {
            who,
            from,
            to,
            finds,
        })
    }

    /// Whom a task finds that is about to enter at this place.
    fn finds(&self, cpu: usize, place: usize) -> Finds {
        let row = &self.rows[cpu];
        match (place, row.first()) {
            (0, Some(&first)) => Finds::Before(self.ranked(first)),
            (0, None) if self.tables.flags[cpu] == 1 => Finds::OrdinaryWork,
            (0, None) => Finds::Idle,
            _ => Finds::Behind(self.ranked(row[place - 1])),
        }
    }
}

#[cfg(test)]
mod tests {
    use super::*;
    use crate::log;
    use crate::parse::{parse, Action};

    /// An event with the tables before and after it, and its moves.
    struct Ran {
        before: Tables,
        event: Event,
        after: Tables,
        moves: Vec<Move>,
    }

    impl Ran {
        fn leavers(&self) -> Result<Vec<Leaver>, String> {
            leavers(&self.before, self.event, &self.after, &self.moves)
        }
    }

    fn ran(before: Tables, event: Event) -> Option<Ran> {
        let mut after = before.clone();
        let outcome = after.event(event);
        let moves = log::moves(&after, outcome.moves).unwrap();
        (outcome.answer == 0).then_some(Ran {
            before,
            event,
            after,
            moves,
        })
    }

    /// Runs a text; every event must be accepted. The last of them.
    fn last(text: &str) -> Ran {
        let mut tables = Tables::zeroed(1);
        let mut last = None;
        for line in parse(text.as_bytes()).unwrap() {
            match line.action {
                Action::Machine { cpus, .. } => tables = Tables::fresh(cpus).unwrap(),
                Action::Event { event, .. } => {
                    let ran = ran(tables, event).expect("an event that is accepted");
                    tables = ran.after.clone();
                    last = Some(ran);
                }
            }
        }
        last.unwrap()
    }

    /// Makes the tables or the moves wrong.
    type Spoil = fn(&mut Ran);

    fn ranked(task: u16, prio: u8) -> Ranked {
        Ranked { task, prio }
    }

    fn leaver(who: Ranked, from: u16, to: u16, finds: Finds) -> Leaver {
        Leaver {
            who,
            from,
            to,
            finds,
        }
    }

    /// Task 0 goes to CPU 1, behind task 2 of its priority, and moves on to CPU 2.
    const MOVES_ON: &str =
        "cpus 3\nadd 0 fifo 40 0-2\nadd 1 fifo 50 1\nadd 2 fifo 40 1\nadd 3 fifo 30 1\n\
                            wake 0\nwake 1\nwake 2\nwake 3\noffline 0";

    #[test]
    fn a_task_that_moves_on_left_for_where_it_waited() {
        let ran = last(MOVES_ON);
        let went = leaver(ranked(0, 40), 0, 1, Finds::Behind(ranked(2, 40)));
        assert_eq!(ran.leavers(), Ok(vec![went]));
        assert_eq!(ran.moves.len(), 1);
        assert_eq!((ran.moves[0].task, ran.moves[0].to), (0, 2));
    }

    /// Task 0 stands before task 1, which moves; so afterwards task 0 is alone there.
    #[test]
    fn a_task_that_displaces_another_stood_before_it() {
        let tasks = "add 0 fifo 40 0-1\nadd 1 fifo 30 1-2\nwake 0\nwake 1";
        let ran = last(&format!("cpus 3\n{tasks}\noffline 0"));
        let went = leaver(ranked(0, 40), 0, 1, Finds::Before(ranked(1, 30)));
        assert_eq!(ran.leavers(), Ok(vec![went]));
        assert_eq!((ran.moves[0].task, ran.moves[0].from), (1, 1));
        assert_eq!(ran.after.row(1), [0]);
    }

    /// Each stands behind the one that left before it.
    #[test]
    fn tasks_leave_front_to_back() {
        let tasks = "add 0 fifo 40 0-1\nadd 1 fifo 40 0-1\nadd 2 fifo 20 0-1";
        let ran = last(&format!(
            "cpus 2\n{tasks}\nwake 0\nwake 1\nwake 2\noffline 0"
        ));
        assert_eq!(
            (ran.before.row(0), ran.before.row(1)),
            (&[0, 2][..], &[1][..])
        );
        let to = |who, finds| leaver(who, 0, 1, finds);
        let expected = vec![
            to(ranked(0, 40), Finds::Behind(ranked(1, 40))),
            to(ranked(2, 20), Finds::Behind(ranked(0, 40))),
        ];
        assert_eq!(ran.leavers(), Ok(expected));
    }

    #[test]
    fn a_cpu_without_a_task_is_idle_or_has_ordinary_work() {
        let finds = |flag: &str| {
            let text = format!("cpus 2\nordinary 1 {flag}\nadd 0 fifo 9 0-1\nwake 0\noffline 0");
            last(&text).leavers().unwrap()[0].finds
        };
        assert_eq!(finds("on"), Finds::OrdinaryWork);
        assert_eq!(finds("off"), Finds::Idle);
    }

    #[test]
    fn nobody_leaves_an_empty_row_or_at_another_event() {
        assert_eq!(last("cpus 2\noffline 0").leavers(), Ok(Vec::new()));
        let back = format!("{MOVES_ON}\nonline 0");
        assert_eq!(last(&back).leavers(), Ok(Vec::new()));
    }

    /// The rows after are changed: two tasks in another order, one not there. The log, or the task's CPU, says that it went
    /// nowhere, or to a CPU that is not there.
    #[test]
    fn rows_that_contradict_the_moves_are_told() {
        let alone = "cpus 2\nadd 0 fifo 9 0-1\nwake 0\noffline 0";
        let spoilt: [(&str, Spoil); 6] = [
            (MOVES_ON, |ran| ran.after.rows.swap(512, 513)),
            (MOVES_ON, |ran| ran.after.counts[1] = 2),
            (MOVES_ON, |ran| ran.moves[0].from = 0),
            (MOVES_ON, |ran| ran.moves[0].from = 64),
            (alone, |ran| ran.after.cpu[0] = 0),
            (alone, |ran| ran.after.cpu[0] = 2),
        ];
        for (index, (text, spoil)) in spoilt.iter().enumerate() {
            let mut ran = last(text);
            assert!(ran.leavers().is_ok());
            spoil(&mut ran);
            let contradicts = "the rows after 'take CPU 0 offline' contradict its moves";
            assert_eq!(ran.leavers(), Err(contradicts.to_string()), "{index}");
        }
    }

    /// An event on five CPUs and twelve tasks, some of equal priority.
    fn random_event(random: &mut impl FnMut(u64) -> u64) -> Event {
        let kind = [1, 1, 3, 3, 3, 4, 5, 6, 8, 9, 10, 11][random(12) as usize];
        let who = random(if kind <= 6 { 12 } else { 5 }) as u32;
        let b = if kind == 9 { random(2) } else { 1 + random(5) } as u32;
        Event::new(kind, who, 1, b, 1 + random(31))
    }

    /// Whatever came before, by the rule: to the lowest-numbered online CPU of the task's. If nobody moved, it stands in the rows
    /// after as it came.
    #[test]
    fn each_goes_where_the_rule_sends_it() {
        let mut seed = 1_u64;
        let mut random = move |below: u64| {
            seed = seed.wrapping_mul(6_364_136_223_846_793_005).wrapping_add(1);
            (seed >> 33) % below
        };
        let mut tables = Tables::fresh(5).unwrap();
        let (mut stayed, mut moved_on) = (0, 0);
        for _ in 0..20_000 {
            let event = random_event(&mut random);
            let Some(ran) = ran(tables.clone(), event) else {
                continue;
            };
            for leaver in ran.leavers().unwrap() {
                let task = leaver.who.task;
                let allowed = ran.after.mask[task as usize] & ran.after.online;
                assert_eq!(u32::from(leaver.to), allowed.trailing_zeros());
                if ran.moves.is_empty() {
                    assert_eq!(
                        behind(leaver),
                        ahead(task, ran.after.row(leaver.to as usize))
                    );
                    stayed += 1;
                }
                moved_on += usize::from(ran.moves.iter().any(|m| m.task == task));
            }
            tables = ran.after;
        }
        assert!(stayed > 100 && moved_on > 20, "{stayed} {moved_on}");
    }

    fn behind(leaver: Leaver) -> Option<u16> {
        match leaver.finds {
            Finds::Behind(other) => Some(other.task),
            _ => None,
        }
    }

    /// Who stands right before a task in its row.
    fn ahead(task: u16, row: &[u16]) -> Option<u16> {
        let place = row.iter().position(|&other| other == task).unwrap();
        place.checked_sub(1).map(|place| row[place])
    }
}
