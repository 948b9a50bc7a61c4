//! Runs actions on a machine and shows what each did.

use crate::cycle::Cycle;
use crate::evacuation::{self, Leaver};
use crate::log::{self, Move};
use crate::parse::Action;
use crate::{render, words};
use binding::{Event, Made, Outcome, Tables, SLICE_DEFAULT};
use std::io::{self, Write};

/// Where an event's answer begins, if it stands on the event's line.
const ANSWER: usize = 60;
/// Where what belongs to an event begins.
const INDENT: usize = 6;

/// Why nothing more can be shown.
#[derive(Debug)]
pub enum Failure {
    /// The output cannot be written.
    Output(io::Error),
    /// The library's answer does not fit its tables.
    Defect(String),
}

impl From<io::Error> for Failure {
    fn from(error: io::Error) -> Failure {
        Failure::Output(error)
    }
}

/// What the last event, or the making of a machine, answered.
#[derive(Clone, Debug, Default, PartialEq, Eq)]
pub struct Step {
    pub answer: u8,
    pub moves: Vec<Move>,
    /// Who left a CPU that was taken offline, before the moves.
    pub leavers: Vec<Leaver>,
}

impl Step {
    /// An answer, and no task that left or moved.
    fn of(answer: u8) -> Step {
        Step {
            answer,
            ..Step::default()
        }
    }

    /// Accepted, and no task moved.
    fn is_quiet(&self) -> bool {
        self.answer == 0 && self.moves.is_empty()
    }
}

/// How many events were accepted and refused, and the moves. A refused machine counts as refused.
#[derive(Clone, Copy, Debug, Default, PartialEq, Eq)]
pub struct Tally {
    pub accepted: u64,
    pub refused: u64,
    pub moves: u64,
    /// The events that the library ran. What the others do followed from tables that came again.
    pub run: u64,
}

impl Tally {
    /// `9 accepted, 1 refused, 2 moves in all`
    pub fn words(&self) -> String {
        let (accepted, refused) = (self.accepted, self.refused);
        let moves = words::moves(self.moves);
        format!("{accepted} accepted, {refused} refused, {moves} in all")
    }
}

/// What stands before an event or a machine: its number and, of an event that has one, its stamp.
#[derive(Clone, Copy)]
struct Mark {
    number: usize,
    stamp: Option<u32>,
}

/// A machine, and where its story is told.
pub struct Show<'a> {
    out: &'a mut dyn Write,
    /// Of what is done, only what was refused is shown.
    refusals: bool,
    pub tables: Tables,
    /// The tables are a machine's: until a machine is made, the library refuses every event with 1.
    made: bool,
    /// The rows and levels shown last.
    shown: Vec<String>,
    /// Of the line before, if it repeats an event.
    cycle: Option<Cycle>,
    pub tally: Tally,
}

impl<'a> Show<'a> {
    pub fn new(out: &'a mut dyn Write) -> Show<'a> {
        Show {
            out,
            refusals: false,
            tables: Tables::zeroed(0),
            made: false,
            shown: Vec::new(),
            cycle: None,
            tally: Tally::default(),
        }
    }

    /// Shows refusals alone.
    pub fn refusals(out: &'a mut dyn Write) -> Show<'a> {
        Show {
            refusals: true,
            ..Show::new(out)
        }
    }

    /// Goes on with a machine that another run made, and shows it.
    pub fn resume(out: &'a mut dyn Write, tables: Tables) -> Result<Show<'a>, Failure> {
        let mut show = Show::new(out);
        show.tables = tables;
        show.made = true;
        show.state()?;
        Ok(show)
    }

    /// Does what a line asks for; `number` is shown before it. The last step of it is handed back.
    pub fn action(&mut self, number: usize, action: Action) -> Result<Step, Failure> {
        let cycle = self.cycle.take();
        match action {
            Action::Machine { cpus, slice, .. } => self.machine(number, cpus, slice),
            Action::Event {
                stamp,
                event,
                times,
            } => {
                let mark = Mark { number, stamp };
                if times == 1 {
                    return self.event(mark, event);
                }
                let cycle = cycle.filter(|cycle| cycle.is_of(event));
                let cycle = cycle.unwrap_or_else(|| Cycle::new(event, &self.tables));
                self.events(mark, event, u64::from(times), cycle)
            }
        }
    }

    /// Makes a fresh machine. If that is refused, the earlier one stays.
    fn machine(&mut self, number: usize, n: usize, slice: Option<u32>) -> Result<Step, Failure> {
        let (fresh, made) = make(n, slice);
        let answer = made.answer;
        let stamp = None;
        let mark = Mark { number, stamp };
        if answer == 0 {
            self.shown = render::state(&fresh);
            let title = words::machine(n, Some(made.full_slice));
            if !self.refusals {
                self.titled(mark, &title, "made, all idle")?;
            }
        } else {
            self.tally.refused += 1;
            let stays = match self.made {
                true => "the earlier machine stays as it was",
                false => "there is no machine",
            };
            let why = words::refused_machine(answer, &fresh);
            let title = words::machine(n, slice);
            self.titled(mark, &title, &format!("{why}; {stays}"))?;
        }
        if answer == 0 || !self.made {
            self.tables = fresh;
            self.made = answer == 0;
        }
        Ok(Step::of(answer))
    }

    /// An event once.
    fn event(&mut self, mark: Mark, event: Event) -> Result<Step, Failure> {
        let before = self.tables.clone();
        let step = self.handle(&before, event)?;
        self.step(mark, event, &step)?;
        Ok(step)
    }

    /// The same event several times. Those without moves are shown together; a refusal ends them.
    fn events(
        &mut self,
        mark: Mark,
        event: Event,
        mut left: u64,
        mut cycle: Cycle,
    ) -> Result<Step, Failure> {
        let mut quiet = 0;
        let mut last = Step::default();
        loop {
            let skipped = cycle.skip(left, &mut self.tables);
            self.tally.accepted += skipped;
            quiet += skipped;
            left -= skipped;
            if left == 0 {
                break;
            }
            let before = self.tables.clone();
            last = self.handle(&before, event)?;
            left -= 1;
            if last.is_quiet() {
                quiet += 1;
                cycle.see(&self.tables);
                continue;
            }
            self.quiet(mark, event, quiet, &before)?;
            quiet = 0;
            self.step(mark, event, &last)?;
            if last.answer != 0 {
                return Ok(last);
            }
            cycle = Cycle::new(event, &self.tables);
        }
        let tables = self.tables.clone();
        self.quiet(mark, event, quiet, &tables)?;
        self.cycle = Some(cycle);
        Ok(last)
    }

    /// One event through the library, counted.
    fn handle(&mut self, before: &Tables, event: Event) -> Result<Step, Failure> {
        let outcome = self.tables.event(event);
        let step = judged(before, event, &self.tables, outcome).map_err(Failure::Defect)?;
        self.count(&step);
        Ok(step)
    }

    fn count(&mut self, step: &Step) {
        self.tally.accepted += u64::from(step.answer == 0);
        self.tally.refused += u64::from(step.answer != 0);
        self.tally.moves += step.moves.len() as u64;
        self.tally.run += 1;
    }

    /// Shows accepted events without moves, and the rows after them.
    fn quiet(&mut self, mark: Mark, e: Event, times: u64, after: &Tables) -> Result<(), Failure> {
        if times == 0 || self.refusals {
            return Ok(());
        }
        self.titled(mark, &words::events(e, times), &words::accepted(0))?;
        self.changed(after)
    }

    /// Shows one event, with who leaves a CPU, its moves and the rows after it.
    fn step(&mut self, mark: Mark, event: Event, step: &Step) -> Result<(), Failure> {
        let title = words::event(event);
        if step.answer != 0 {
            let why = words::refused(step.answer, event, &self.tables);
            return self.titled(mark, &title, &format!("{why}; nothing was changed"));
        }
        if self.refusals {
            return Ok(());
        }
        self.titled(mark, &title, &words::accepted(step.moves.len()))?;
        for line in render::leavers(&step.leavers) {
            self.line(&line)?;
        }
        for line in render::moves(&step.moves) {
            self.line(&line)?;
        }
        self.state()
    }

    /// A number, a stamp, what is done and what is answered: on one line if there is room.
    fn titled(&mut self, mark: Mark, title: &str, answer: &str) -> Result<(), Failure> {
        let Mark { number, stamp } = mark;
        let line = match stamp {
            Some(stamp) => format!("{number:>4}  @{stamp}  {title}"),
            None => format!("{number:>4}  {title}"),
        };
        if line.len() + 2 <= ANSWER && ANSWER + answer.len() <= render::WIDTH {
            writeln!(self.out, "{line:<ANSWER$}{answer}")?;
            return Ok(());
        }
        for line in render::wrap(&line, 0, INDENT) {
            writeln!(self.out, "{line}")?;
        }
        self.line(answer)
    }

    /// Rows and levels, if they are not those shown last.
    fn changed(&mut self, tables: &Tables) -> Result<(), Failure> {
        let state = render::state(tables);
        if state == self.shown {
            return Ok(());
        }
        for line in &state {
            self.line(line)?;
        }
        self.shown = state;
        Ok(())
    }

    /// Rows and levels, if there is a machine.
    pub fn rows(&mut self) -> Result<(), Failure> {
        if !self.made {
            return Ok(());
        }
        self.shown.clear();
        self.state()
    }

    fn state(&mut self) -> Result<(), Failure> {
        let tables = self.tables.clone();
        self.changed(&tables)
    }

    /// A text below an event.
    pub fn line(&mut self, text: &str) -> Result<(), Failure> {
        for line in render::wrap(text, INDENT, INDENT + 2) {
            writeln!(self.out, "{line}")?;
        }
        Ok(())
    }
}

/// Tables in which a machine was made, or refused: then they are none, and have its numbers.
pub fn make(n: usize, slice: Option<u32>) -> (Tables, Made) {
    let mut tables = Tables::zeroed(n);
    tables.full_slice = slice.unwrap_or(SLICE_DEFAULT);
    let made = match slice {
        Some(_) => tables.make_fresh(),
        None => tables.make_fresh_default(),
    };
    (tables, made)
}

/// The outcome with its moves, and with who left a CPU before them. That a refusal changes nothing is looked at.
fn judged(before: &Tables, e: Event, after: &Tables, outcome: Outcome) -> Result<Step, String> {
    let Outcome { answer, moves } = outcome;
    if answer == 0 {
        let moves = log::moves(after, moves)?;
        let leavers = evacuation::leavers(before, e, after, &moves)?;
        return Ok(Step {
            answer,
            moves,
            leavers,
        });
    }
    if before != after || moves != 0 {
        let event = words::event(e);
        return Err(format!("refusal {answer} of '{event}' changed something"));
    }
    Ok(Step::of(answer))
}

#[cfg(test)]
mod tests {
    use super::*;
    use crate::parse::parse;

    fn told(text: &str) -> (String, Tally) {
        let mut out = Vec::new();
        let mut show = Show::new(&mut out);
        for line in parse(text.as_bytes()).unwrap() {
            show.action(line.number, line.action).unwrap();
        }
        let tally = show.tally;
        (String::from_utf8(out).unwrap(), tally)
    }

    #[test]
    fn a_refused_machine_leaves_the_earlier_one() {
        let (text, tally) = told("cpus 2\ncpus 65\nadd 0 fifo 9 1\nwake 0");
        assert!(text.contains("not 65; the earlier machine stays"), "{text}");
        assert!(text.contains("CPU 1  level  11  task 0 (9)"), "{text}");
        assert_eq!((tally.accepted, tally.refused), (2, 1));
    }

    /// Its slice stays too.
    #[test]
    fn a_refused_slice_leaves_the_earlier_machine() {
        let (text, tally) = told("cpus 2 slice 7\ncpus 3 slice 1001\nadd 0 rr 9 1\nwake 0");
        assert!(text.contains("a machine of 2 CPUs, slice 7 "), "{text}");
        let refused = "a slice has 1 to 1000 ticks, not 1001; the earlier machine";
        assert!(text.contains(refused), "{text}");
        assert!(
            text.contains("CPU 1  level  11  task 0 (9, rr 7)"),
            "{text}"
        );
        assert_eq!((tally.accepted, tally.refused), (2, 1));
    }

    /// 25 ticks, if none are named.
    #[test]
    fn a_machine_is_shown_with_its_slice() {
        let (text, _) = told("cpus 1\nadd 0 rr 9 0\nwake 0\ncpus 64 slice 1000");
        assert!(text.contains("a machine of 1 CPU, slice 25 "), "{text}");
        assert!(text.contains("task 0 (9, rr 25)"), "{text}");
        assert!(text.contains("a machine of 64 CPUs, slice 1000 "), "{text}");
    }

    /// Of one event, of several together, and of a refused one.
    #[test]
    fn a_stamp_is_shown_before_its_event() {
        let (text, _) = told("cpus 1\n@4294967295 add 0 rr 9 0\n@7 tick 0 3\n@8 wake 1\nwake 0");
        for line in [
            "   2  @4294967295  add task 0: rr, priority 9, CPU 0        accepted, 0 moves\n",
            "   3  @7  tick on CPU 0, 3 times                            accepted, 0 moves\n",
            "   4  @8  wake task 1\n      refused (5)",
            "   5  wake task 0 ",
        ] {
            assert!(text.contains(line), "{text}");
        }
    }

    #[test]
    fn without_a_machine_every_event_is_refused_with_1() {
        let (text, tally) = told("cpus 0\nwake 0\ncpus 1\nadd 0 fifo 9 0");
        assert!(text.contains("not 0; there is no machine"), "{text}");
        assert!(text.contains("refused (1)"), "{text}");
        assert_eq!((tally.accepted, tally.refused), (1, 2));
    }

    /// Two rr tasks of CPU 0 take turns; task 0, put behind, may go to CPU 1 after the flag is gone.
    #[test]
    fn a_tick_that_moves_is_shown_by_itself() {
        let tasks = "add 0 rr 9 0-1\nadd 1 rr 9 0\nadd 2 fifo 5 1\nwake 0\nwake 1\nwake 2";
        for (machine, full_slice) in [("cpus 2", 25), ("cpus 2 slice 100", 100)] {
            let ticks = full_slice + 5;
            let (text, tally) = told(&format!("{machine}\n{tasks}\ntick 0 {ticks}"));
            let before = format!("tick on CPU 0, {} times", full_slice - 1);
            assert!(text.contains(&before), "{text}");
            assert!(
                text.contains("move 1  task 0 (9)  CPU 0 -> 1  over priority 5  level 7 -> 11"),
                "{text}"
            );
            assert!(text.contains("tick on CPU 0, 5 times"), "{text}");
            assert_eq!((tally.accepted, tally.moves), (6 + ticks, 1));
        }
    }

    /// Of 9,000 ticks on three rr tasks, of which one begins with a part of its slice, most are not run.
    #[test]
    fn many_ticks_end_where_as_many_single_ones_do() {
        for full_slice in [1, 2, 25, 100, 1000] {
            many_ticks(&format!(
                "cpus 2 slice {full_slice}\nadd 0 rr 9 0\nadd 1 rr 9 0\nadd 2 rr 9 0\nadd 3 fifo 5 1\n\
                 wake 0\nwake 1\nwake 2\nwake 3\ntick 0 50\nyield 0\n"
            ));
        }
    }

    fn many_ticks(tasks: &str) {
        let end = |ticks: &str| {
            let mut out = Vec::new();
            let mut show = Show::new(&mut out);
            for line in parse(format!("{tasks}{ticks}").as_bytes()).unwrap() {
                show.action(line.number, line.action).unwrap();
            }
            let tally = Tally {
                run: 0,
                ..show.tally
            };
            (show.tables.clone(), tally)
        };
        for times in [2, 49, 50, 51, 300, 301, 777, 9000] {
            let single = end(&"tick 0\n".repeat(times));
            assert_eq!(end(&format!("tick 0 {times}")), single, "{times}");
            let half = times / 2;
            let halves = format!("tick 0 {half}\ntick 0 {}\n", times - half);
            assert_eq!(end(&halves), single, "{times} in two lines");
            let other = format!("tick 0 {half}\ntick 1 500\ntick 0 {}\n", times - half);
            assert_eq!(end(&other).0, single.0, "{times} with others between");
        }
        // A round may be longer than what a line asks for.
        let single = end(&"tick 0\n".repeat(13 * 700));
        assert_eq!(end(&"tick 0 700\n".repeat(13)), single, "13 lines");
    }

    /// On an idle CPU, under a fifo task, and under rr tasks that take turns: with the shortest slices, and with the longest,
    /// of which a round has more ticks than a line. One of them yields a part of its slice, which does not come again.
    #[test]
    fn of_many_ticks_not_one_in_a_hundred_is_run() {
        let mut tasks = "add 0 fifo 50 1\nwake 0\n".to_string();
        for task in 1..12 {
            tasks += &format!("add {task} rr 50 2\nwake {task}\n");
        }
        tasks += "tick 2 5\nyield 2\n";
        let ticks = |cpu| format!("tick {cpu} 10000\n").repeat(700);
        for (machine, cpu) in [
            ("cpus 64", 0),
            ("cpus 64", 1),
            ("cpus 64", 2),
            ("cpus 64 slice 1", 2),
            ("cpus 64 slice 1000", 2),
        ] {
            let (_, tally) = told(&format!("{machine}\n{tasks}{}", ticks(cpu)));
            assert_eq!((tally.accepted, tally.refused), (7_000_030, 0));
            assert!(tally.run < 70_000, "{machine}, CPU {cpu}: {}", tally.run);
        }
    }

    /// What is remembered of earlier ticks has another online mask.
    #[test]
    fn ticks_leave_a_cpu_offline() {
        let ticks = "tick 0 500\noffline 1\ntick 0 500\ntick 0 501\nonline 1\ntick 0 501";
        let (text, tally) = told(&format!("cpus 2 slice 2\nadd 0 rr 9 0\nwake 0\n{ticks}"));
        for (slice, cpu) in [
            (2, "level   0  idle"),
            (2, "offline"),
            (1, "offline"),
            (1, "level   0  idle"),
        ] {
            let task = format!("CPU 0  level  11  task 0 (9, rr {slice})");
            let rows = format!("      {task}\n      CPU 1  {cpu}\n");
            assert!(text.contains(&rows), "{text}");
        }
        assert_eq!((tally.accepted, tally.refused), (2 + 2002 + 2, 0));
    }

    #[test]
    fn refused_ticks_are_not_repeated() {
        let (text, tally) = told("cpus 2\ntick 2 50");
        assert_eq!(text.matches("refused (4)").count(), 1);
        assert_eq!(tally.refused, 1);
        let (text, tally) = told("cpus 2\noffline 1\ntick 1 50");
        assert_eq!(text.matches("refused (11)").count(), 1);
        assert_eq!(tally.refused, 1);
    }

    #[test]
    fn rows_are_shown_when_they_changed() {
        let (text, _) = told("cpus 1\nadd 0 fifo 9 0\nwake 0\ntick 0\nprio 0 9");
        assert_eq!(text.matches("CPU 0  level").count(), 1, "{text}");
    }

    #[test]
    fn who_leaves_is_shown_before_the_moves() {
        let tasks = "add 0 fifo 9 0-2\nadd 1 fifo 5 1-2\nwake 0\nwake 1";
        let (text, tally) = told(&format!("cpus 3\n{tasks}\noffline 0"));
        let lines = [
            "   6  take CPU 0 offline                                    accepted, 1 move",
            "      leaves  task 0 (9)  CPU 0 -> 1  before task 1 (5)",
            "      move 1  task 1 (5)  CPU 1 -> 2  which was idle  level 0 -> 7",
            "      CPU 0  offline",
            "      CPU 1  level  11  task 0 (9)",
            "      CPU 2  level   7  task 1 (5)",
        ];
        assert!(text.ends_with(&(lines.join("\n") + "\n")), "{text}");
        assert_eq!((tally.accepted, tally.moves), (5, 1));
    }

    #[test]
    fn rows_that_contradict_their_moves_are_a_defect() {
        let mut tables = Tables::fresh(2).unwrap();
        for event in [Event::new(1, 0, 1, 9, 3), Event::new(3, 0, 0, 0, 0)] {
            assert_eq!(tables.event(event).answer, 0);
        }
        let offline = Event::new(10, 0, 0, 0, 0);
        let mut after = tables.clone();
        let outcome = after.event(offline);
        assert!(judged(&tables, offline, &after, outcome).is_ok());
        after.counts[1] = 0;
        assert!(judged(&tables, offline, &after, outcome).is_err());
    }

    #[test]
    fn a_refusal_that_changes_the_online_mask_is_a_defect() {
        let tables = Tables::fresh(2).unwrap();
        let mut other = tables.clone();
        other.online = 1;
        let (answer, moves) = (12, 0);
        let refused = Outcome { answer, moves };
        let offline = Event::new(10, 1, 0, 0, 0);
        assert!(judged(&tables, offline, &tables, refused).is_ok());
        assert!(judged(&tables, offline, &other, refused).is_err());
    }

    #[test]
    fn a_refusal_that_changes_something_is_a_defect() {
        let tables = Tables::fresh(2).unwrap();
        let mut other = tables.clone();
        other.slice[511] = 1;
        let wake = Event {
            kind: 3,
            who: 0,
            a: 0,
            b: 0,
            mask: 0,
        };
        let refused = |moves| Outcome { answer: 5, moves };
        assert!(judged(&tables, wake, &tables, refused(0)).is_ok());
        assert!(judged(&tables, wake, &tables, refused(1)).is_err());
        assert_eq!(
            judged(&tables, wake, &other, refused(0)),
            Err("refusal 5 of 'wake task 0' changed something".to_string())
        );
    }
}
