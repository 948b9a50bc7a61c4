//! Rows, levels, moves and who leaves a CPU as aligned lines of at most 80 columns.

use crate::evacuation::{Finds, Leaver, Ranked};
use crate::log::Move;
use binding::Tables;

/// Columns of a line, at most.
pub const WIDTH: usize = 80;
/// A space at which no line is broken. `wrap` turns it into a space.
const TIE: &str = "\u{1f}";

/// The text, to be broken nowhere.
pub fn tied(text: &str) -> String {
    text.replace(' ', TIE)
}

/// CPUs side by side that show the same, and what they show.
struct Cpus {
    first: usize,
    last: usize,
    /// None, if they are offline.
    level: Option<u8>,
    runs: String,
    waits: String,
}

/// A line for each CPU: its level, what runs and what waits, or that it is offline. Neighbours without a task share a line.
pub fn state(tables: &Tables) -> Vec<String> {
    let mut shown: Vec<Cpus> = Vec::new();
    for cpu in 0..tables.n {
        let next = cpus(tables, cpu);
        match shown.last_mut() {
            Some(last) if tables.row(cpu).is_empty() && last.runs == next.runs => last.last = cpu,
            _ => shown.push(next),
        }
    }
    let labels: Vec<String> = shown.iter().map(label).collect();
    let label_width = widest(&labels);
    let online = shown.iter().filter(|cpus| cpus.level.is_some());
    let runs_width = online.map(|cpus| cpus.runs.len()).max().unwrap_or(0);
    let line = |(cpus, label): (&Cpus, &String)| {
        let Cpus { runs, waits, .. } = cpus;
        let shows = match cpus.level {
            Some(level) => format!("level {level:>3}  {runs:<runs_width$}  {waits}"),
            None => runs.clone(),
        };
        let line = format!("{label:<label_width$}  {shows}");
        line.trim_end().to_string()
    };
    shown.iter().zip(&labels).map(line).collect()
}

fn cpus(tables: &Tables, cpu: usize) -> Cpus {
    let (row, busy) = (tables.row(cpu), tables.flags[cpu] == 1);
    let online = tables.is_online(cpu);
    let (runs, waits) = match row.split_first() {
        None => (without_task(online, busy).to_string(), String::new()),
        Some((&first, rest)) => {
            let mut waits: Vec<String> = rest
                .iter()
                .map(|&task| tied(&numbered(tables, task)))
                .collect();
            waits.extend(busy.then(|| "ordinary work".to_string()));
            let waits = match waits.is_empty() {
                true => String::new(),
                false => format!("waiting: {}", waits.join(", ")),
            };
            (format!("task {}", numbered(tables, first)), waits)
        }
    };
    Cpus {
        first: cpu,
        last: cpu,
        level: online.then_some(tables.levels[cpu]),
        runs,
        waits,
    }
}

/// What a CPU shows whose row is empty. The flag of an offline one says what it has once it is back.
fn without_task(online: bool, busy: bool) -> &'static str {
    match (online, busy) {
        (true, false) => "idle",
        (true, true) => "ordinary work",
        (false, false) => "offline",
        (false, true) => "offline, ordinary work",
    }
}

fn label(cpus: &Cpus) -> String {
    if cpus.first == cpus.last {
        format!("CPU {}", cpus.first)
    } else {
        format!("CPU {}-{}", cpus.first, cpus.last)
    }
}

/// `3 (40)`: task 3 of priority 40. An rr task also shows the ticks it has left: `3 (40, rr 100)`.
fn numbered(tables: &Tables, task: u16) -> String {
    let at = task as usize;
    match tables.policy[at] {
        2 => format!("{task} ({}, rr {})", tables.prio[at], tables.slice[at]),
        _ => format!("{task} ({})", tables.prio[at]),
    }
}

/// A line for each move: who, from where to where, over what, and the destination's level before and after.
pub fn moves(moves: &[Move]) -> Vec<String> {
    let row = |(index, m): (usize, &Move)| {
        [
            format!("move {}", index + 1),
            format!("task {} ({})", m.task, m.prio),
            format!("CPU {} -> {}", m.from, m.to),
            over(m.displaced),
            format!("level {} -> {}", m.displaced, m.prio + 2),
        ]
    };
    aligned(moves.iter().enumerate().map(row).collect())
}

/// A line for each task that leaves a CPU that is taken offline: who, from where to where, and whom or what it finds there.
pub fn leavers(leavers: &[Leaver]) -> Vec<String> {
    let row = |leaver: &Leaver| {
        let Leaver { from, to, .. } = leaver;
        [
            "leaves".to_string(),
            ranked(leaver.who),
            format!("CPU {from} -> {to}"),
            found(leaver.finds),
        ]
    };
    aligned(leavers.iter().map(row).collect())
}

/// `task 3 (40)`
fn ranked(Ranked { task, prio }: Ranked) -> String {
    format!("task {task} ({prio})")
}

fn found(finds: Finds) -> String {
    match finds {
        Finds::Behind(other) => format!("behind {}", ranked(other)),
        Finds::Before(other) => format!("before {}", ranked(other)),
        Finds::OrdinaryWork => over(1),
        Finds::Idle => over(0),
    }
}

/// Lines whose cells stand in columns.
fn aligned<const K: usize>(rows: Vec<[String; K]>) -> Vec<String> {
    let mut widths = [0; K];
    for row in &rows {
        for (width, cell) in widths.iter_mut().zip(row) {
            *width = cell.len().max(*width);
        }
    }
    let line = |row: &[String; K]| {
        let cell = |(text, width): (&String, &usize)| format!("{text:<width$}");
        let cells: Vec<String> = row.iter().zip(&widths).map(cell).collect();
        cells.join("  ").trim_end().to_string()
    };
    rows.iter().map(line).collect()
}

/// What a CPU of this level did.
fn over(level: u16) -> String {
    match level {
        0 => "which was idle".to_string(),
        1 => "over ordinary work".to_string(),
        _ => format!("over priority {}", level - 2),
    }
}

/// Rows as document 01 writes them: `[0,2] [1]`.
pub fn brackets<'a>(rows: impl Iterator<Item = &'a [u16]>) -> String {
    let row = |row: &[u16]| {
        let numbers: Vec<String> = row.iter().map(u16::to_string).collect();
        format!("[{}]", numbers.join(","))
    };
    rows.map(row).collect::<Vec<_>>().join(" ")
}

/// The text in lines of at most 80 columns: the first indented by `first`, the others by `rest`. Lines
/// break at spaces, and inside a list of CPUs that fits no line, after a comma.
pub fn wrap(text: &str, first: usize, rest: usize) -> Vec<String> {
    let mut lines = Vec::new();
    let mut line = " ".repeat(first);
    let mut fresh = true;
    for word in text.split(' ') {
        for (index, piece) in pieces(word, WIDTH - rest).iter().enumerate() {
            let space = usize::from(!fresh);
            if index > 0 || (!fresh && line.len() + space + piece.len() > WIDTH) {
                lines.push(line.trim_end().to_string());
                line = " ".repeat(rest);
            } else if !fresh {
                line.push(' ');
            }
            line.push_str(&piece.replace(TIE, " "));
            fresh = false;
        }
    }
    lines.push(line.trim_end().to_string());
    lines
}

/// A word in pieces that fit a line.
fn pieces(word: &str, room: usize) -> Vec<String> {
    if word.len() <= room {
        return vec![word.to_string()];
    }
    let mut pieces = vec![String::new()];
    for part in word.split_inclusive(',') {
        match pieces.last_mut() {
            Some(last) if last.len() + part.len() <= room => last.push_str(part),
            _ => pieces.push(part.to_string()),
        }
    }
    pieces
}

fn widest(texts: &[String]) -> usize {
    texts.iter().map(String::len).max().unwrap_or(0)
}

/// Numbers with spaces between them.
pub fn spaced<T: ToString>(numbers: impl Iterator<Item = T>) -> String {
    let texts: Vec<String> = numbers.map(|number| number.to_string()).collect();
    texts.join(" ")
}

#[cfg(test)]
mod tests {
    use super::*;

    #[test]
    fn wrapping_breaks_at_spaces() {
        let text = "word ".repeat(40);
        for line in wrap(text.trim(), 2, 6) {
            assert!(line.len() <= WIDTH && line.len() > 70 || line.starts_with("      "));
        }
        assert_eq!(wrap("short", 4, 6), ["    short"]);
        assert_eq!(wrap("a  b", 0, 2), ["a  b"]);
        let pairs = vec![tied("12 (34)"); 20].join(", ");
        for line in wrap(&pairs, 6, 8) {
            assert!(line.trim_end_matches(',').ends_with("12 (34)"), "{line}");
            assert!(line.trim_start().starts_with("12 (34)"), "{line}");
        }
    }

    #[test]
    fn wrapping_breaks_long_lists_after_commas() {
        let list: Vec<String> = (0..64).step_by(2).map(|cpu| cpu.to_string()).collect();
        let text = format!("CPUs {} for task 0", list.join(","));
        let lines = wrap(&text, 6, 6);
        assert!(lines.len() > 1);
        assert!(lines.iter().all(|line| line.len() <= WIDTH), "{lines:?}");
        let joined: String = lines.iter().map(|line| line.trim()).collect();
        assert_eq!(joined.replace(' ', ""), text.replace(' ', ""));
    }

    #[test]
    fn neighbours_without_a_task_share_a_line() {
        let mut tables = Tables::fresh(64).unwrap();
        assert_eq!(state(&tables), ["CPU 0-63  level   0  idle"]);
        let ordinary = binding::Event {
            kind: 9,
            who: 2,
            a: 0,
            b: 1,
            mask: 0,
        };
        assert_eq!(tables.event(ordinary).answer, 0);
        assert_eq!(
            state(&tables),
            [
                "CPU 0-1   level   0  idle",
                "CPU 2     level   1  ordinary work",
                "CPU 3-63  level   0  idle"
            ]
        );
    }

    #[test]
    fn offline_cpus_have_no_level() {
        let mut tables = Tables::fresh(64).unwrap();
        let mut event = |kind, who, b| {
            let event = binding::Event::new(kind, who, 1, b, 1 << 5);
            assert_eq!(tables.event(event).answer, 0);
            state(&tables)
        };
        event(10, 0, 0);
        event(10, 1, 0);
        event(9, 1, 1);
        event(9, 2, 1);
        event(10, 3, 0);
        event(10, 4, 0);
        event(1, 7, 9);
        let shown = event(3, 7, 0);
        assert_eq!(
            shown,
            [
                "CPU 0     offline",
                "CPU 1     offline, ordinary work",
                "CPU 2     level   1  ordinary work",
                "CPU 3-4   offline",
                "CPU 5     level  11  task 7 (9)",
                "CPU 6-63  level   0  idle"
            ]
        );
    }

    #[test]
    fn leavers_say_whom_they_found() {
        let ranked = |task, prio| Ranked { task, prio };
        let shown = |task, prio, to, finds| Leaver {
            who: ranked(task, prio),
            from: 63,
            to,
            finds,
        };
        let lines = leavers(&[
            shown(511, 99, 0, Finds::Before(ranked(510, 98))),
            shown(7, 99, 10, Finds::Behind(ranked(3, 99))),
            shown(12, 9, 2, Finds::OrdinaryWork),
            shown(1, 1, 3, Finds::Idle),
        ]);
        let expected = [
            "leaves  task 511 (99)  CPU 63 -> 0   before task 510 (98)",
            "leaves  task 7 (99)    CPU 63 -> 10  behind task 3 (99)",
            "leaves  task 12 (9)    CPU 63 -> 2   over ordinary work",
            "leaves  task 1 (1)     CPU 63 -> 3   which was idle",
        ];
        assert_eq!(lines, expected);
    }

    #[test]
    fn moves_say_what_they_displaced() {
        let shown = |task, prio, from, to, displaced| Move {
            task,
            prio,
            from,
            to,
            displaced,
        };
        let lines = moves(&[
            shown(511, 99, 63, 2, 100),
            shown(0, 30, 0, 1, 3),
            shown(7, 9, 10, 0, 1),
            shown(12, 1, 1, 3, 0),
        ]);
        let expected = [
            "move 1  task 511 (99)  CPU 63 -> 2  over priority 98    level 100 -> 101",
            "move 2  task 0 (30)    CPU 0 -> 1   over priority 1     level 3 -> 32",
            "move 3  task 7 (9)     CPU 10 -> 0  over ordinary work  level 1 -> 11",
            "move 4  task 12 (1)    CPU 1 -> 3   which was idle      level 0 -> 3",
        ];
        assert_eq!(lines, expected);
    }

    #[test]
    fn the_widest_moves_fit_a_line() {
        let widest = Move {
            task: 511,
            prio: 99,
            from: 63,
            to: 62,
            displaced: 100,
        };
        for line in moves(&[widest; 63]) {
            assert!(line.len() + 6 <= WIDTH, "{line}");
        }
    }
}
