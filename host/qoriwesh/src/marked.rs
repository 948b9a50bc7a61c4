//! The marked examples of document 01: events in the language of `explain`, and the values that it gives. The fourth
//! numbers of the log are those of document 02, request L2, and K11's row is that of request L3. Each names document 01's
//! full slice, as request L7 asks of K9.

use crate::show::Step;
use crate::{render, words};
use binding::Tables;

/// A value that document 01 gives.
pub enum Fact {
    /// The number of moves of the last event.
    Moves(u64),
    /// All moves of the last event: task, from, to, and the level of `to` before.
    Log(&'static [[u16; 4]]),
    Moved {
        task: u16,
        to: u16,
    },
    Rows(&'static [&'static [u16]]),
    Counts(&'static [u16]),
    Levels(&'static [u8]),
    /// The CPUs of tasks 0 and up.
    CpuOfTasks(&'static [u8]),
    Slice {
        task: usize,
        ticks: u16,
    },
    Idle {
        cpu: usize,
    },
    /// The last event's answer: accepted (0) or the refusal's number.
    Answer(u8),
}

/// Events in the language of `explain`, and what holds after them.
pub struct Part(pub &'static str, pub &'static [Fact]);

/// A marked example: it may go on from another.
pub struct Example {
    pub name: &'static str,
    pub title: &'static str,
    pub after: Option<&'static str>,
    pub parts: &'static [Part],
}

use Fact::*;

pub const EXAMPLES: &[Example] = &[
    Example {
        name: "K1",
        title: "one task on one CPU",
        after: None,
        parts: &[Part(
            "cpus 1 slice 100\nadd 0 fifo 50 0\nwake 0",
            &[Rows(&[&[0]]), Levels(&[52]), Moves(0)],
        )],
    },
    Example {
        name: "K2",
        title: "the higher task takes the CPU, the lower one an idle CPU",
        after: None,
        parts: &[Part(
            "cpus 2 slice 100\nadd 0 fifo 50 0-1\nadd 1 fifo 40 0-1\nwake 1\nwake 0",
            &[Log(&[[1, 0, 1, 0]]), Rows(&[&[0], &[1]]), Levels(&[52, 42])],
        )],
    },
    Example {
        name: "K3",
        title: "an equal does not outrank",
        after: Some("K2"),
        parts: &[Part(
            "add 2 fifo 40 0-1\nwake 2",
            &[Rows(&[&[0, 2], &[1]]), Moves(0)],
        )],
    },
    Example {
        name: "K4",
        title: "the next in the row runs",
        after: Some("K3"),
        parts: &[Part("sleep 0", &[Rows(&[&[2], &[1]]), Moves(0)])],
    },
    Example {
        name: "K5",
        title: "a wake that makes a chain of two moves",
        after: None,
        parts: &[
            Part(
                "cpus 3 slice 100\nadd 0 fifo 30 0-1\nadd 1 fifo 20 1-2\nadd 2 fifo 10 2\nadd 3 fifo 40 0\nwake 0",
                &[Moves(0)],
            ),
            Part("wake 1", &[Moves(0)]),
            Part("wake 2", &[Rows(&[&[0], &[1], &[2]]), Moves(0)]),
            Part(
                "wake 3",
                &[
                    Moves(2),
                    Log(&[[0, 0, 1, 22], [1, 1, 2, 12]]),
                    Rows(&[&[3], &[0], &[1, 2]]),
                    Counts(&[1, 1, 2]),
                    Levels(&[42, 32, 22]),
                    CpuOfTasks(&[1, 2, 2, 0]),
                ],
            ),
        ],
    },
    Example {
        name: "K6",
        title: "running tasks are not moved to an idle CPU",
        after: Some("K5"),
        parts: &[Part("sleep 3", &[Idle { cpu: 0 }, Moves(0)])],
    },
    Example {
        name: "K7",
        title: "a lower task moves past a pinned one",
        after: None,
        parts: &[Part(
            "cpus 2 slice 100\nadd 0 fifo 60 0\nadd 1 fifo 50 0\nadd 2 fifo 40 0-1\nwake 0\nwake 1\nwake 2",
            &[Moved { task: 2, to: 1 }],
        )],
    },
    Example {
        name: "K8",
        title: "a new mask sends a running task away, and another in its place",
        after: Some("K2"),
        parts: &[Part(
            "affinity 0 1",
            &[Rows(&[&[1], &[0]]), Log(&[[1, 1, 0, 0]])],
        )],
    },
    Example {
        name: "K9",
        title: "an rr task whose slice ends goes behind its equals",
        after: None,
        parts: &[
            Part(
                "cpus 1 slice 100\nadd 0 rr 20 0\nadd 1 rr 20 0\nwake 0\nwake 1\ntick 0 99",
                &[Rows(&[&[0, 1]]), Slice { task: 0, ticks: 1 }],
            ),
            Part("tick 0", &[Rows(&[&[1, 0]]), Slice { task: 0, ticks: 100 }]),
        ],
    },
    Example {
        name: "K10",
        title: "an idle CPU is taken before one with ordinary work",
        after: None,
        parts: &[
            Part(
                "cpus 3 slice 100\nordinary 1 on\nadd 0 fifo 50 0-2\nadd 1 fifo 40 0-2\nwake 0",
                &[Rows(&[&[0], &[], &[]])],
            ),
            Part("wake 1", &[Moved { task: 1, to: 2 }]),
        ],
    },
    Example {
        name: "K11",
        title: "a lowered task goes before its equals",
        after: None,
        parts: &[
            Part(
                "cpus 1 slice 100\nadd 0 fifo 50 0\nadd 1 fifo 30 0\nwake 0\nwake 1",
                &[Rows(&[&[0, 1]])],
            ),
            Part("prio 0 30", &[Rows(&[&[0, 1]])]),
        ],
    },
    Example {
        name: "K12",
        title: "what is refused, and what is just allowed",
        after: None,
        parts: &[
            Part("cpus 0 slice 100", &[Answer(1)]),
            Part("cpus 65 slice 100", &[Answer(1)]),
            Part("cpus 64 slice 100", &[Answer(0)]),
            Part("cpus 2 slice 100\nadd 512 fifo 50 0", &[Answer(4)]),
            Part("add 0 fifo 50 0\nwake 0\nwake 0", &[Answer(5)]),
            Part("add 1 fifo 0 0", &[Answer(7)]),
            Part("add 1 fifo 100 0", &[Answer(7)]),
            Part("prio 0 0", &[Answer(7)]),
            Part("prio 0 100", &[Answer(7)]),
            Part("add 1 fifo 50 0x0", &[Answer(8)]),
            Part("add 1 fifo 50 0x4", &[Answer(8)]),
            Part("yield 1", &[Answer(9)]),
            Part("add 511 fifo 1 0", &[Answer(0)]),
            Part("add 1 fifo 99 0", &[Answer(0)]),
        ],
    },
];

impl Fact {
    /// What document 01 says.
    pub fn expected(&self) -> String {
        match self {
            Moves(count) => words::moves(*count),
            Log(entries) => log(entries.iter().copied()),
            Moved { task, to } => format!("task {task} moves to CPU {to}"),
            Rows(rows) => format!("rows {}", render::brackets(rows.iter().copied())),
            Counts(counts) => format!("counts {}", render::spaced(counts.iter())),
            Levels(levels) => format!("levels {}", render::spaced(levels.iter())),
            CpuOfTasks(cpus) => cpus_of_tasks(cpus),
            Slice { task, ticks } => format!("slice {ticks} of task {task}"),
            Idle { cpu } => format!("CPU {cpu} idle"),
            Answer(answer) => answered(*answer),
        }
    }

    /// The same of the machine and its last event, in the same words.
    pub fn found(&self, t: &Tables, last: &Step) -> String {
        match self {
            Moves(_) => words::moves(last.moves.len() as u64),
            Log(_) => log(last
                .moves
                .iter()
                .map(|m| [m.task, m.from, m.to, m.displaced])),
            Moved { task, .. } => match last.moves.iter().find(|m| m.task == *task) {
                Some(m) => format!("task {task} moves to CPU {}", m.to),
                None => format!("task {task} does not move"),
            },
            Rows(_) => format!("rows {}", render::brackets((0..t.n).map(|cpu| t.row(cpu)))),
            Counts(_) => format!("counts {}", render::spaced(t.counts.iter())),
            Levels(_) => format!("levels {}", render::spaced(t.levels[..t.n].iter())),
            CpuOfTasks(cpus) => cpus_of_tasks(&t.cpu[..cpus.len()]),
            Slice { task, .. } => format!("slice {} of task {task}", t.slice[*task]),
            Idle { cpu } => match t.levels[*cpu] {
                0 => format!("CPU {cpu} idle"),
                level => format!("CPU {cpu} at level {level}"),
            },
            Answer(_) => answered(last.answer),
        }
    }
}

fn log(entries: impl Iterator<Item = [u16; 4]>) -> String {
    let entry = |numbers: [u16; 4]| format!("({})", numbers.map(|n| n.to_string()).join(","));
    let entries: Vec<String> = entries.map(entry).collect();
    format!("log {}", entries.join(" "))
}

fn cpus_of_tasks(cpus: &[u8]) -> String {
    format!(
        "CPUs of tasks 0 to {}: {}",
        cpus.len() - 1,
        render::spaced(cpus.iter())
    )
}

fn answered(answer: u8) -> String {
    match answer {
        0 => "accepted".to_string(),
        _ => format!("refused ({answer})"),
    }
}
