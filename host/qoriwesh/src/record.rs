//! `qoriwesh record`: a text of events, written as a recording.

use crate::input::Input;
use crate::parse::{Action, Line, Problem};
use crate::recording::{First, Stamped};
use crate::script;
use binding::SLICE_DEFAULT;
use replay::RECORDS;
use std::io::{self, IsTerminal};

/// What is left undone if something is wrong.
const UNDONE: &str = "nothing was written";

/// The recording of a text; else what to say.
pub fn read(input: &Input) -> Result<Vec<u8>, String> {
    if io::stdout().is_terminal() {
        return Err(format!(
            "standard output: expected a file or a pipe, found a terminal; {UNDONE}"
        ));
    }
    let lines = script::read(input, UNDONE)?;
    recorded(&lines).map_err(|problems| {
        let could_not = format!("could not be recorded; {UNDONE}");
        script::told(&input.name(), &problems, &could_not)
    })
}

/// The recording of these lines, or every line that none can hold.
pub fn recorded(lines: &[Line]) -> Result<Vec<u8>, Vec<Problem>> {
    let mut recorder = Recorder::default();
    let mut problems = Vec::new();
    for line in lines {
        if let Err(message) = recorder.action(line.action) {
            let line = line.number;
            problems.push(Problem { line, message });
        }
    }
    if problems.is_empty() {
        Ok(recorder.bytes)
    } else {
        Err(problems)
    }
}

/// A recording that is being written.
#[derive(Default)]
struct Recorder {
    bytes: Vec<u8>,
    records: usize,
    /// The stamp of the event before; 0 before the first.
    stamp: u32,
}

impl Recorder {
    /// Writes what a line asks for, or nothing of it.
    fn action(&mut self, action: Action) -> Result<(), String> {
        match action {
            Action::Machine { cpus, slice, named } => {
                if self.records > 0 {
                    return Err("expected one 'cpus', found another".to_string());
                }
                self.records = 1;
                let slice = slice.unwrap_or(SLICE_DEFAULT);
                self.bytes = First { cpus, slice, named }.write()?;
            }
            Action::Event {
                stamp,
                event,
                times,
            } => {
                self.stamp = stamp.unwrap_or(self.stamp);
                let stamp = self.stamp;
                let record = Stamped { stamp, event }.write()?;
                self.events(&record, times as usize)?;
            }
        }
        Ok(())
    }

    /// Writes a record so many times. That there are too many records is told once.
    fn events(&mut self, record: &[u8], times: usize) -> Result<(), String> {
        if self.records > RECORDS {
            return Ok(());
        }
        self.records += times;
        if self.records > RECORDS {
            return Err(format!("expected at most {RECORDS} records, found more"));
        }
        self.bytes.extend(record.repeat(times));
        Ok(())
    }
}
