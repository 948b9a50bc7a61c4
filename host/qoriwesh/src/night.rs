//! `qoriwesh replay`: recordings, each replayed on a fresh machine.
//!
//! What a replay reports is the library's. What it does not report is read from the bytes, and how many events were refused
//! with which number is counted by running them once more, one by one; the two must agree.

use crate::input::Input;
use crate::progress::Progress;
use crate::recording::{First, Recording, Stamped, ENOUGH};
use crate::render;
use crate::show::Failure;
use crate::words;
use crate::{complain, Status};
use binding::{Tables, CPUS};
use replay::{Ending, Report};
use std::io::Write;

/// Answers of an event: 0, and the refusals.
const ANSWERS: usize = 256;
/// Where what belongs to a word begins.
const COLUMN: usize = 17;

/// Replays each input and shows it. The worst status of them all.
pub fn show(out: &mut dyn Write, inputs: &[Input]) -> Result<Status, Failure> {
    let mut progress = Progress::new();
    let mut worst = Status::Well;
    let mut between = "";
    for (index, input) in inputs.iter().enumerate() {
        let name = input.name();
        let bytes = input.read(ENOUGH, "the bytes of a recording", |count| {
            let file = format!("file {} of {}", index + 1, inputs.len());
            progress.say(|| format!("qoriwesh: {file}, {count} bytes: {name}"));
        });
        let night = bytes.map(|bytes| Night::new(&name, &bytes));
        progress.clear();
        let status = match night {
            Ok(night) => {
                let night = night?;
                write!(out, "{between}")?;
                night.write(out)?;
                between = "\n";
                night.status()
            }
            Err(error) => {
                complain(&format!("{name}: {error}"));
                Status::Wrong
            }
        };
        out.flush()?;
        worst = worst.max(status);
    }
    Ok(worst)
}

/// A recording and what its replay gives.
struct Night {
    name: String,
    recording: Recording,
    report: Report,
    /// How many events had which answer.
    answers: [usize; ANSWERS],
}

impl Night {
    /// Replays a recording, and runs its events once more; or that the two do not agree (a defect).
    fn new(name: &str, bytes: &[u8]) -> Result<Night, Failure> {
        let recording = Recording::read(bytes);
        let mut machine = Tables::zeroed(CPUS);
        let report = replay::replay(bytes, &mut machine);
        let alone = alone(&recording);
        let agreed = agreed(&recording, &alone, &report, &machine);
        agreed.map_err(|what| Failure::Defect(format!("{name}: {what}")))?;
        Ok(Night {
            name: name.to_string(),
            recording,
            report,
            answers: alone.answers,
        })
    }

    /// Well, if the recording is whole and no event was refused.
    fn status(&self) -> Status {
        Status::of(self.report.ending == Ending::Whole && self.report.refused == 0)
    }

    fn write(&self, out: &mut dyn Write) -> Result<(), Failure> {
        writeln!(out, "{}", self.name)?;
        if self.report.cpus > 0 {
            self.totals(out)?;
            self.times(out)?;
        }
        writeln!(out, "  {}", self.recording.ended())?;
        Ok(())
    }

    /// The machine, and what was counted.
    fn totals(&self, out: &mut dyn Write) -> Result<(), Failure> {
        let report = &self.report;
        let size = words::size(report.cpus, Some(report.full_slice));
        line(out, "machine", &size)?;
        line(out, "events", &self.recording.events.len().to_string())?;
        let refused = report.refused.to_string();
        line(out, "refused", &refused)?;
        let width = refused.len();
        for (answer, &count) in self.answers.iter().enumerate().skip(1) {
            if count > 0 {
                let why = words::refusals(answer as u8);
                let counted = format!("{count:>width$}  {why}");
                line(out, &format!("  with {answer}"), &counted)?;
            }
        }
        line(out, "moves", &report.moves.to_string())
    }

    /// How long the night was, and how long each CPU had a real-time task.
    fn times(&self, out: &mut dyn Write) -> Result<(), Failure> {
        let events = &self.recording.events;
        let night = self.recording.length();
        line(out, "night", &length(night))?;
        if let (Some(first), Some(last)) = (events.first(), events.last()) {
            let stamps = format!("@{} to @{}", first.stamp, last.stamp);
            line(out, "stamps", &stamps)?;
        }
        writeln!(out, "  with a real-time task")?;
        let times = &self.report.times[..self.report.cpus];
        let width = times.iter().map(|&time| seconds(time).len()).max();
        let width = width.unwrap_or(0);
        for (cpu, &time) in times.iter().enumerate().filter(|(_, &time)| time > 0) {
            let time = format!("{:>width$}  {:>8}", seconds(time), per_cent(time, night));
            line(out, &format!("  CPU {cpu}"), &time)?;
        }
        let none = times.iter().enumerate().filter(|(_, &time)| time == 0);
        match none.fold(0_u64, |mask, (cpu, _)| mask | 1 << cpu) {
            0 => Ok(()),
            mask => line(out, "  for no time", &words::cpus(mask)),
        }
    }
}

/// A word, and what belongs to it.
fn line(out: &mut dyn Write, word: &str, rest: &str) -> Result<(), Failure> {
    let text = format!("{word:<width$}{rest}", width = COLUMN - 2);
    for line in render::wrap(&text, 2, COLUMN) {
        writeln!(out, "{line}")?;
    }
    Ok(())
}

/// What the events of a recording give one by one.
struct Alone {
    machine: Option<Tables>,
    answers: [usize; ANSWERS],
    moves: u64,
}

/// Runs the events of a recording one by one.
fn alone(recording: &Recording) -> Alone {
    let fresh = |first: First| Tables::fresh_with_slice(first.cpus, first.slice).ok();
    let mut alone = Alone {
        machine: recording.first.and_then(fresh),
        answers: [0; ANSWERS],
        moves: 0,
    };
    if let Some(machine) = &mut alone.machine {
        for &Stamped { event, .. } in &recording.events {
            let outcome = machine.event(event);
            alone.answers[outcome.answer as usize] += 1;
            alone.moves += u64::from(outcome.moves);
        }
    }
    alone
}

/// Whether a replay gives what the recording's records give one by one; else what differs.
fn agreed(
    recording: &Recording,
    alone: &Alone,
    report: &Report,
    machine: &Tables,
) -> Result<(), String> {
    let refused: usize = alone.answers[1..].iter().sum();
    let (cpus, slice) = recording.first.map_or((0, 0), |f| (f.cpus, f.slice));
    let numbers = [
        ("answer", report.answer.into(), 0),
        ("ending", report.ending as u64, recording.ending() as u64),
        ("place", report.place as u64, recording.place as u64),
        ("CPUs", report.cpus as u64, cpus as u64),
        ("slice", report.full_slice.into(), slice.into()),
        ("moves", report.moves, alone.moves),
        ("refused", report.refused.into(), refused as u64),
    ];
    for (what, replayed, found) in numbers {
        if replayed != found {
            return Err(format!(
                "{what}: {replayed} by the replay, {found} by its records one by one"
            ));
        }
    }
    if report.times.iter().any(|&time| time > recording.length()) {
        return Err("the replay gives a CPU more time than the night has".to_string());
    }
    if recording.first.is_some() && alone.machine.as_ref() != Some(machine) {
        return Err("the replay's tables are not those of its records one by one".to_string());
    }
    Ok(())
}

/// `1.500000 s`
fn seconds(microseconds: u64) -> String {
    let (seconds, rest) = (microseconds / 1_000_000, microseconds % 1_000_000);
    format!("{seconds}.{rest:06} s")
}

/// The same; from a minute on also in hours, minutes and seconds.
fn length(microseconds: u64) -> String {
    let whole = microseconds / 1_000_000;
    let (hours, minutes, rest) = (whole / 3600, whole / 60 % 60, whole % 60);
    match whole {
        0..=59 => seconds(microseconds),
        _ => format!("{} ({hours}:{minutes:02}:{rest:02})", seconds(microseconds)),
    }
}

/// `33.33 %`: a part of a night that is not 0, to the nearest hundredth.
fn per_cent(part: u64, night: u64) -> String {
    let (part, night) = (u128::from(part), u128::from(night));
    let hundredths = (10_000 * part + night / 2) / night;
    format!("{}.{:02} %", hundredths / 100, hundredths % 100)
}

#[cfg(test)]
mod tests {
    use super::*;
    use crate::parse::parse;
    use crate::record::recorded;

    /// What a replay gave, and what its records gave one by one.
    struct Both {
        recording: Recording,
        alone: Alone,
        report: Report,
        machine: Tables,
    }

    impl Both {
        fn of(bytes: &[u8]) -> Both {
            let recording = Recording::read(bytes);
            let mut machine = Tables::zeroed(CPUS);
            let report = replay::replay(bytes, &mut machine);
            Both {
                alone: alone(&recording),
                recording,
                report,
                machine,
            }
        }

        fn agreed(&self) -> Result<(), String> {
            agreed(&self.recording, &self.alone, &self.report, &self.machine)
        }
    }

    fn bytes() -> Vec<u8> {
        let tasks = "add 0 fifo 9 0-1\n@5 add 1 fifo 9 0-1\nwake 0\n@6 wake 1\nwake 1\n@9 sleep 1";
        let text = format!("cpus 2\n{tasks}");
        recorded(&parse(text.as_bytes()).unwrap()).unwrap()
    }

    /// Makes the report or the machine wrong.
    type Spoil = fn(&mut Both);

    #[test]
    fn a_replay_that_differs_from_its_records_is_told() {
        let spoilt: [(Spoil, &str); 9] = [
            (|both| both.report.answer = 1, "answer: 1 by"),
            (|both| both.report.ending = Ending::Cut, "ending: 1 by"),
            (|both| both.report.place += 1, "place: 67 by"),
            (|both| both.report.cpus = 3, "CPUs: 3 by"),
            (|both| both.report.full_slice = 100, "slice: 100 by"),
            (|both| both.report.moves = 2, "moves: 2 by"),
            (|both| both.report.refused = 0, "refused: 0 by"),
            (|both| both.report.times[1] = 10, "the replay gives a CPU"),
            (|both| both.machine.log[0] = 0, "the replay's tables"),
        ];
        for (spoil, message) in spoilt {
            let mut both = Both::of(&bytes());
            assert_eq!(both.agreed(), Ok(()));
            spoil(&mut both);
            let told = both.agreed().unwrap_err();
            assert!(told.starts_with(message), "{told}");
        }
    }

    /// Without a first record the replay's machine does not matter; its numbers do.
    #[test]
    fn numbers_without_a_first_record_are_told() {
        let mut both = Both::of(&[0, 65]);
        assert_eq!(both.agreed(), Ok(()));
        both.report.cpus = 65;
        assert!(both.agreed().is_err());
    }

    #[test]
    fn per_cents_are_rounded_to_the_nearest() {
        for (part, night, words) in [
            (1, 3, "33.33 %"),
            (2, 3, "66.67 %"),
            (1, 1, "100.00 %"),
            (1, 20_000, "0.01 %"),
            (1, 20_001, "0.00 %"),
            (u64::MAX / 2, u64::MAX, "50.00 %"),
        ] {
            assert_eq!(per_cent(part, night), words);
        }
    }

    #[test]
    fn a_long_night_is_told_in_hours() {
        for (microseconds, words) in [
            (0, "0.000000 s"),
            (59_999_999, "59.999999 s"),
            (60_000_000, "60.000000 s (0:01:00)"),
            (29_523_000_001, "29523.000001 s (8:12:03)"),
            (360_000_000_000, "360000.000000 s (100:00:00)"),
        ] {
            assert_eq!(length(microseconds), words);
        }
    }
}
