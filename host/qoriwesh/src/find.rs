//! `qoriwesh find`: what the finder answers on the machine that a text of events leads to.

use crate::cpulist;
use crate::explain;
use crate::input::Input;
use crate::parse::{number, Line};
use crate::progress::Progress;
use crate::render;
use crate::show::{Failure, Show};
use crate::words;
use binding::{Found, Tables, CPUS, INVALID};
use std::io::Write;

/// Where what belongs to a word begins.
const COLUMN: usize = 12;

/// What the finder is asked with: a level, and the CPUs of a mask.
#[derive(Clone, Copy, Debug, PartialEq, Eq)]
pub struct Question {
    pub level: u32,
    pub mask: u64,
}

impl Question {
    /// As people write it. Refusing a number that is out of range is the library's.
    pub fn read(level: &str, cpus: &str) -> Result<Question, String> {
        Ok(Question {
            level: number(level, "a level")?,
            mask: cpulist::read(cpus)?,
        })
    }
}

/// A text that was read, and what is to be asked after it.
pub struct Asked {
    lines: Vec<Line>,
    question: Question,
    /// Since the reading began.
    progress: Progress,
}

impl Asked {
    /// Reads a text; else what to say.
    pub fn read(input: &Input, question: Question) -> Result<Asked, String> {
        let progress = Progress::new();
        let lines = explain::read(input)?;
        Ok(Asked {
            lines,
            question,
            progress,
        })
    }

    /// Runs the lines, shows what was refused of them and the machine that they lead to, and asks. Whether nothing was refused.
    pub fn show(mut self, out: &mut dyn Write) -> Result<bool, Failure> {
        let mut told = Vec::new();
        let mut show = Show::refusals(&mut told);
        let ran = self.run(&mut show).and_then(|()| show.rows());
        let Show { tables, tally, .. } = show;
        out.write_all(&told)?;
        ran?;
        writeln!(out, "{}", tally.words())?;
        let question = self.question;
        let found = tables.find(question.level, question.mask);
        if !fits(&tables, question, found) {
            return Err(Failure::Defect(format!("the levels do not give {found:?}")));
        }
        answer(out, &tables, question, found)?;
        Ok(tally.refused == 0 && found.answer == 0)
    }

    /// Runs the lines, and says how far it is if that takes long.
    fn run(&mut self, show: &mut Show) -> Result<(), Failure> {
        let progress = &mut self.progress;
        let last = self.lines.last().map_or(0, |line| line.number);
        let ran = self.lines.iter().try_for_each(|line| {
            progress.say(|| format!("qoriwesh: line {} of {last}", line.number));
            show.action(line.number, line.action).map(|_| ())
        });
        progress.clear();
        ran
    }
}

/// Whether an answer fits the levels that the CPUs have.
fn fits(tables: &Tables, question: Question, found: Found) -> bool {
    let none = (found.level, found.mask) == (INVALID, 0);
    if found.answer != 0 {
        return none && found.masks_read == 0;
    }
    let mut cpus = (0..CPUS).filter(|cpu| found.mask >> cpu & 1 == 1);
    let there = u32::from(found.level) < question.level
        && found.mask != 0
        && found.mask & !question.mask == 0
        && cpus.all(|cpu| tables.levels[cpu] == found.level);
    let read = match none {
        true => question.level as usize,
        false => usize::from(found.level) + 1,
    };
    let read = tables.level_counts.iter().take(read);
    let masks = read.filter(|&&cpus| cpus > 0).count();
    (none || there) && found.masks_read as usize == masks
}

/// The question and its answer, in words.
fn answer(
    out: &mut dyn Write,
    tables: &Tables,
    question: Question,
    found: Found,
) -> Result<(), Failure> {
    let Question { level, mask } = question;
    let asked = format!("{}, below level {level}", words::cpus(mask));
    line(out, "asked", &asked)?;
    if found.answer != 0 {
        let why = words::refused_question(found.answer, level, mask, tables);
        let why = format!("{why}; no mask was read");
        return written(out, render::wrap(&why, 0, 2));
    }
    let what = match found.level {
        INVALID => format!("none: no such CPU is below level {level}"),
        level => {
            let means = words::level(level);
            format!("level {level} ({means}) on {}", words::cpus(found.mask))
        }
    };
    line(out, "found", &what)?;
    line(out, "masks read", &found.masks_read.to_string())
}

/// A word, and what belongs to it.
fn line(out: &mut dyn Write, word: &str, rest: &str) -> Result<(), Failure> {
    let text = format!("{word:<COLUMN$}{rest}");
    written(out, render::wrap(&text, 0, COLUMN))
}

fn written(out: &mut dyn Write, lines: Vec<String>) -> Result<(), Failure> {
    for line in lines {
        writeln!(out, "{line}")?;
    }
    Ok(())
}

#[cfg(test)]
mod tests {
    use super::*;
    use binding::Event;

    /// CPU 0 runs priority 50, CPU 1 has ordinary work, CPU 2 is idle and CPU 3 offline.
    fn tables() -> Tables {
        let mut tables = Tables::fresh(4).unwrap();
        for event in [
            Event::new(1, 0, 1, 50, 1),
            Event::new(3, 0, 0, 0, 0),
            Event::new(9, 1, 0, 1, 0),
            Event::new(10, 3, 0, 0, 0),
        ] {
            assert_eq!(tables.event(event).answer, 0);
        }
        tables
    }

    #[test]
    fn every_answer_of_the_library_fits() {
        let tables = tables();
        for level in 0..=103 {
            for mask in 0..=16 {
                let found = tables.find(level, mask);
                assert!(fits(&tables, Question { level, mask }, found), "{found:?}");
            }
        }
    }

    /// One number of an answer changed.
    #[test]
    fn an_answer_that_does_not_fit_is_seen() {
        let tables = tables();
        let fits = |level, mask, found| fits(&tables, Question { level, mask }, found);
        let found = |answer, level, mask, masks_read| Found {
            answer,
            level,
            mask,
            masks_read,
        };
        assert!(fits(101, 3, found(0, 1, 2, 2)));
        for wrong in [
            found(7, 1, 2, 2),
            found(0, 0, 2, 1),
            found(0, 52, 2, 3),
            found(0, 1, 0, 2),
            found(0, 1, 3, 2),
            found(0, 1, 6, 2),
            found(0, 1, 2, 1),
            found(0, 1, 2, 3),
            found(0, 1, 2, u32::MAX),
        ] {
            assert!(!fits(101, 3, wrong), "{wrong:?}");
        }
        assert!(fits(52, 9, found(0, INVALID, 0, 2)));
        for wrong in [
            found(0, INVALID, 1, 2),
            found(0, INVALID, 0, 1),
            found(0, INVALID, 0, 3),
            found(0, 52, 1, 3),
            found(0, 0, 0, 1),
            found(8, INVALID, 0, 2),
        ] {
            assert!(!fits(52, 9, wrong), "{wrong:?}");
        }
        assert!(fits(102, 1, found(7, INVALID, 0, 0)));
        assert!(!fits(102, 1, found(7, INVALID, 0, 3)));
    }
}
