//! `qoriwesh explain`: a text of events, shown event by event.

use crate::input::Input;
use crate::parse::Line;
use crate::script;
use crate::show::{Failure, Show};
use std::io::Write;

/// The lines of a text; else what to say.
pub fn read(input: &Input) -> Result<Vec<Line>, String> {
    script::read(input, "no event was run")
}

/// Runs the lines and shows them. Whether all were accepted.
pub fn show(out: &mut dyn Write, lines: &[Line]) -> Result<bool, Failure> {
    let mut show = Show::new(out);
    for line in lines {
        show.action(line.number, line.action)?;
    }
    let tally = show.tally;
    writeln!(out, "{}", tally.words())?;
    Ok(tally.refused == 0)
}
