//! A text of events, from a file or from standard input.

use crate::input::Input;
use crate::parse::{parse, Line, Problem};

/// The longest text that is read. That of the longest recording fits: 65,535 lines of at most 49 bytes and one of 19.
const LONGEST: usize = 1 << 22;
/// The most wrong lines that are told.
const MOST_TOLD: usize = 20;

/// The lines of a text; else what to say, with what is left undone. Nothing is done before all of it is read.
pub fn read(input: &Input, undone: &str) -> Result<Vec<Line>, String> {
    let name = input.name();
    let text = input.read(LONGEST + 1, "events", |_| {});
    let text = text.map_err(|error| format!("{name}: {error}; {undone}"))?;
    if text.len() > LONGEST {
        return Err(format!(
            "{name}: expected at most {LONGEST} bytes, found more; {undone}"
        ));
    }
    let lines = parse(&text).map_err(|problems| {
        let undone = format!("could not be read; {undone}");
        told(&name, &problems, &undone)
    })?;
    if lines.is_empty() {
        return Err(format!(
            "{name}: expected 'cpus N' and events, found nothing; {undone}"
        ));
    }
    Ok(lines)
}

/// Every wrong line, a line each, and what their number could not be.
pub fn told(name: &str, problems: &[Problem], could_not: &str) -> String {
    let line = |problem: &Problem| format!("{name}:{}: {}", problem.line, problem.message);
    let mut lines: Vec<String> = problems.iter().take(MOST_TOLD).map(line).collect();
    let count = match problems.len() {
        1 => "1 line".to_string(),
        many => format!("{many} lines"),
    };
    lines.push(format!("{name}: {count} {could_not}"));
    lines.join("\n")
}
