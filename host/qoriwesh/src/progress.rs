//! How far a command is that takes long, on a terminal alone.

use std::io::{self, IsTerminal, Write};
use std::time::{Duration, Instant};

/// What takes so long is told how far it is.
const LONG: Duration = Duration::from_secs(1);
/// So often.
const OFTEN: Duration = Duration::from_millis(100);
/// The most characters of the line, so that it is one line.
const WIDTH: usize = 79;

/// A line of standard error that is written anew.
pub struct Progress {
    terminal: bool,
    /// When to write it next.
    next: Instant,
    written: bool,
}

impl Progress {
    /// Begins to measure.
    pub fn new() -> Progress {
        Progress {
            terminal: io::stderr().is_terminal(),
            next: Instant::now() + LONG,
            written: false,
        }
    }

    /// Says how far it is, if it is time to.
    pub fn say(&mut self, words: impl FnOnce() -> String) {
        if let Some(line) = self.line(Instant::now(), words) {
            let _ = write!(io::stderr(), "{line}");
        }
    }

    /// The line, if now is the time to write it.
    fn line(&mut self, now: Instant, words: impl FnOnce() -> String) -> Option<String> {
        if !self.terminal || now < self.next {
            return None;
        }
        self.next = now + OFTEN;
        self.written = true;
        let line: String = words().chars().take(WIDTH).collect();
        Some(format!("\r\x1b[K{line}"))
    }

    /// Takes the line away.
    pub fn clear(&mut self) {
        if self.written {
            let _ = write!(io::stderr(), "\r\x1b[K");
            self.written = false;
        }
    }
}

#[cfg(test)]
mod tests {
    use super::*;

    /// When a line is written, of those who ask at these times after the beginning.
    fn written(terminal: bool, times: &[Duration]) -> Vec<bool> {
        let begin = Instant::now();
        let mut progress = Progress {
            terminal,
            next: begin + LONG,
            written: false,
        };
        let at = |time: &Duration| progress.line(begin + *time, || "half".to_string());
        let lines: Vec<Option<String>> = times.iter().map(at).collect();
        for line in lines.iter().flatten() {
            assert_eq!(line, "\r\x1b[Khalf");
        }
        let written = lines.iter().map(Option::is_some).collect();
        assert_eq!(progress.written, lines.iter().any(Option::is_some));
        written
    }

    #[test]
    fn a_line_is_written_after_a_second_and_then_ten_times_a_second() {
        let at = Duration::from_millis;
        let times = [
            at(0),
            at(999),
            at(1000),
            at(1099),
            at(1100),
            at(5000),
            at(5099),
        ];
        let expected = [false, false, true, false, true, true, false];
        assert_eq!(written(true, &times), expected);
        assert_eq!(written(true, &times[..2]), expected[..2]);
        assert_eq!(written(false, &times), [false; 7]);
    }

    #[test]
    fn a_long_line_is_cut() {
        let mut progress = Progress::new();
        progress.terminal = true;
        let now = progress.next;
        let line = progress.line(now, || "\u{e9}".repeat(WIDTH + 1));
        assert_eq!(line, Some(format!("\r\x1b[K{}", "\u{e9}".repeat(WIDTH))));
    }
}
