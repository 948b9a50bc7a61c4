//! Lines on standard output.

use std::io::{self, Write};
use std::process;

/// Says a line. If the reader goes away, as `head` does, the rest is left unsaid.
pub fn say(line: &str) {
    if writeln!(io::stdout(), "{line}").is_err() {
        process::exit(0);
    }
}
