//! What a command reads: a file, or standard input.

use std::ffi::OsString;
use std::fs::File;
use std::io::{self, ErrorKind, IsTerminal, Read, Write};

/// Bytes that are read at a time.
const PIECE: usize = 1 << 16;

/// A file, or standard input.
#[derive(Clone, Debug, PartialEq, Eq)]
pub struct Input(Option<OsString>);

impl Input {
    /// A file of this name; none and `-` are standard input.
    pub fn of(file: Option<OsString>) -> Input {
        Input(file.filter(|file| file != "-"))
    }

    pub fn name(&self) -> String {
        match &self.0 {
            Some(file) => file.to_string_lossy().into_owned(),
            None => "<stdin>".to_string(),
        }
    }

    /// Its bytes, at most so many. A terminal is told that so and so is read from it. After each piece `seen` is told how many
    /// bytes there are.
    pub fn read(&self, most: usize, what: &str, seen: impl FnMut(usize)) -> io::Result<Vec<u8>> {
        if let Some(file) = &self.0 {
            return pieces(File::open(file)?, most, seen);
        }
        let stdin = io::stdin();
        if stdin.is_terminal() {
            let hint = format!("qoriwesh: reading {what} from the terminal; ^D ends them");
            let _ = writeln!(io::stderr(), "{hint}");
        }
        pieces(stdin.lock(), most, seen)
    }
}

fn pieces(from: impl Read, most: usize, mut seen: impl FnMut(usize)) -> io::Result<Vec<u8>> {
    let mut from = from.take(most as u64);
    let mut bytes = Vec::new();
    let mut piece = vec![0; PIECE];
    loop {
        match from.read(&mut piece) {
            Ok(0) => return Ok(bytes),
            Ok(count) => bytes.extend(&piece[..count]),
            Err(error) if error.kind() == ErrorKind::Interrupted => continue,
            Err(error) => return Err(error),
        }
        seen(bytes.len());
    }
}
