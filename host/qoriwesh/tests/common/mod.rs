//! Running the built program.

use std::io::Write;
use std::process::{Command, Stdio};

pub const PROGRAM: &str = env!("CARGO_BIN_EXE_qoriwesh");

/// How a run ended; its output is a text or bytes.
pub struct Ended<Output = String> {
    pub status: i32,
    pub out: Output,
    pub err: String,
}

/// Runs the program with this standard input; its output is a text.
pub fn run(args: &[&str], input: &[u8]) -> Ended {
    let Ended { status, out, err } = run_bytes(args, input);
    let out = String::from_utf8(out).unwrap();
    Ended { status, out, err }
}

pub fn run_bytes(args: &[&str], input: &[u8]) -> Ended<Vec<u8>> {
    let mut child = Command::new(PROGRAM)
        .args(args)
        .stdin(Stdio::piped())
        .stdout(Stdio::piped())
        .stderr(Stdio::piped())
        .spawn()
        .unwrap();
    // A program that reads no input may have ended before it is written.
    let _ = child.stdin.take().unwrap().write_all(input);
    let output = child.wait_with_output().unwrap();
    Ended {
        status: output.status.code().unwrap(),
        out: output.stdout,
        err: String::from_utf8(output.stderr).unwrap(),
    }
}
