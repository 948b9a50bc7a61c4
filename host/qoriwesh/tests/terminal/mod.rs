//! Terminals to run the program on.

use crate::common::PROGRAM;
use std::ffi::{c_char, c_int, CStr};
use std::fs::File;
use std::io::Read;
use std::os::fd::{AsRawFd, FromRawFd};
use std::process::{Child, Command, Stdio};
use std::sync::atomic::{AtomicBool, Ordering};

extern "C" {
    fn posix_openpt(flags: c_int) -> c_int;
    fn grantpt(descriptor: c_int) -> c_int;
    fn unlockpt(descriptor: c_int) -> c_int;
    fn ptsname_r(descriptor: c_int, name: *mut c_char, length: usize) -> c_int;
}

/// The terminal is to be read and written, and is not to become the tests' own.
const O_RDWR: c_int = 2;
const O_NOCTTY: c_int = 0o400;

/// A terminal: what a person sees, and what a program is given.
pub fn terminal() -> (File, File) {
    let mut name = [0; 64];
    // Safety: the descriptor that is opened is handed to the file, which closes it; the name's length is its own.
    let seen = unsafe {
        let descriptor = posix_openpt(O_RDWR | O_NOCTTY);
        assert!(descriptor >= 0, "no terminal can be opened");
        let seen = File::from_raw_fd(descriptor);
        assert_eq!(grantpt(seen.as_raw_fd()), 0);
        assert_eq!(unlockpt(seen.as_raw_fd()), 0);
        let named = ptsname_r(seen.as_raw_fd(), name.as_mut_ptr(), name.len());
        assert_eq!(named, 0);
        seen
    };
    // Safety: the name ends with 0.
    let name = unsafe { CStr::from_ptr(name.as_ptr()) };
    let given = File::options().write(true).open(name.to_str().unwrap());
    (seen, given.unwrap())
}

/// What a terminal shows until nobody writes to it; whether it shows something is told at once.
pub fn watched(mut seen: File, told: &AtomicBool) -> String {
    let mut bytes = Vec::new();
    let mut piece = [0; 4096];
    // The end of a terminal is an error.
    while let Ok(count @ 1..) = seen.read(&mut piece) {
        told.store(true, Ordering::Relaxed);
        bytes.extend(&piece[..count]);
    }
    String::from_utf8(bytes).unwrap()
}

pub fn spawned(args: &[&str], out: Stdio, err: Stdio) -> Child {
    Command::new(PROGRAM)
        .args(args)
        .stdin(Stdio::piped())
        .stdout(out)
        .stderr(err)
        .spawn()
        .unwrap()
}
