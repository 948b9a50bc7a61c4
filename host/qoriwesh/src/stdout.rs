//! Whether standard output was open when the program began.
//!
//! If it was not (`>&-`), Rust's runtime puts /dev/null in its place before `main`, and all that is written there
//! seems to be written. So it is looked at earlier, where the C library runs what stands in `.init_array`.

use std::ffi::c_int;
use std::io;
use std::sync::atomic::{AtomicBool, Ordering};

static CLOSED: AtomicBool = AtomicBool::new(false);

#[used]
#[link_section = ".init_array"]
static LOOK: extern "C" fn() = look;

extern "C" {
    fn fcntl(descriptor: c_int, command: c_int, ...) -> c_int;
}

const STDOUT: c_int = 1;
/// The command that asks for a descriptor's flags: it fails only if there is no such descriptor.
const F_GETFD: c_int = 1;
const EBADF: i32 = 9;

extern "C" fn look() {
    // Safety: this command takes no further argument and changes nothing.
    let flags = unsafe { fcntl(STDOUT, F_GETFD) };
    CLOSED.store(flags == -1, Ordering::Relaxed);
}

/// The error of writing to a standard output that is closed, or nothing.
pub fn open() -> io::Result<()> {
    if CLOSED.load(Ordering::Relaxed) {
        return Err(io::Error::from_raw_os_error(EBADF));
    }
    Ok(())
}
