//! Whether standard output was open when the command began.
//!
//! Rust puts /dev/null in the place of a closed standard output before `main` runs, and what is
//! written there is lost without an error. So the loader calls a function that looks before that.

use std::os::raw::c_int;
use std::sync::atomic::{AtomicBool, Ordering};

static CLOSED: AtomicBool = AtomicBool::new(false);

extern "C" {
    fn fcntl(file: c_int, command: c_int, ...) -> c_int;
}

const STANDARD_OUTPUT: c_int = 1;
/// Asks for a file's flags, and so whether the number is a file's.
const F_GETFD: c_int = 1;

extern "C" fn look() {
    // SAFETY: a question about a number; no memory is lent.
    let flags = unsafe { fcntl(STANDARD_OUTPUT, F_GETFD) };
    CLOSED.store(flags == -1, Ordering::Relaxed);
}

#[used]
#[cfg_attr(target_os = "linux", link_section = ".init_array")]
static LOOK: extern "C" fn() = look;

pub fn was_closed() -> bool {
    CLOSED.load(Ordering::Relaxed)
}
