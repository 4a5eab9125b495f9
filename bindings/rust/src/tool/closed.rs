//! Whether standard input or output was closed before the start. Rust's runtime opens /dev/null in the place of either
//! before `main`, and nothing tells it from a /dev/null that was meant; so a program looks before that.

use std::os::raw::c_int;
use std::sync::atomic::{AtomicBool, Ordering::Relaxed};

static CLOSED: [AtomicBool; 2] = [AtomicBool::new(false), AtomicBool::new(false)];

extern "C" {
    fn fcntl(descriptor: c_int, command: c_int, ...) -> c_int;
}

/// The number of the command that asks for a descriptor's flags.
const F_GETFD: c_int = 1;

/// Looks at both. [`looks_at_its_ends`](crate::looks_at_its_ends) has it called before the runtime starts.
pub extern "C" fn look() {
    for (descriptor, closed) in (0..).zip(&CLOSED) {
        // SAFETY: this changes nothing, of any descriptor, and takes no more arguments.
        let flags = unsafe { fcntl(descriptor, F_GETFD) };
        closed.store(flags < 0, Relaxed);
    }
}

/// Whether standard input was closed before the start.
pub fn is_input_closed() -> bool {
    CLOSED[0].load(Relaxed)
}

/// Whether standard output was.
pub fn is_output_closed() -> bool {
    CLOSED[1].load(Relaxed)
}

/// Has a program look, before it starts, whether its standard input and output are open.
#[doc(hidden)]
#[macro_export]
macro_rules! looks_at_its_ends {
    () => {
        #[used]
        #[link_section = ".init_array"]
        static LOOKS_AT_ITS_ENDS: extern "C" fn() = $crate::tool::closed::look;
    };
}
