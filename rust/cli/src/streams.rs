//! Which standard streams were closed when the program was started. The runtime opens a closed one as /dev/null before
//! `main`, so that input would be empty and output would be lost without an error.

use std::sync::atomic::{AtomicBool, Ordering};

static INPUT_CLOSED: AtomicBool = AtomicBool::new(false);
static OUTPUT_CLOSED: AtomicBool = AtomicBool::new(false);

/// Whether standard input was closed.
pub fn is_input_closed() -> bool {
    INPUT_CLOSED.load(Ordering::Relaxed)
}

/// Whether standard output was closed.
pub fn is_output_closed() -> bool {
    OUTPUT_CLOSED.load(Ordering::Relaxed)
}

#[cfg(target_os = "linux")]
mod at_start {
    use super::{INPUT_CLOSED, OUTPUT_CLOSED};
    use std::sync::atomic::Ordering;

    extern "C" {
        fn fcntl(descriptor: i32, command: i32, ...) -> i32;
    }

    /// The command that reads a descriptor's flags, and fails where the descriptor is closed.
    const F_GETFD: i32 = 1;

    extern "C" fn look() {
        // SAFETY: this command changes nothing, takes no argument, and any descriptor may be asked for.
        let is_closed = |descriptor: i32| unsafe { fcntl(descriptor, F_GETFD) } == -1;
        INPUT_CLOSED.store(is_closed(0), Ordering::Relaxed);
        OUTPUT_CLOSED.store(is_closed(1), Ordering::Relaxed);
    }

    /// The loader calls what stands in this section before the runtime begins.
    #[used]
    #[link_section = ".init_array"]
    static AT_START: extern "C" fn() = look;
}
