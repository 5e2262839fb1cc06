//! Whether standard output was closed when the tool was started.
//!
//! Before `main` is called, Rust's runtime opens `/dev/null` in the place of a
//! standard output that is closed, and what is written there is lost without an
//! error. So the tool looks before the runtime does: the loader calls what stands
//! in the section `.init_array` first. Rust counts the attribute that puts a
//! function there as unsafe code; it is the only such place of the tool.

#[cfg(target_os = "linux")]
mod look {
    use std::io;
    use std::os::fd::AsFd;
    use std::sync::atomic::{AtomicBool, Ordering};

    pub static CLOSED: AtomicBool = AtomicBool::new(false);

    #[allow(unsafe_code)]
    #[link_section = ".init_array"]
    #[used]
    static FIRST: extern "C" fn() = look;

    extern "C" fn look() {
        let copy = io::stdout().as_fd().try_clone_to_owned();
        CLOSED.store(copy.is_err(), Ordering::Relaxed);
    }
}

/// Whether standard output was closed when the tool was started, as far as can be
/// seen on this system.
pub fn is_closed() -> bool {
    #[cfg(target_os = "linux")]
    return look::CLOSED.load(std::sync::atomic::Ordering::Relaxed);
    #[cfg(not(target_os = "linux"))]
    return false;
}
