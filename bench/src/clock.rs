//! The processor time of this thread, so that other work on the machine doesn't count.

/// Nanoseconds of processor time used by the calling thread.
#[cfg(all(target_os = "linux", target_pointer_width = "64"))]
pub fn now() -> f64 {
    #[repr(C)]
    struct Timespec {
        seconds: i64,
        nanoseconds: i64,
    }
    extern "C" {
        fn clock_gettime(clock: i32, time: *mut Timespec) -> i32;
    }
    const THREAD_CPUTIME: i32 = 3;
    let mut time = Timespec { seconds: 0, nanoseconds: 0 };
    // Safety: the C library's function fills the one struct it is given.
    let failed = unsafe { clock_gettime(THREAD_CPUTIME, &mut time) };
    assert_eq!(failed, 0, "the thread's clock can be read");
    time.seconds as f64 * 1e9 + time.nanoseconds as f64
}

/// Elsewhere: the time on the wall.
#[cfg(not(all(target_os = "linux", target_pointer_width = "64")))]
pub fn now() -> f64 {
    use std::{sync::OnceLock, time::Instant};
    static BEGAN: OnceLock<Instant> = OnceLock::new();
    BEGAN.get_or_init(Instant::now).elapsed().as_nanos() as f64
}
