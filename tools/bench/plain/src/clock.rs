//! The time that this thread took.

#[repr(C)]
struct Timespec {
    seconds: i64,
    nanoseconds: i64,
}

extern "C" {
    fn clock_gettime(clock: i32, time: *mut Timespec) -> i32;
}

/// The time of this thread on the processor, in nanoseconds.
pub fn clock() -> u64 {
    const THREAD_CPUTIME: i32 = 3;
    let mut time = Timespec {
        seconds: 0,
        nanoseconds: 0,
    };
    // SAFETY: the C library is given room for one `timespec`.
    unsafe { clock_gettime(THREAD_CPUTIME, &mut time) };
    time.seconds as u64 * 1_000_000_000 + time.nanoseconds as u64
}
