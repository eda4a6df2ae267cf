//! The processor time of this thread, so that what else the machine does is not counted.

#[repr(C)]
struct Time {
    seconds: i64,
    nanoseconds: i64,
}

extern "C" {
    fn clock_gettime(clock: i32, time: *mut Time) -> i32;
}

/// Linux's number for the clock of a thread's processor time.
const THREAD_CLOCK: i32 = 3;

/// The nanoseconds that this thread has run.
pub fn nanoseconds() -> u64 {
    let mut time = Time { seconds: 0, nanoseconds: 0 };
    // SAFETY: the structure is laid out as C has it on 64-bit Linux, and lives through the call.
    let failed = unsafe { clock_gettime(THREAD_CLOCK, &mut time) };
    assert_eq!(failed, 0, "the thread's clock can be read");
    time.seconds as u64 * 1_000_000_000 + time.nanoseconds as u64
}
