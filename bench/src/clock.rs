//! The time for which a processor ran the calling thread. What else runs on a shared machine hardly changes it, while it
//! lengthens the time on the wall.

#[repr(C)]
struct Time {
    seconds: i64,
    nanoseconds: i64,
}

extern "C" {
    fn clock_gettime(clock: i32, time: *mut Time) -> i32;
}

/// The number of that clock on Linux, CLOCK_THREAD_CPUTIME_ID.
const THREAD: i32 = 3;

/// Nanoseconds since the thread began.
pub fn thread_time() -> f64 {
    let mut time = Time {
        seconds: 0,
        nanoseconds: 0,
    };
    // The call writes the two numbers of the struct that it is lent, and nothing else.
    let answer = unsafe { clock_gettime(THREAD, &mut time) };
    assert_eq!(answer, 0, "the system has no clock for a thread's time");
    time.seconds as f64 * 1e9 + time.nanoseconds as f64
}
