//! Processor times.

#[repr(C)]
struct Clock {
    seconds: i64,
    nanoseconds: i64,
}

/// The first fields of C's `struct rusage`: user and system time in seconds and microseconds; what follows is not used.
#[repr(C)]
struct Usage {
    times: [i64; 4],
    others: [i64; 14],
}

extern "C" {
    fn clock_gettime(clock: i32, time: *mut Clock) -> i32;
    fn getrusage(who: i32, usage: *mut Usage) -> i32;
}

const THREAD_PROCESSOR_TIME: i32 = 3;
const CHILDREN: i32 = -1;

/// Processor time of this thread, in milliseconds.
pub fn of_thread() -> f64 {
    let mut now = Clock { seconds: 0, nanoseconds: 0 };
    assert_eq!(unsafe { clock_gettime(THREAD_PROCESSOR_TIME, &mut now) }, 0);
    now.seconds as f64 * 1e3 + now.nanoseconds as f64 / 1e6
}

/// Processor time of the processes that this one started and waited for, in milliseconds.
pub fn of_children() -> f64 {
    let mut usage = Usage { times: [0; 4], others: [0; 14] };
    assert_eq!(unsafe { getrusage(CHILDREN, &mut usage) }, 0);
    let [user_seconds, user, system_seconds, system] = usage.times;
    (user_seconds + system_seconds) as f64 * 1e3 + (user + system) as f64 / 1e3
}

pub fn median(times: &mut [f64]) -> f64 {
    times.sort_by(f64::total_cmp);
    times[times.len() / 2]
}

pub fn least(times: &[f64]) -> f64 {
    times.iter().copied().fold(f64::INFINITY, f64::min)
}
