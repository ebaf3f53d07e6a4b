//! Processor time, as the kernel counts it: it leaves out what other processes do beside this one.
use std::time::Duration;

/// A `struct rusage` of Linux on 64 bits.
#[repr(C)]
#[derive(Default)]
struct Usage {
    user: [i64; 2],
    system: [i64; 2],
    others: [i64; 14],
}

extern "C" {
    fn getrusage(who: i32, usage: *mut Usage) -> i32;
}

/// What this process has taken.
pub fn own_time() -> Duration {
    time_of(0)
}

/// What its children have taken that have ended and been waited for.
pub fn child_time() -> Duration {
    time_of(-1)
}

fn time_of(who: i32) -> Duration {
    let mut usage = Usage::default();
    // SAFETY: the room is as large as the kernel's struct, and lives until the call returns.
    let status = unsafe { getrusage(who, &mut usage) };
    assert_eq!(status, 0, "the kernel tells the time of this process");
    let [seconds, micros] = [0, 1].map(|part| (usage.user[part] + usage.system[part]) as u64);
    Duration::from_secs(seconds) + Duration::from_micros(micros)
}
