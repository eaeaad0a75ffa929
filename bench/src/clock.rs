//! Time that a call takes.

use std::ffi::{c_int, c_long};

#[repr(C)]
struct Timespec {
    seconds: i64,
    nanoseconds: c_long,
}

extern "C" {
    fn clock_gettime(clock: c_int, time: *mut Timespec) -> c_int;
}

/// Linux: processor time of the calling thread, so that other work on the machine counts little.
const THREAD: c_int = 3;

/// Processor seconds of this thread.
pub fn now() -> f64 {
    let mut time = Timespec { seconds: 0, nanoseconds: 0 };
    // SAFETY: `time` is a timespec that the call may write.
    let status = unsafe { clock_gettime(THREAD, &mut time) };
    assert_eq!(status, 0, "no clock of processor time");
    time.seconds as f64 + time.nanoseconds as f64 * 1e-9
}

/// Seconds of one call of each of these, taken in turns: the least of some rounds, each of so many calls that the clock is fine enough.
pub fn seconds(calls: &mut [&mut dyn FnMut()], patience: f64) -> Vec<f64> {
    const ROUND: f64 = 0.02;
    let mut least = vec![f64::INFINITY; calls.len()];
    let mut repeats = vec![1u32; calls.len()];
    let mut spent = 0.0;
    let mut rounds = 0;
    while rounds < 3 || spent < patience {
        for (i, call) in calls.iter_mut().enumerate() {
            let start = now();
            for _ in 0..repeats[i] {
                call();
            }
            let taken = now() - start;
            spent += taken;
            least[i] = least[i].min(taken / f64::from(repeats[i]));
            if taken < ROUND {
                repeats[i] = (f64::from(repeats[i]) * (1.2 * ROUND / taken.max(1e-7)).min(1000.0)) as u32 + 1;
            }
        }
        rounds += 1;
        // Long calls get three rounds, unless they are very long: on a machine that others share one round is off by a fifth at times.
        if spent > 12.0 {
            break;
        }
    }
    least
}
