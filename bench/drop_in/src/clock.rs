//! The processor time of a thread, which other work on the machine changes little.
use std::ffi::{c_int, c_long};

#[repr(C)]
struct TimeSpec {
    seconds: c_long,
    nanoseconds: c_long,
}

extern "C" {
    fn clock_gettime(clock: c_int, time: *mut TimeSpec) -> c_int;
}

/// Linux's `CLOCK_THREAD_CPUTIME_ID`.
const THREAD_TIME: c_int = 3;

/// The processor time that this thread has used, in nanoseconds.
pub fn now() -> f64 {
    let mut time = TimeSpec { seconds: 0, nanoseconds: 0 };
    // SAFETY: C's own call, with memory of this function for what it writes.
    assert_eq!(unsafe { clock_gettime(THREAD_TIME, &mut time) }, 0);
    time.seconds as f64 * 1e9 + time.nanoseconds as f64
}

/// The sums of processor time by the rows of a workload.
pub struct Times<const ROWS: usize> {
    sums: [f64; ROWS],
}

impl<const ROWS: usize> Times<ROWS> {
    pub fn none() -> Times<ROWS> {
        Times { sums: [0.0; ROWS] }
    }

    /// Adds the time of `act` to a row.
    pub fn add<R>(&mut self, row: usize, act: impl FnOnce() -> R) -> R {
        let began = now();
        let result = act();
        self.sums[row] += now() - began;
        result
    }

    /// The time of each of this many operations, by the names of the rows.
    pub fn each(&self, names: [&'static str; ROWS], operations: usize) -> Vec<crate::Row> {
        names.into_iter().zip(self.sums.map(|sum| sum / operations as f64)).collect()
    }
}
