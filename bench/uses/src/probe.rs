//! What looks at each call of a use: nothing, or a clock.
use std::time::Instant;

/// The calls whose time is taken.
#[derive(Clone, Copy, Debug, PartialEq, Eq)]
pub enum Call {
    Read,
    Remove,
    Insert,
}

pub const CALLS: [Call; 3] = [Call::Read, Call::Remove, Call::Insert];

impl Call {
    pub fn name(self) -> &'static str {
        match self {
            Call::Read => "read",
            Call::Remove => "remove",
            Call::Insert => "insert",
        }
    }
}

pub trait Probe: Send {
    /// Does the call.
    fn during<T>(&mut self, call: Call, job: impl FnOnce() -> T) -> T;
}

/// Looks at nothing.
pub struct Blind;

impl Probe for Blind {
    fn during<T>(&mut self, _call: Call, job: impl FnOnce() -> T) -> T {
        job()
    }
}

/// Takes the time of each call, in nanoseconds, with that of one reading of the clock.
#[derive(Default)]
pub struct Clock {
    times: [Vec<u32>; CALLS.len()],
}

impl Clock {
    /// With room for this many times of each call, so that none is taken while memory is asked for.
    pub fn with_room(calls: usize) -> Self {
        Clock { times: std::array::from_fn(|_| Vec::with_capacity(calls)) }
    }

    /// Adds the times of another thread.
    pub fn add(&mut self, other: Clock) {
        for (mine, others) in self.times.iter_mut().zip(other.times) {
            mine.extend(others);
        }
    }

    /// Of a call: the time that half, 99 % and 99.9 % of them take at most, and the greatest. None without a call.
    pub fn quantiles(&mut self, call: Call) -> Option<[u32; 4]> {
        let times = &mut self.times[call as usize];
        times.sort_unstable();
        let last = times.len().checked_sub(1)?;
        Some([0.5, 0.99, 0.999, 1.0].map(|share| times[(last as f64 * share).round() as usize]))
    }
}

impl Probe for Clock {
    fn during<T>(&mut self, call: Call, job: impl FnOnce() -> T) -> T {
        let start = Instant::now();
        let answer = job();
        self.times[call as usize].push(start.elapsed().as_nanos().min(u32::MAX.into()) as u32);
        answer
    }
}

#[cfg(test)]
mod tests {
    use super::*;

    #[test]
    fn quantiles_are_those_of_all_threads() {
        let (mut clock, mut other) = (Clock::default(), Clock::default());
        clock.times[0] = (1..=500).rev().collect();
        other.times[0] = (501..=1001).collect();
        clock.add(other);
        assert_eq!(clock.quantiles(Call::Read), Some([501, 991, 1000, 1001]));
        assert_eq!(clock.quantiles(Call::Insert), None);
    }

    #[test]
    fn each_call_has_its_own_times() {
        let mut clock = Clock::with_room(1);
        assert_eq!(clock.during(Call::Remove, || 5), 5);
        assert_eq!(CALLS.map(|call| clock.quantiles(call).is_some()), [false, true, false]);
    }
}
