//! Whether threads ran at once: how long threads of this machine waited for a processor, as the kernel counts it.
use std::fs;
use std::time::{Duration, Instant};

/// Threads ran at once if none waited for more than this share of the time. It leaves room for the moments in which
/// threads start and end, and in which the kernel has work of its own.
pub const MOST: f64 = 0.05;

// The time in which at least one thread that could run waited, since the machine started: `some` of the pressure.
fn total(pressure: &str) -> Option<Duration> {
    let some = pressure.lines().find(|line| line.starts_with("some "))?;
    let micros = some.split_whitespace().find_map(|word| word.strip_prefix("total="))?;
    Some(Duration::from_micros(micros.parse().ok()?))
}

fn waited() -> Option<Duration> {
    total(&fs::read_to_string("/proc/pressure/cpu").ok()?)
}

/// A time that is looked at.
pub struct Watch {
    start: Instant,
    waited: Option<Duration>,
}

impl Watch {
    pub fn start() -> Self {
        Watch { start: Instant::now(), waited: waited() }
    }

    /// In which share of the time since the start a thread waited; none if this kernel does not count it.
    pub fn share(&self) -> Option<f64> {
        let waited = waited()?.saturating_sub(self.waited?);
        Some(waited.as_secs_f64() / self.start.elapsed().as_secs_f64())
    }
}

#[cfg(test)]
mod tests {
    use super::*;

    const PRESSURE: &str = "\
some avg10=96.22 avg60=68.44 avg300=37.00 total=195967208
full avg10=0.00 avg60=0.00 avg300=0.00 total=7
";

    #[test]
    fn the_time_is_that_of_some_threads() {
        assert_eq!(total(PRESSURE), Some(Duration::from_micros(195_967_208)));
        assert_eq!(total("full total=7"), None);
        assert_eq!(total(""), None);
    }

    #[test]
    fn more_threads_than_processors_wait() {
        if waited().is_none() {
            return;
        }
        let processors = std::thread::available_parallelism().map_or(1, usize::from);
        let watch = Watch::start();
        let spin = || {
            let start = Instant::now();
            while start.elapsed() < Duration::from_millis(300) {
                std::hint::spin_loop();
            }
        };
        std::thread::scope(|scope| (0..4 * processors).for_each(|_| _ = scope.spawn(spin)));
        assert!(watch.share().expect("it is counted") > 5.0 * MOST);
    }
}
