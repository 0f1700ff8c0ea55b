//! What it takes to open a heap, and to take a caller: time, and memory as `malloc` counts it.
use super::maps::{caller, growing, room, MOST_CHUNKS};
use gearlongan::{Heap, Layout};
use std::time::Instant;

/// What is opened or taken.
#[derive(Clone, Copy, Debug, PartialEq, Eq)]
pub enum What {
    Plain,
    Growing,
    Caller,
}

pub const ALL: [What; 3] = [What::Plain, What::Growing, What::Caller];

impl What {
    pub fn name(self) -> &'static str {
        match self {
            What::Plain => "plain",
            What::Growing => "growing",
            What::Caller => "caller",
        }
    }

    /// The row, in words.
    pub fn title(self) -> &'static str {
        match self {
            What::Plain => "open a plain heap of one segment, 64 passes",
            What::Growing => "open a growing heap of one segment, 64 passes, 256 chunks at most",
            What::Caller => "take a caller of it",
        }
    }

    /// What has this name.
    pub fn of_name(name: &str) -> Option<What> {
        ALL.into_iter().find(|what| what.name() == name)
    }
}

// What the GNU C library tells of its memory.
#[repr(C)]
struct Mallinfo2 {
    _arena: usize,
    _counts: [usize; 3],
    // The bytes of blocks that were mapped by themselves.
    mapped: usize,
    _old: [usize; 2],
    // The bytes of all others that are in use.
    used: usize,
    _free: [usize; 2],
}

extern "C" {
    fn mallinfo2() -> Mallinfo2;
}

// The bytes that this process has of `malloc`.
fn bytes() -> usize {
    // SAFETY: it takes nothing, and returns ten numbers.
    let told = unsafe { mallinfo2() };
    told.mapped + told.used
}

/// The time and the bytes of one opening.
#[derive(Clone, Copy, Debug, PartialEq)]
pub struct Opening {
    pub nanoseconds: f64,
    pub bytes: usize,
}

impl Opening {
    // What a job takes, which is done once before.
    fn of<T>(mut job: impl FnMut() -> T) -> Opening {
        let first = job();
        let (before, start) = (bytes(), Instant::now());
        let second = job();
        let (time, after) = (start.elapsed(), bytes());
        drop((first, second));
        Opening { nanoseconds: time.as_nanos() as f64, bytes: after.saturating_sub(before) }
    }

    /// What it takes for the second time in this process.
    pub fn of_what(what: What) -> Opening {
        match what {
            What::Plain => Opening::of(|| Heap::open_for(Layout::Deep, room(1)).expect("there is memory")),
            What::Growing => Opening::of(|| growing(1, MOST_CHUNKS)),
            What::Caller => {
                let heap = growing(1, MOST_CHUNKS);
                Opening::of(|| caller(&heap))
            }
        }
    }
}

#[cfg(test)]
mod tests {
    use super::*;

    // A segment has 8 pages of 195 words. Other tests free memory of the process meanwhile, so one opening of ten has
    // to show it.
    #[test]
    fn a_heap_takes_the_bytes_of_its_words() {
        let shows = |opening: Opening| opening.bytes >= 8 * 8 * 195 && opening.nanoseconds > 0.0;
        for what in [What::Plain, What::Growing] {
            assert!((0..10).any(|_| shows(Opening::of_what(what))), "{what:?}");
        }
    }

    #[test]
    fn names_are_those_of_what_is_opened() {
        assert!(ALL.into_iter().all(|what| What::of_name(what.name()) == Some(what)));
        assert_eq!(What::of_name("nothing"), None);
    }
}
