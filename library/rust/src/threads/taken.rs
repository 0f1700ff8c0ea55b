//! Which of a few numbers are taken.
use super::marks::mark;
use std::sync::atomic::AtomicU64;
use std::sync::atomic::Ordering::{Acquire, Relaxed, Release};

/// Which of 64 numbers are taken. Each has one owner at a time: what the last one did before it gave the number back
/// happens before what the next one does. (There is no lock, under which an allocator of the user could call.)
#[derive(Debug)]
pub(crate) struct Taken(AtomicU64);

impl Taken {
    /// The first `count` numbers are free, and the others taken for good. `count` is 1 to 64.
    pub(crate) const fn free(count: u32) -> Taken {
        Taken(AtomicU64::new(!(u64::MAX >> (u64::BITS - count))))
    }

    /// Takes the lowest number that is free. None if all are taken.
    pub(crate) fn take_lowest(&self) -> Option<usize> {
        let lowest = |bits| {
            mark();
            (bits != u64::MAX).then(|| bits | (bits + 1))
        };
        let before = self.0.fetch_update(Acquire, Relaxed, lowest).ok()?;
        Some(before.trailing_ones() as usize)
    }

    /// Takes this number: whether it was free.
    pub(crate) fn take(&self, number: usize) -> bool {
        mark();
        self.0.load(Relaxed) >> number & 1 == 0 && self.0.fetch_or(1 << number, Acquire) >> number & 1 == 0
    }

    /// Gives back a number that the caller took.
    pub(crate) fn give_back(&self, number: usize) {
        mark();
        self.0.fetch_and(!(1 << number), Release);
    }
}

#[cfg(test)]
mod tests {
    use super::*;

    #[test]
    fn the_lowest_free_number_is_taken() {
        let taken = Taken::free(3);
        let all: Vec<_> = std::iter::from_fn(|| taken.take_lowest()).collect();
        assert_eq!(all, [0, 1, 2]);
        taken.give_back(1);
        assert!(taken.take(1) && !taken.take(1) && !taken.take(3));
        taken.give_back(2);
        taken.give_back(0);
        assert_eq!((taken.take_lowest(), taken.take_lowest(), taken.take_lowest()), (Some(0), Some(2), None));
        assert_eq!(Taken::free(64).take_lowest(), Some(0));
    }
}
