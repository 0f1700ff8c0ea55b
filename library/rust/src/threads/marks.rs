//! Marks: where a test of turns lets another thread go on, and looks that no two threads have one place. In other
//! builds they are nothing.
#[cfg(test)]
pub(crate) use super::turns::mark;

/// Another thread may go on here.
#[cfg(not(test))]
#[inline(always)]
pub(crate) fn mark() {}

/// What one thread at a time uses.
#[cfg(not(test))]
#[derive(Debug, Default)]
pub(crate) struct Alone;

#[cfg(not(test))]
impl Alone {
    /// Runs it, and looks in tests that no other thread is within.
    #[inline(always)]
    pub(crate) fn run<T>(&self, act: impl FnOnce() -> T) -> T {
        act()
    }
}

/// What one thread at a time uses.
#[cfg(test)]
#[derive(Debug, Default)]
pub(crate) struct Alone(std::sync::atomic::AtomicBool);

#[cfg(test)]
impl Alone {
    /// Runs it, and looks that no other thread is within.
    pub(crate) fn run<T>(&self, act: impl FnOnce() -> T) -> T {
        use std::sync::atomic::Ordering::SeqCst;
        assert!(!self.0.swap(true, SeqCst), "two threads are in one place");
        mark();
        let result = act();
        mark();
        self.0.store(false, SeqCst);
        result
    }
}
