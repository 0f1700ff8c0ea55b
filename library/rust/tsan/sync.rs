//! Locks of atomics alone, in place of those of the standard library: ThreadSanitizer sees all of them, and of the
//! standard library only what is compiled into the crate. For `tsan.py`.
#![allow(missing_docs, missing_debug_implementations, unreachable_pub, dead_code)]
use std::cell::UnsafeCell;
use std::mem::MaybeUninit;
use std::ops::{Deref, DerefMut};
use std::sync::atomic::AtomicU8;
use std::sync::atomic::Ordering::{Acquire, Relaxed, Release};
pub use std::sync::{Arc, PoisonError, TryLockError, Weak};
use std::thread;

#[derive(Debug, Default)]
pub struct Mutex<T> {
    is_locked: AtomicU8,
    value: UnsafeCell<T>,
}

// SAFETY: the lock gives the value to one thread at a time.
unsafe impl<T: Send> Send for Mutex<T> {}

// SAFETY: as above.
unsafe impl<T: Send> Sync for Mutex<T> {}

pub struct MutexGuard<'a, T>(&'a Mutex<T>);

impl<T> Mutex<T> {
    pub const fn new(value: T) -> Self {
        Mutex { is_locked: AtomicU8::new(0), value: UnsafeCell::new(value) }
    }

    pub fn lock(&self) -> Result<MutexGuard<'_, T>, PoisonError<MutexGuard<'_, T>>> {
        while self.is_locked.compare_exchange(0, 1, Acquire, Relaxed).is_err() {
            thread::yield_now();
        }
        Ok(MutexGuard(self))
    }

    pub fn try_lock(&self) -> Result<MutexGuard<'_, T>, TryLockError<MutexGuard<'_, T>>> {
        match self.is_locked.compare_exchange(0, 1, Acquire, Relaxed) {
            Ok(_) => Ok(MutexGuard(self)),
            Err(_) => Err(TryLockError::WouldBlock),
        }
    }

    pub fn get_mut(&mut self) -> Result<&mut T, PoisonError<&mut T>> {
        Ok(self.value.get_mut())
    }
}

impl<T> Deref for MutexGuard<'_, T> {
    type Target = T;

    fn deref(&self) -> &T {
        // SAFETY: the guard has the lock.
        unsafe { &*self.0.value.get() }
    }
}

impl<T> DerefMut for MutexGuard<'_, T> {
    fn deref_mut(&mut self) -> &mut T {
        // SAFETY: as above.
        unsafe { &mut *self.0.value.get() }
    }
}

impl<T> Drop for MutexGuard<'_, T> {
    fn drop(&mut self) {
        self.0.is_locked.store(0, Release);
    }
}

const EMPTY: u8 = 0;
const SETTING: u8 = 1;
const SET: u8 = 2;

pub struct OnceLock<T> {
    state: AtomicU8,
    value: UnsafeCell<MaybeUninit<T>>,
}

// SAFETY: the value is written once, before it is shared.
unsafe impl<T: Send> Send for OnceLock<T> {}

// SAFETY: as above.
unsafe impl<T: Send + Sync> Sync for OnceLock<T> {}

impl<T> OnceLock<T> {
    pub const fn new() -> Self {
        OnceLock { state: AtomicU8::new(EMPTY), value: UnsafeCell::new(MaybeUninit::uninit()) }
    }

    pub fn get(&self) -> Option<&T> {
        // SAFETY: a value that is set stays.
        (self.state.load(Acquire) == SET).then(|| unsafe { (*self.value.get()).assume_init_ref() })
    }

    pub fn set(&self, value: T) -> Result<(), T> {
        if self.state.compare_exchange(EMPTY, SETTING, Acquire, Relaxed).is_err() {
            while self.state.load(Acquire) != SET {
                thread::yield_now();
            }
            return Err(value);
        }
        // SAFETY: this call is the only one that sets.
        unsafe { (*self.value.get()).write(value) };
        self.state.store(SET, Release);
        Ok(())
    }
}

impl<T> Drop for OnceLock<T> {
    fn drop(&mut self) {
        if *self.state.get_mut() == SET {
            // SAFETY: it is set, and dropped here.
            unsafe { self.value.get_mut().assume_init_drop() };
        }
    }
}
