//! A gate at which threads wait until all of them have come.
use std::hint::spin_loop;
use std::sync::atomic::{AtomicUsize, Ordering::SeqCst};

pub struct Gate {
    arrived: AtomicUsize,
    threads: usize,
}

impl Gate {
    pub fn new(threads: usize) -> Self {
        Gate { arrived: AtomicUsize::new(0), threads }
    }

    pub fn pass(&self) {
        self.arrived.fetch_add(1, SeqCst);
        while self.arrived.load(SeqCst) < self.threads {
            spin_loop();
        }
    }
}
