//! A ring of keys that one thread hands to another: the same steps as in `tool_bench`.
use std::hint::spin_loop;
use std::sync::atomic::{AtomicU64, Ordering::SeqCst};

const PLACES: usize = 1024;

pub struct Ring {
    words: Vec<AtomicU64>,
}

impl Ring {
    pub fn new() -> Self {
        Ring { words: (0..PLACES).map(|_| AtomicU64::new(0)).collect() }
    }

    /// Hands over a key, the one with this number.
    pub fn put(&self, number: usize, key: u64) {
        let word = &self.words[number % PLACES];
        while word.load(SeqCst) != 0 {
            spin_loop();
        }
        // 0 marks a free place, and may be a rival's key.
        word.store(key + 1, SeqCst);
    }

    /// Takes over the key with this number.
    pub fn take(&self, number: usize) -> u64 {
        let word = &self.words[number % PLACES];
        loop {
            let key = word.load(SeqCst);
            if key != 0 {
                word.store(0, SeqCst);
                return key - 1;
            }
            spin_loop();
        }
    }
}
