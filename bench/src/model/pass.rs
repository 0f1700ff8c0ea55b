//! What any thread does: the steps of get, release, read and remove.
use super::words::{width, Spot, Words, COUNT, FLAGS, GENERATION, MARKED, PRESENT};
use std::sync::atomic::Ordering::SeqCst;

fn is_live(found: u64, generation: u64) -> bool {
    found >> 32 == generation && found & FLAGS == PRESENT
}

impl<const PLAIN: bool> Words<PLAIN> {
    /// One step: whether the key was there, which is then held.
    pub fn get(&self, key: u64) -> Option<Spot> {
        let (spot, generation) = self.place(key)?;
        let found = self.state(spot).fetch_add(1, SeqCst);
        if is_live(found, generation) && found & COUNT < 1 << 20 {
            return Some(spot);
        }
        self.put_if_last(spot);
        None
    }

    /// Gives a hold back.
    pub fn release(&self, spot: Spot) {
        self.put_if_last(spot);
    }

    /// The sum of the words of a value that is held.
    pub fn sum(&self, spot: Spot) -> u64 {
        let class = self.class(spot.page).load(SeqCst) as usize - 1;
        let len = self.length(spot).load(SeqCst) as usize;
        let first = spot.slot * width(class);
        let mut words = [0u64; 16];
        for (i, word) in words[..len].iter_mut().enumerate() {
            *word = self.payload(spot.page, first + i).load(SeqCst);
        }
        words[..len].iter().fold(0, |sum, word| sum.wrapping_add(*word))
    }

    /// The sum of the words of a key's value, if the slot is live in the key's generation before they are read and
    /// afterwards. Nobody inserts or removes meanwhile.
    pub fn look(&self, key: u64) -> Option<u64> {
        let (spot, generation) = self.place(key)?;
        let is_there = || is_live(self.state(spot).load(SeqCst), generation);
        let sum = is_there().then(|| self.sum(spot))?;
        is_there().then_some(sum)
    }

    /// Removes a key: whether this thread did, and the slot, if it ended its generation.
    pub fn end(&self, key: u64) -> (bool, Option<Spot>) {
        let Some((spot, generation)) = self.place(key) else {
            return (false, None);
        };
        let found = self.state(spot).fetch_add(1, SeqCst);
        let first = is_live(found, generation) && self.state(spot).fetch_or(MARKED, SeqCst) & MARKED == 0;
        (first, self.leave(spot))
    }

    // Gives a count back: the slot, if it was the last on a marked value.
    fn leave(&self, spot: Spot) -> Option<Spot> {
        let found = self.state(spot).fetch_sub(1, SeqCst);
        if found & FLAGS != FLAGS || found & COUNT != 1 {
            return None;
        }
        let ended = (found & !COUNT, (found >> 32) * GENERATION + GENERATION);
        let done = self.state(spot).compare_exchange(ended.0, ended.1, SeqCst, SeqCst);
        done.is_ok().then_some(spot)
    }

    fn put_if_last(&self, spot: Spot) {
        if let Some(spot) = self.leave(spot) {
            self.put(spot);
        }
    }

    /// Puts an empty slot on its page's stack, and rings if the page was armed.
    pub fn put(&self, spot: Spot) {
        let found = self.head(spot.page).swap((spot.slot as u64 + 1) << 1, SeqCst);
        self.link(spot).store((found >> 1) + 1, SeqCst);
        if found & 1 == 1 {
            self.ring(spot.page);
        }
    }

    fn ring(&self, page: usize) {
        let (shard, local) = (page / self.pages, page % self.pages);
        let found = self.bell(shard).swap(local as u64 + 1, SeqCst);
        self.page_link(page).store(found + 1, SeqCst);
    }
}
