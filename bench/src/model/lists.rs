//! The free slots of a page that its owner keeps: two lists through one array.

#[derive(Clone, Copy)]
struct Thread {
    front: u8,
    end: u8,
    count: u8,
}

const NO_SLOTS: Thread = Thread { front: 0, end: 0, count: 0 };

pub struct Lists {
    next: [u8; 48],
    free: Thread,
    local: Thread,
}

impl Lists {
    /// The slots below this number are free.
    pub fn full(slots: usize) -> Self {
        let next = std::array::from_fn(|slot| slot as u8 + 1);
        let free = Thread { front: 0, end: slots.saturating_sub(1) as u8, count: slots as u8 };
        Lists { next, free, local: NO_SLOTS }
    }

    fn pop(&mut self) -> Option<usize> {
        if self.free.count == 0 {
            return None;
        }
        let slot = self.free.front as usize;
        self.free.front = self.next[slot];
        self.free.count -= 1;
        Some(slot)
    }

    /// The next slot to use: the front of `free`, and once that is empty, `local` becomes `free`.
    pub fn next_slot(&mut self) -> Option<usize> {
        if let Some(slot) = self.pop() {
            return Some(slot);
        }
        self.free = std::mem::replace(&mut self.local, NO_SLOTS);
        self.pop()
    }

    pub fn push_local(&mut self, slot: usize) {
        let slot = slot as u8;
        if self.local.count == 0 {
            self.local = Thread { front: slot, end: slot, count: 1 };
            return;
        }
        self.next[slot as usize] = self.local.front;
        self.local.front = slot;
        self.local.count += 1;
    }

    /// Puts a slot that was read from the page's stack behind `free`.
    pub fn add_read(&mut self, slot: usize) {
        let slot = slot as u8;
        if self.free.count == 0 {
            self.free = Thread { front: slot, end: slot, count: 1 };
            return;
        }
        self.next[self.free.end as usize] = slot;
        self.free.end = slot;
        self.free.count += 1;
    }
}
