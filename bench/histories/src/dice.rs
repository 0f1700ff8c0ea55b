//! Numbers that look random, the same in each run.

/// The state of xorshift64.
#[derive(Debug)]
pub struct Dice {
    state: u64,
}

impl Dice {
    /// Dice of a thread.
    pub fn of(thread: usize) -> Dice {
        Dice { state: 0x9E37_79B9_7F4A_7C15 ^ ((thread as u64 + 1) << 32) }
    }

    /// A number below `end`, which is not 0.
    pub fn below(&mut self, end: u64) -> u64 {
        self.state ^= self.state << 13;
        self.state ^= self.state >> 7;
        self.state ^= self.state << 17;
        (self.state >> 11) % end
    }
}
