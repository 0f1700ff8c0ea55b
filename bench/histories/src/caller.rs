//! How a thread uses a map.

/// What a thread has of a map, which records what it returns.
pub trait Caller: Send {
    /// Inserts a value, and returns its key.
    fn insert(&mut self, value: u64) -> u64;

    /// Gets a value, calls `act` with it while it is held, and returns it. Returns nothing if the key has no value.
    fn hold(&mut self, key: u64, act: &mut dyn FnMut(u64)) -> Option<u64>;

    /// Whether this call removed the key.
    fn remove(&mut self, key: u64) -> bool;

    /// Copies a value, and keeps no hold. Returns nothing if the key has no value.
    fn load(&mut self, key: u64) -> Option<u64>;
}
