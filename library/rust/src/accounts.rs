//! The counts of a whole heap.

/// What the slots of a page are. A page of a class has as many slots as the class says; a page without one has none.
#[derive(Clone, Copy, Debug, PartialEq, Eq, Hash)]
pub struct PageAccounts {
    /// Its class, 0 to 7, whose values have at most 1, 2, 3, 4, 6, 8, 12 and 16 words.
    pub class: Option<u32>,
    /// With a value that can be got.
    pub live: u32,
    /// With a value that was removed and is held.
    pub marked: u32,
    /// Never used again.
    pub retired: u32,
    /// Empty.
    pub queued: u32,
}

/// The sums over all pages of a heap.
#[derive(Clone, Copy, Debug, PartialEq, Eq, Hash)]
pub struct Totals {
    /// Slots with a value that can be got: the number of keys in the map.
    pub live: u32,
    /// Slots with a value that was removed and is held.
    pub marked: u32,
    /// Slots that are never used again.
    pub retired: u32,
    /// Empty slots.
    pub queued: u32,
    /// Pages that have a class.
    pub used_pages: u32,
    /// Pages that have none.
    pub blank_pages: u32,
}
