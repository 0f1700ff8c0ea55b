//! How a table is opened.
use super::ending::OnEnd;
use super::members::Members;
use super::Table;
use crate::{Error, Record, Room, MAX_WORDS};
use std::fmt;
use std::marker::PhantomData;

/// What a table is to have room for at first, and how far it grows. [`Table::builder`] makes one.
///
/// ```
/// use gearlongan::{Error, Table};
///
/// let table: Table<u64> = Table::builder().threads(4).room(10_000).chunks(100).open()?;
/// assert!(table.is_empty());
/// assert_eq!(Table::<u64>::builder().threads(65).open().err(), Some(Error::BadShape));
/// # Ok::<(), Error>(())
/// ```
#[must_use = "a builder does nothing until it opens a table"]
pub struct Builder<R> {
    first: Room,
    chunks: u32,
    record: PhantomData<fn() -> R>,
}

impl<R: Record> Builder<R> {
    pub(super) fn new() -> Builder<R> {
        const { assert!(R::WORDS <= MAX_WORDS, "a record has at most 16 words") };
        let first = Room { owners: 2, values: 1, words: R::WORDS as u32, passes: 1 };
        Builder { first, chunks: 64, record: PhantomData }
    }

    /// How many threads insert at the same time, from 1 to 64. Otherwise 2. Each has room of its own in what the table
    /// opens with. If more threads insert, the table grows earlier.
    pub fn threads(mut self, threads: u32) -> Builder<R> {
        self.first.owners = threads;
        self
    }

    /// How many records each of these threads inserts before the table grows. Otherwise as many as the least table has
    /// room for: 384 of a word, 24 of sixteen words.
    pub fn room(mut self, records: u64) -> Builder<R> {
        self.first.values = records;
        self
    }

    /// How many chunks the table may have, from 1 to 256. Otherwise 64. The table opens with one, and an insert that
    /// finds no room opens another. Each place of a thread takes 368 bytes for each.
    pub fn chunks(mut self, chunks: u32) -> Builder<R> {
        self.chunks = chunks;
        self
    }

    /// Opens the table.
    ///
    /// # Errors
    ///
    /// [`Error::BadShape`] if a number is outside its limits or no first chunk has the room, and [`Error::Memory`] if
    /// memory for the heap is refused. If the few kilobytes of the table itself are refused, the process ends, as for
    /// any `Box`.
    pub fn open(self) -> Result<Table<R>, Error> {
        Ok(Table { members: Members::open(self.first, self.chunks)?, on_end: OnEnd::none(), record: PhantomData })
    }
}

impl<R> Clone for Builder<R> {
    fn clone(&self) -> Builder<R> {
        Builder { ..*self }
    }
}

impl<R> fmt::Debug for Builder<R> {
    fn fmt(&self, f: &mut fmt::Formatter<'_>) -> fmt::Result {
        let Room { owners, values, .. } = self.first;
        f.debug_struct("Builder")
            .field("threads", &owners)
            .field("room", &values)
            .field("chunks", &self.chunks)
            .finish_non_exhaustive()
    }
}
