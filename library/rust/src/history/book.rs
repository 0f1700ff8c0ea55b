//! What all passes of a heap recorded.
use super::log::{Entry, Log};
use crate::error::Error;
use std::fmt;
use std::sync::atomic::{AtomicBool, Ordering};
use std::sync::{Arc, Mutex, MutexGuard, PoisonError};

/// The entries of the passes that came home, and which numbers the others have.
#[derive(Debug, Default)]
struct Book {
    entries: Vec<Entry>,
    // By number, whether a pass has it.
    is_away: Vec<bool>,
}

/// The recording of a heap: see [`Heap::record`](crate::Heap::record). Its copies are of the same heap.
#[derive(Clone, Debug)]
pub struct Recording {
    // How many passes the heap has, and how many holds a key may have.
    passes: u64,
    holds: u32,
    book: Arc<Mutex<Book>>,
}

impl Recording {
    pub(super) fn new(passes: u64, holds: u32) -> Recording {
        Recording { passes, holds, book: Arc::default() }
    }

    // Nothing panics while the lock is held, except if memory is refused.
    fn lock(&self) -> MutexGuard<'_, Book> {
        self.book.lock().unwrap_or_else(PoisonError::into_inner)
    }

    /// The least number that no pass has, for a pass that is taken.
    pub(super) fn number(&self) -> u32 {
        let mut book = self.lock();
        let number = book.is_away.iter().position(|is_away| !is_away).unwrap_or(book.is_away.len());
        if number == book.is_away.len() {
            book.is_away.push(true);
        } else {
            book.is_away[number] = true;
        }
        number as u32
    }

    /// Takes the entries of a pass, whose number is free from then on.
    pub(super) fn add(&self, number: u32, entries: &mut Vec<Entry>) {
        let mut book = self.lock();
        book.entries.append(entries);
        book.is_away[number as usize] = false;
    }

    /// All that was recorded until now, in the order in which the calls began.
    ///
    /// # Errors
    ///
    /// [`Error::Away`] if a pass is away: it still has its answers.
    ///
    /// ```
    /// # use gearlongan::{Error, Heap, Layout, Shape};
    /// let mut heap = Heap::open(Layout::Wide, Shape { shards: 1, segments: 1, passes: 1 })?;
    /// let recording = heap.record()?;
    /// let shard = heap.take()?.adopt(0)?;
    /// shard.remove(shard.insert(&[7])?)?;
    /// assert_eq!(recording.history().err(), Some(Error::Away));
    /// drop(shard);
    /// assert_eq!(recording.history()?.len(), 2);
    /// # Ok::<(), Error>(())
    /// ```
    pub fn history(&self) -> Result<History, Error> {
        let book = self.lock();
        if book.is_away.contains(&true) {
            return Err(Error::Away);
        }
        let mut entries = book.entries.clone();
        entries.sort_unstable_by_key(Entry::begin);
        Ok(History { passes: self.passes, holds: self.holds, entries })
    }
}

/// Whether a heap records, and where.
#[derive(Debug)]
pub(crate) struct Recorder {
    holds: u32,
    is_taken: AtomicBool,
    recording: Option<Recording>,
}

impl Recorder {
    /// Of a heap in which a key may have this number of holds.
    pub(crate) fn new(holds: u32) -> Recorder {
        Recorder { holds, is_taken: AtomicBool::new(false), recording: None }
    }

    pub(crate) fn start(&mut self, passes: u64) -> Result<Recording, Error> {
        if let Some(recording) = &self.recording {
            return Ok(recording.clone());
        }
        if *self.is_taken.get_mut() {
            return Err(Error::Away);
        }
        let recording = Recording::new(passes, self.holds);
        self.recording = Some(recording.clone());
        Ok(recording)
    }

    /// For a pass that was taken.
    pub(crate) fn log(&self) -> Log {
        self.is_taken.store(true, Ordering::Relaxed);
        Log::of(self.recording.clone())
    }
}

/// What the passes of a heap returned. Its text is what `tool_history` reads: a header, and a line for each entry.
///
/// If each call ended before the next began, their order is known, and the lines have no times. Otherwise each line
/// begins with the times between which the call was made.
///
/// ```
/// # use gearlongan::{Error, Heap, Layout, Shape};
/// # let mut heap = Heap::open(Layout::Wide, Shape { shards: 1, segments: 1, passes: 1 })?;
/// let recording = heap.record()?;
/// let key = heap.take()?.adopt(0)?.insert(&[7])?;
/// let history = recording.history()?;
/// assert!(history.is_ordered());
/// assert_eq!(history.to_string(), format!("history 1 1048576\n0 Insert {key} 1 7\n"));
/// # Ok::<(), Error>(())
/// ```
#[derive(Clone, Debug)]
pub struct History {
    passes: u64,
    holds: u32,
    // In the order in which their calls began.
    entries: Vec<Entry>,
}

impl History {
    /// How many entries it has: lines without the header.
    pub fn len(&self) -> usize {
        self.entries.len()
    }

    /// Whether nothing was recorded.
    pub fn is_empty(&self) -> bool {
        self.entries.is_empty()
    }

    /// Whether each call ended before the next began.
    pub fn is_ordered(&self) -> bool {
        self.entries.windows(2).all(|two| two[0].is_before(&two[1]))
    }
}

impl fmt::Display for History {
    fn fmt(&self, f: &mut fmt::Formatter<'_>) -> fmt::Result {
        let has_times = !self.is_ordered();
        writeln!(f, "history {} {}", self.passes, self.holds)?;
        self.entries.iter().try_for_each(|entry| entry.write(f, has_times))
    }
}

#[cfg(test)]
mod tests {
    use super::*;

    #[test]
    fn a_number_is_used_again_once_it_is_free() {
        let recording = Recording::new(3, 4);
        assert_eq!([recording.number(), recording.number(), recording.number()], [0, 1, 2]);
        recording.add(1, &mut Vec::new());
        assert_eq!(recording.number(), 1);
        assert_eq!(recording.history().err(), Some(Error::Away));
        (0..3).for_each(|number| recording.add(number, &mut Vec::new()));
        let history = recording.history().expect("none is away");
        assert!(history.is_empty() && history.is_ordered());
        assert_eq!(history.to_string(), "history 3 4\n");
    }
}
