//! Recorded histories: what the passes of a heap returned, in the lines that the program `tool_history` judges.
//!
//! This module is there with the feature `record`, which is off by default. A heap records nothing until
//! [`Heap::record`](crate::Heap::record) is called. From then on each pass writes down each of its answers, with the
//! times between which the call was made. The document HISTORIES of this crate's repository describes the lines and the
//! verdicts.
//!
//! ```
//! use gearlongan::{Error, Heap, Layout, Room};
//!
//! let mut heap = Heap::open_for(Layout::Wide, Room { owners: 1, values: 100, words: 2, passes: 2 })?;
//! let recording = heap.record()?;
//! let (owner, reader) = (heap.take()?.adopt(0)?, heap.take()?);
//!
//! let key = owner.insert(&[7, 8])?;
//! let guard = reader.get(key)?;
//! owner.remove(key)?;
//! assert_eq!(*guard, [7, 8]);
//! drop(guard);
//! assert_eq!(reader.load(key), Err(Error::Gone));
//!
//! drop((owner, reader)); // each pass hands its answers over
//! let history = recording.history()?;
//! assert_eq!(
//!     history.to_string(),
//!     format!(
//!         "history 2 1048576\n\
//!          0 Insert {key} 2 7 8\n\
//!          1 Got {key} 2 7 8\n\
//!          0 Removed {key}\n\
//!          1 Released {key}\n\
//!          1 Gone {key}\n"
//!     )
//! );
//! # Ok::<(), Error>(())
//! ```
//!
//! # What is recorded
//!
//! | Call | Returned | Lines |
//! |---|---|---|
//! | insert | `Ok` | `Insert`, with the value |
//! | get | `Ok` | `Got`; with the value, if a guard or the pass reads it before the release |
//! | get, load, take, remove | [`Gone`](crate::Error::Gone) | `Gone` |
//! | get, load, take, walk_held | [`Crowded`](crate::Error::Crowded) | `Crowded` |
//! | a guard that is dropped | | `Released` |
//! | remove | `Ok` | `Removed` |
//! | load | `Ok` | `Seen`, with the value |
//! | take | `Ok` | `Got`, with the value, `Removed` and `Released` |
//! | walk, remove_if | a key that is met | `Seen`, with the value |
//! | walk_held | a guard | `Got`, as of a get |
//!
//! A recorded take is made as a get, a read, a removal and a release, and each load of a batch as a call. So each line
//! has the times of a call of its own. Other refusals say nothing about a key and are not recorded, and neither are the
//! other calls.
//!
//! If a read returns another value than a read before it under the same hold, it is recorded as a get and a release of
//! its own. No map whose held values stay allows that.
//!
//! # Times
//!
//! The times are those of one clock of the process, which counts up by one each time that it is read. Two readings are
//! ordered by happens before. So a call that ended before another began happens before it, also if nothing else orders
//! them: a run that is recorded has more order than the same run without.
//!
//! The memory of a recording grows with each answer. A pass numbers its lines with the least number that no other pass
//! has at the time. So a history has no more passes than the heap.
mod book;
mod log;

pub(crate) use book::Recorder;
pub use book::{History, Recording};
pub(crate) use log::Log;
