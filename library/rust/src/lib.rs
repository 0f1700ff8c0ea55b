//! A map of small values that threads share, and whose keys are never used again.
//!
//! # Which type do I want?
//!
//! | Type | For | Values |
//! |---|---|---|
//! | [`Table`] | most programs: any number of threads, typed keys | records of up to 16 words, copied |
//! | [`slab::Slab`], [`slab::Pool`] | the interface of the crate `sharded-slab` | any type, in place |
//! | [`Growing`], [`Heap`] | control: guards, receipts, a fixed room; 64 passes | 0 to 16 words |
//!
//! The calls of a pass cost least. In instructions a table's get, insert and removal are within 1.15 of them, and lock
//! nothing for 60 threads; those beyond share four locks. A slab's get counts its user in the value, and its removal
//! also frees the place of the key in a heap.
//!
//! A table is used by reference, and hides the rest:
//!
//! ```
//! use gearlongan::{Error, Table};
//! use std::thread;
//!
//! let table = Table::new();
//! let key = table.insert(&(7u32, 8.5f64))?;
//! thread::scope(|scope| {
//!     scope.spawn(|| assert_eq!(table.get(key), Some((7, 8.5))));
//! });
//! assert!(table.remove(key));
//! assert_eq!(table.get(key), None);
//! # Ok::<(), Error>(())
//! ```
//!
//! # Heaps and passes
//!
//! A heap has shards of pages. Each thread uses it by a pass of its own. Any pass may hold, read and remove any key; a
//! pass that owns a shard also inserts there. A value is at most 16 words of 64 bits; its key is a number that no other
//! value of the heap ever has. So a key that is out of date finds nothing.
//!
//! - A [`Heap`] is opened with a number of passes, which threads [take](Heap::take).
//! - A [`Pass`] goes home when it is dropped, for the next thread. It is [`Send`] and not [`Sync`].
//! - A pass that [adopts](Pass::adopt) a shard is a [`Shard`] until it [leaves](Shard::leave): it also inserts.
//! - A [`Guard`] keeps a value readable, removed or not, until it is dropped.
//! - A [`Receipt`] orders the calls of one pass before those of another.
//! - A [`Growing`] heap opens chunks as its [`Caller`]s insert. They adopt shards by themselves.
//!
//! No call of a pass or a shard waits or locks. Memory is taken by the calls that open a heap, by `take` of both kinds,
//! [`Heap::gather`], [`Pass::adopt`] and `receipt`. An insert or a prepare takes it for a segment, and that of a
//! [`Caller`] also for a shard or a chunk. If memory is refused they return [`Error::Memory`].
//!
//! # Reading
//!
//! A [`load`](Pass::load) copies a value. It writes nothing to shared memory if the key has a value or was removed. It
//! takes w + 4 atomic loads for a value of w words, and at most 20 if the key was removed. A [`get`](Pass::get) pins
//! the value in place. It and the drop of its guard each change a word that all readers of the key share.
//!
//! # The end of a value
//!
//! What a value names, such as a pointer or a file, can be freed once nobody reads the value any more: then its key
//! ends. Exactly one call ends a key. [`Pass::on_end`] and [`Table::on_end`] have a closure called with it. Without one
//! [`Guard::release`], [`Pass::remove_ended`] and the like return it: see [`Ended`]. The other calls do not say which
//! key they end: a guard's drop, a removal and a `take`. A `get`, a `load` or a step of [`Pass::walk_held`] ends one
//! only if it finds a key gone.
//!
//! # Walks
//!
//! A walk ([`Pass::walk`], [`Table::iter`]) meets the live keys in the order of their places, each place once. A key
//! that is live from its begin to its end is met. One that is inserted or removed meanwhile is met or not, and a key
//! that is met was live at that moment.
//!
//! # Threads
//!
//! | Type | [`Send`] | [`Sync`] | So |
//! |---|---|---|---|
//! | [`Table`] | yes | yes | threads share a reference, and call |
//! | [`Heap`], [`Growing`] | yes | yes | threads share a reference, and take a pass each |
//! | [`Pass`], [`Shard`], [`Caller`] | yes | no | one thread has it at a time |
//! | [`Guard`] | no | no | it stays with its pass |
//! | [`Receipt`] | yes | no | it goes to the thread that heeds it |
//! | [`Key`], [`Value`], [`Error`] | yes | yes | plain data |
//!
//! After a `fork` of a process with threads, the child makes no call of this crate.
//!
//! # Linking
//!
//! The crate needs Rust 1.85, x86-64 Linux, and the library `libshardheap`. The build script takes the library from the
//! folder that `SHARDHEAP_LIB_DIR` names, from the repository of this crate, or from where pkg-config finds it. A crate
//! that was packaged has one inside, which comes last. With `SHARDHEAP_SHARED` set the shared library is linked.
//!
//! # Features
//!
//! None is on by default.
//!
//! - `record`: a heap can record what its passes return, for a checker of histories: see the module `history`.
//! - `serde`: a [`table::Key`] is serialized as a number, and in a format that people read as its text. (A number of
//!   JSON or TOML may lose the high bits of a key.) 0 is refused.
//! - `bytemuck`: `Plain<P>` is a record of any type `P` that is `bytemuck::Pod`.
//!
//! # What is proved
//!
//! What the calls do is proved, in the library that this crate links. The crate itself is not proved: it is what makes
//! of C's calls those of safe Rust. Nor are its table and its slab, which are layers over heaps.
//!
//! # Examples
//!
//! ```
//! use gearlongan::{Error, Heap, Layout, Room};
//!
//! let heap = Heap::open_for(Layout::Wide, Room { owners: 1, values: 1000, words: 3, passes: 2 })?;
//! let shard = heap.take()?.adopt(0)?;
//! let pass = heap.take()?;
//!
//! let key = shard.insert(&[7, 8, 9])?;
//! let guard = pass.get(key)?;
//! shard.remove(key)?;
//!
//! // The key finds nothing any more, and the guard still has the value.
//! assert_eq!(shard.get(key).err(), Some(Error::Gone));
//! assert_eq!(*guard, [7, 8, 9]);
//! # Ok::<(), Error>(())
//! ```
//!
//! Threads have a pass each. The heap goes with the last of them:
//!
//! ```
//! use gearlongan::{Error, Heap, Layout, Shape};
//! use std::thread;
//!
//! let heap = Heap::open(Layout::Wide, Shape { shards: 2, segments: 1, passes: 2 })?;
//! let (mine, other) = (heap.take()?.adopt(0)?, heap.take()?.adopt(1)?);
//! drop(heap);
//!
//! let key = mine.insert(&[1])?;
//! let theirs = thread::spawn(move || {
//!     other.remove(key)?;
//!     other.insert(&[2])
//! });
//! let theirs = theirs.join().expect("the thread ends well")?;
//! assert_eq!(mine.load(theirs)?, [2]);
//! assert_eq!(mine.load(key), Err(Error::Gone));
//! # Ok::<(), Error>(())
//! ```
#![forbid(unsafe_op_in_unsafe_fn)]
#![deny(missing_docs)]

#[cfg(not(all(target_arch = "x86_64", target_os = "linux", target_pointer_width = "64")))]
compile_error!("gearlongan supports x86-64 Linux alone");

mod accounts;
mod ended;
mod error;
mod ffi;
mod growing;
mod guard;
mod heap;
#[cfg(feature = "record")]
pub mod history;
mod key;
mod keys;
mod pass;
#[cfg(feature = "bytemuck")]
mod plain;
mod receipt;
mod record;
mod shard;
#[cfg(target_pointer_width = "64")]
pub mod slab;
#[cfg(target_pointer_width = "64")]
pub mod table;
#[cfg(target_pointer_width = "64")]
mod threads;
#[cfg(not(feature = "record"))]
mod unrecorded;
mod value;
mod walk;
mod words;

#[cfg(not(feature = "record"))]
use unrecorded as history;

// The example of the crate's README.md is run with those of the documentation.
#[cfg(doctest)]
#[doc = include_str!("../README.md")]
mod readme {}

pub use accounts::{PageAccounts, Totals};
pub use ended::Ended;
pub use error::{AdoptError, Error, LeaveError};
pub use growing::{Caller, Growing};
pub use guard::Guard;
pub use heap::{Heap, Layout, Room, Shape};
pub use key::Key;
pub use keys::{Keys, ShardKeys};
pub use pass::Pass;
#[cfg(feature = "bytemuck")]
pub use plain::Plain;
pub use receipt::Receipt;
pub use record::Record;
pub use shard::Shard;
#[doc(inline)]
#[cfg(target_pointer_width = "64")]
pub use table::Table;
pub use value::{Value, MAX_WORDS};
pub use walk::{HeldWalk, Walk};
