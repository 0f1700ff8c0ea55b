//! A table of connections that grows: nobody says how many there will be.
//!
//! Each thread has a caller of its own, and no thread owns a shard by its number. An insert finds a chunk with room, or
//! opens one. It is refused as [`Error::Full`] or [`Error::NoShard`] only if the table has as many chunks as it may
//! have.
use gearlongan::{Caller, Error, Growing, Heap, Key, Room};
use std::thread;

const THREADS: u32 = 4;
const CONNECTIONS: u64 = 5_000;

/// Accepts connections, of which every second is closed again. Returns those that stay, and how many were refused.
fn accept(caller: &Caller, thread: u64) -> Result<(Vec<Key>, u64), Error> {
    let (mut open, mut refused) = (Vec::new(), 0);
    for number in 0..CONNECTIONS {
        match caller.insert_record(&(thread, number)) {
            Ok(key) if number % 2 == 0 => open.push(key),
            Ok(key) => caller.remove(key)?,
            Err(Error::Full | Error::NoShard) => refused += 1,
            Err(error) => return Err(error),
        }
    }
    Ok((open, refused))
}

/// Runs the threads. Returns all connections that stay, and how many were refused.
fn run(table: &Growing) -> Result<(Vec<Key>, u64), Error> {
    thread::scope(|scope| {
        let threads: Vec<_> =
            (0..THREADS).map(|thread| scope.spawn(move || accept(&table.take()?, thread.into()))).collect();
        let (mut open, mut refused) = (Vec::new(), 0);
        for thread in threads {
            let (more, others) = thread.join().expect("no thread panics")?;
            open.extend(more);
            refused += others;
        }
        Ok((open, refused))
    })
}

fn main() -> Result<(), Error> {
    // Each thread inserts, and the first chunk has room for 100 connections of two words of each. There may be 64 chunks:
    // half a million connections.
    let table = Heap::growing(Room { owners: THREADS, values: 100, words: 2, passes: THREADS }, 64)?;
    let (open, refused) = run(&table)?;
    println!("{} connections are open, in {} chunks; {refused} were refused", open.len(), table.chunks());

    let caller = table.take()?;
    for key in open {
        let (_thread, number): (u64, u64) = caller.load_record(key)?;
        assert_eq!(number % 2, 0);
        caller.remove(key)?;
        assert_eq!(caller.load(key), Err(Error::Gone));
    }
    Ok(())
}
