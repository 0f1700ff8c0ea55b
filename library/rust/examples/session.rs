//! A value is stored by one thread, and got, read and removed by another.
use gearlongan::{Error, Heap, Key, Layout, Pass, Room};
use std::thread;

fn reads(pass: &Pass, key: Key) -> Result<(), Error> {
    let guard = pass.get(key)?;
    pass.remove(key)?;
    println!("{} words: {:?}", guard.len(), guard.value());
    drop(guard);
    assert_eq!(pass.load(key), Err(Error::Gone));
    Ok(())
}

fn main() -> Result<(), Error> {
    let heap = Heap::open_for(Layout::Wide, Room { owners: 1, values: 20_000, words: 2, passes: 2 })?;
    let shard = heap.take()?.adopt(0)?;
    let pass = heap.take()?;
    let key = shard.insert(&[7, 8])?;
    let other = thread::spawn(move || reads(&pass, key));
    other.join().expect("the thread ends well")
}
