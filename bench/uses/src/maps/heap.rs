//! The heap of this repository, by the Rust crate: a thread that inserts owns a shard.
use crate::map::{Caller, Map, Room};
use gearlongan::{Heap, Key, Layout, Pass, Shard, Value};

pub struct OfHeap(Heap);

/// A shard, and the value that it reads into.
pub struct Owner(Shard, Value);

impl Map for OfHeap {
    type Caller<'a> = Owner;
    type Idle<'a> = Pass;

    fn open(room: Room) -> Self {
        let Room { owners, values, words } = room;
        // One pass more than owners: of a shard that is handed over, two threads have a pass.
        let (passes, owners) = (owners as u32 + 1, owners as u32);
        let room = gearlongan::Room { owners, values: values as u64, words: words as u32, passes };
        OfHeap(Heap::open_for(Layout::Deep, room).expect("there is memory"))
    }

    fn idle(&self) -> Pass {
        self.0.take().expect("there is a pass for each thread")
    }

    fn begin(&self, idle: Pass, shard: usize) -> Owner {
        Owner(idle.adopt(shard as u32).expect("nobody has the shard"), Value::default())
    }

    fn end(&self, caller: Owner) -> Pass {
        caller.0.leave().expect("no free is in its middle")
    }
}

impl Caller for Owner {
    fn insert(&mut self, words: &[u64]) -> u64 {
        self.0.insert(words).expect("there is room").into()
    }

    fn remove(&mut self, key: u64) -> bool {
        self.0.remove(Key::from(key)).is_ok()
    }

    fn read(&mut self, key: u64) -> Option<u64> {
        self.0.load_into(Key::from(key), &mut self.1).ok()?;
        Some(self.1.iter().fold(0, |sum, word| sum.wrapping_add(*word)))
    }
}
