//! The library from Rust: the calls of the crate `gearlongan`.
use crate::side::{Place, Samples, Side, User, EIGHT};
use gearlongan::{Caller, Error, Heap, Key, Layout, Pass, Room, Shard, Value};
use std::fmt::Display;
use std::ops::Deref;
use std::process::exit;

/// What uses keys. Each is in lines of the cache of its own.
#[repr(align(64))]
pub enum Any {
    Shard(Shard),
    Pass(Pass),
    /// In a heap that grows.
    Caller(Caller),
}

pub struct Rust {
    owner: Any,
    users: Vec<Any>,
}

impl Deref for Any {
    type Target = Pass;

    fn deref(&self) -> &Pass {
        match self {
            Any::Shard(shard) => shard,
            Any::Pass(pass) => pass,
            Any::Caller(caller) => caller,
        }
    }
}

// What a call answers, which is never refused.
#[inline]
fn must<T, E: Display>(answer: Result<T, E>) -> T {
    match answer {
        Ok(value) => value,
        Err(error) => refused(&error),
    }
}

#[cold]
fn refused(error: &dyn Display) -> ! {
    eprintln!("a call is refused: {error}");
    exit(3);
}

#[inline]
fn sum_of(words: &[u64]) -> u64 {
    words.iter().fold(0, |sum, word| sum.wrapping_add(*word))
}

// Adds up what is done for each key.
#[inline]
fn sum_over(keys: &[u64], mut one: impl FnMut(Key) -> Result<u64, Error>) -> u64 {
    keys.iter().fold(0, |sum, key| sum.wrapping_add(must(one(Key::from(*key)))))
}

// Inserts a value for each key, by this call.
#[inline]
fn insert_each_by(samples: &Samples, keys: &mut [u64], insert: impl Fn(&[u64]) -> Result<Key, Error>) -> u64 {
    let mut sum = 0u64;
    for (place, key) in keys.iter_mut().enumerate() {
        *key = must(insert(samples.at(place))).into();
        sum = sum.wrapping_add(*key);
    }
    sum
}

impl User for Any {
    fn get_each(&mut self, keys: &[u64]) -> u64 {
        let pass: &Pass = self;
        sum_over(keys, |key| Ok(pass.get(key)?.key().into()))
    }

    fn read_each(&mut self, keys: &[u64]) -> u64 {
        let pass: &Pass = self;
        sum_over(keys, |key| Ok(sum_of(&pass.get(key)?)))
    }

    fn read_each_into(&mut self, keys: &[u64]) -> u64 {
        let (pass, mut value): (&Pass, _) = (self, Value::default());
        sum_over(keys, |key| {
            pass.get(key)?.read_into(&mut value);
            Ok(sum_of(&value))
        })
    }

    fn load_each(&mut self, keys: &[u64]) -> u64 {
        let pass: &Pass = self;
        sum_over(keys, |key| Ok(sum_of(&pass.load(key)?)))
    }

    fn load_each_into(&mut self, keys: &[u64]) -> u64 {
        let (pass, mut value): (&Pass, _) = (self, Value::default());
        sum_over(keys, |key| {
            pass.load_into(key, &mut value)?;
            Ok(sum_of(&value))
        })
    }

    fn load_in_eights(&mut self, keys: &[u64]) -> u64 {
        let pass: &Pass = self;
        let mut results = [Ok(Value::default()); EIGHT];
        keys.chunks_exact(EIGHT).fold(0, |sum, eight| {
            let eight: [Key; EIGHT] = std::array::from_fn(|n| Key::from(eight[n]));
            pass.load_each(&eight, &mut results);
            results.iter().fold(sum, |sum, value| sum.wrapping_add(sum_of(&must(*value))))
        })
    }

    fn walk_over(&mut self, walks: usize) -> u64 {
        let pass: &Pass = self;
        let values = (0..walks).flat_map(|_| pass.walk());
        values.fold(0, |sum, (_, value)| sum.wrapping_add(sum_of(&value)))
    }
}

impl Rust {
    fn growing(room: Room, chunks: u32, users: u32) -> Rust {
        let heap = must(Heap::growing(room, chunks));
        let caller = |_| Any::Caller(must(heap.take()));
        Rust { owner: caller(0), users: (0..users).map(caller).collect() }
    }

    fn fixed(room: Room, users: u32) -> Rust {
        let heap = must(Heap::open_for(Layout::Wide, room).or_else(|_| Heap::open_for(Layout::Deep, room)));
        let owner = Any::Shard(must(must(heap.take()).adopt(0)));
        Rust { owner, users: (0..users).map(|_| Any::Pass(must(heap.take()))).collect() }
    }
}

impl Side for Rust {
    type User = Any;

    fn open(Place { values, words, chunks, users }: Place) -> Rust {
        let room = Room { owners: 1, values, words, passes: users + 1 };
        match chunks {
            0 => Rust::fixed(room, users),
            chunks => Rust::growing(room, chunks, users),
        }
    }

    fn owner(&mut self) -> &mut Any {
        &mut self.owner
    }

    fn users(&mut self) -> &mut [Any] {
        &mut self.users
    }

    fn own_keys(&mut self, count: usize) -> u64 {
        let Any::Shard(owner) = &self.owner else { refused(&"a heap that grows lists no keys") };
        let (mut sum, mut given) = (0u64, 0);
        while given < count {
            for key in owner.keys().take(count - given) {
                sum = sum.wrapping_add(must(key).into());
                given += 1;
            }
        }
        sum
    }

    fn insert_each(&mut self, samples: &Samples, keys: &mut [u64]) -> u64 {
        match &self.owner {
            Any::Shard(shard) => insert_each_by(samples, keys, |words| shard.insert(words)),
            Any::Caller(caller) => insert_each_by(samples, keys, |words| caller.insert(words)),
            Any::Pass(_) => refused(&"a pass that owns nothing cannot insert"),
        }
    }

    fn remove_each(&mut self, keys: &[u64]) {
        for key in keys {
            must(self.owner.remove(Key::from(*key)));
        }
    }
}
