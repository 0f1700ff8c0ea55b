//! Hash tables, whose keys count up: `DashMap`, and a `HashMap` behind a lock of the standard library or of
//! `parking_lot`. All hash by the standard library's hasher.
use super::{without_owners, Shared};
use crate::map::{Caller, Map, Room};
use crate::payload::Payload;
use std::collections::HashMap;
use std::sync::atomic::{AtomicU64, Ordering::Relaxed};
use std::sync::RwLock;

/// The keys that were not given out: the next one.
#[derive(Default)]
struct Keys(AtomicU64);

impl Keys {
    fn next(&self) -> u64 {
        self.0.fetch_add(1, Relaxed)
    }
}

pub struct Dash<V>(dashmap::DashMap<u64, V>, Keys);

impl<V: Payload> Map for Dash<V> {
    without_owners!();

    fn open(_room: Room) -> Self {
        Dash(dashmap::DashMap::new(), Keys::default())
    }
}

impl<V: Payload> Caller for Shared<'_, Dash<V>> {
    fn insert(&mut self, words: &[u64]) -> u64 {
        let key = self.0 .1.next();
        self.0 .0.insert(key, V::of(words));
        key
    }

    fn remove(&mut self, key: u64) -> bool {
        self.0 .0.remove(&key).is_some()
    }

    fn read(&mut self, key: u64) -> Option<u64> {
        self.0 .0.get(&key).map(|value| value.sum())
    }
}

pub struct StdHash<V>(RwLock<HashMap<u64, V>>, Keys);

impl<V: Payload> Map for StdHash<V> {
    without_owners!();

    fn open(_room: Room) -> Self {
        StdHash(RwLock::default(), Keys::default())
    }
}

impl<V: Payload> Caller for Shared<'_, StdHash<V>> {
    fn insert(&mut self, words: &[u64]) -> u64 {
        let key = self.0 .1.next();
        self.0 .0.write().expect("no thread failed").insert(key, V::of(words));
        key
    }

    fn remove(&mut self, key: u64) -> bool {
        self.0 .0.write().expect("no thread failed").remove(&key).is_some()
    }

    fn read(&mut self, key: u64) -> Option<u64> {
        self.0 .0.read().expect("no thread failed").get(&key).map(Payload::sum)
    }
}

pub struct ParkingHash<V>(parking_lot::RwLock<HashMap<u64, V>>, Keys);

impl<V: Payload> Map for ParkingHash<V> {
    without_owners!();

    fn open(_room: Room) -> Self {
        ParkingHash(parking_lot::RwLock::default(), Keys::default())
    }
}

impl<V: Payload> Caller for Shared<'_, ParkingHash<V>> {
    fn insert(&mut self, words: &[u64]) -> u64 {
        let key = self.0 .1.next();
        self.0 .0.write().insert(key, V::of(words));
        key
    }

    fn remove(&mut self, key: u64) -> bool {
        self.0 .0.write().remove(&key).is_some()
    }

    fn read(&mut self, key: u64) -> Option<u64> {
        self.0 .0.read().get(&key).map(Payload::sum)
    }
}
