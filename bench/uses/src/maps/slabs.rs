//! The slab and the pool of two crates that have one interface: those of the Rust crate, over the heap, and those of
//! `sharded_slab`, in its default configuration.

/// The slab and the pool of a crate, as maps in a module of this name.
macro_rules! slab_and_pool {
    ($name:ident, $from:path) => {
        pub mod $name {
            use crate::map::{Caller, Map, Room};
            use crate::maps::{without_owners, Pooled, Shared};
            use crate::payload::Payload;
            use $from as from;

            pub struct Slab<V>(from::Slab<V>);

            impl<V: Payload> Map for Slab<V> {
                without_owners!();

                fn open(_room: Room) -> Self {
                    Slab(from::Slab::new())
                }
            }

            impl<V: Payload> Caller for Shared<'_, Slab<V>> {
                fn insert(&mut self, words: &[u64]) -> u64 {
                    self.0 .0.insert(V::of(words)).expect("there is room") as u64
                }

                fn remove(&mut self, key: u64) -> bool {
                    self.0 .0.remove(key as usize)
                }

                fn read(&mut self, key: u64) -> Option<u64> {
                    self.0 .0.get(key as usize).map(|value| value.sum())
                }
            }

            pub struct Pool<V: Payload>(from::Pool<Pooled<V>>);

            impl<V> from::Clear for Pooled<V> {
                fn clear(&mut self) {
                    self.0 = None;
                }
            }

            impl<V: Payload> Map for Pool<V> {
                without_owners!();

                fn open(_room: Room) -> Self {
                    Pool(from::Pool::new())
                }
            }

            impl<V: Payload> Caller for Shared<'_, Pool<V>> {
                fn insert(&mut self, words: &[u64]) -> u64 {
                    self.0 .0.create_with(|value| value.set(words)).expect("there is room") as u64
                }

                fn remove(&mut self, key: u64) -> bool {
                    self.0 .0.clear(key as usize)
                }

                fn read(&mut self, key: u64) -> Option<u64> {
                    self.0 .0.get(key as usize).map(|value| value.sum())
                }
            }
        }
    };
}

slab_and_pool!(own, gearlongan::slab);
slab_and_pool!(peer, sharded_slab);
