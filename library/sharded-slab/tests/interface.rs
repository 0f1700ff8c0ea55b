//! Each type, trait, constant and method that the documents of sharded-slab 0.1.4 name, with its signature.
use sharded_slab::pool::{self, OwnedRef, OwnedRefMut, Ref, RefMut};
use sharded_slab::{Clear, Config, DefaultConfig, Entry, OwnedEntry, Pool, Slab, VacantEntry};
use std::collections::{HashMap, HashSet};
use std::fmt::Debug;
use std::ops::{Deref, DerefMut};
use std::sync::{Arc, Mutex, RwLock};

struct Packed;

impl Config for Packed {
    const INITIAL_PAGE_SIZE: usize = 64;
    const MAX_PAGES: usize = 4;
    const MAX_THREADS: usize = 8;
    const RESERVED_BITS: usize = 4;
}

#[test]
fn the_slab() {
    fn of<C: Config>(slab: Slab<String, C>) {
        let slab: Arc<Slab<String, C>> = Arc::new(slab);
        let key: Option<usize> = slab.insert(String::from("one"));
        let key = key.expect("there is room");
        assert!(key < 1 << (Slab::<String, C>::USED_BITS - 1));
        let entry: Option<Entry<'_, String, C>> = slab.get(key);
        let entry = entry.expect("it is there");
        assert_eq!((entry.key(), entry.deref().as_str(), format!("{entry:?}").as_str()), (key, "one", "\"one\""));
        assert!(entry == String::from("one"));
        let owned: Option<OwnedEntry<String, C>> = slab.clone().get_owned(key);
        let owned = owned.expect("it is there");
        assert_eq!((owned.key(), owned.deref().as_str(), format!("{owned:?}").as_str()), (key, "one", "\"one\""));
        assert!(owned == String::from("one"));
        drop((entry, owned));
        let vacant: Option<VacantEntry<'_, String, C>> = slab.vacant_entry();
        let vacant = vacant.expect("there is room");
        let other: usize = vacant.key();
        vacant.insert(String::from("two"));
        let (removed, there): (bool, bool) = (slab.remove(key), slab.contains(key));
        assert!(removed && !there);
        let taken: Option<String> = slab.take(other);
        assert_eq!(taken.as_deref(), Some("two"));
        slab.insert(String::from("three"));
        let mut slab = Arc::into_inner(slab).expect("it has no other owner");
        let all: Vec<&String> = slab.unique_iter().collect();
        assert_eq!(all, ["three"]);
    }
    of(Slab::new());
    of(Slab::default());
    of(Slab::<String>::new_with_config::<Packed>());
}

#[test]
fn the_pool() {
    fn of<C: Config>(pool: Pool<String, C>) {
        let pool: Arc<pool::Pool<String, C>> = Arc::new(pool);
        let key: Option<usize> = pool.create_with(|text: &mut String| text.push_str("one"));
        let key = key.expect("there is room");
        assert!(key < 1 << (Pool::<String, C>::USED_BITS - 1));
        let guard: Option<Ref<'_, String, C>> = pool.get(key);
        let guard = guard.expect("it is there");
        assert_eq!((guard.key(), guard.deref().as_str(), format!("{guard:?}").as_str()), (key, "one", "\"one\""));
        assert!(guard == String::from("one"));
        let owned: Option<OwnedRef<String, C>> = pool.clone().get_owned(key);
        assert!(owned.is_some_and(|owned| owned.key() == key && owned == String::from("one")));
        drop(guard);
        let removed: bool = pool.clear(key);
        assert!(removed);
        let written: Option<RefMut<'_, String, C>> = pool.create();
        let mut written = written.expect("there is room");
        written.deref_mut().push_str("two");
        assert!(written == String::from("two"));
        let guard: Ref<'_, String, C> = written.downgrade();
        assert!(pool.get(guard.key()).is_some());
        let written: Option<OwnedRefMut<String, C>> = pool.clone().create_owned();
        let mut written = written.expect("there is room");
        written.deref_mut().push_str("three");
        let (key, owned): (usize, OwnedRef<String, C>) = (written.key(), written.downgrade());
        assert_eq!((owned.key(), owned.as_str()), (key, "three"));
        assert!(!format!("{pool:?}").is_empty());
    }
    of(Pool::new());
    of(Pool::default());
    of(Pool::<String>::new_with_config::<Packed>());
}

#[test]
fn the_configuration() {
    // The defaults that the documents name.
    let defaults = (DefaultConfig::INITIAL_PAGE_SIZE, DefaultConfig::MAX_PAGES, DefaultConfig::RESERVED_BITS);
    assert_eq!(defaults, (32, 32, 0));
    fn debug<T: Debug>() {}
    debug::<DefaultConfig>();
    debug::<Slab<String, Packed>>();
}

#[test]
fn what_is_cleared() {
    fn clear<T: Clear>() {}
    clear::<Option<u8>>();
    clear::<Box<String>>();
    clear::<Vec<u8>>();
    clear::<String>();
    clear::<HashMap<u8, u8>>();
    clear::<HashSet<u8>>();
    clear::<Mutex<String>>();
    clear::<RwLock<String>>();
}
