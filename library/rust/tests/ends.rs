//! Which key a call ended, by what it returns and by a hook: once for each key, and only when nobody uses its value.
#[path = "common/layouts.rs"]
mod layouts;

use gearlongan::{Ended, Error, Guard, Heap, Key, Layout, Pass, Room, Shape, Value};
use layouts::{two, LAYOUTS, SMALL};
use std::ops::Deref;
use std::panic::{catch_unwind, AssertUnwindSafe};
use std::sync::atomic::{AtomicU32, AtomicU64, AtomicUsize, Ordering::Relaxed, Ordering::SeqCst};
use std::sync::{mpsc, Arc, Mutex};
use std::thread;

const COUNT: u64 = if cfg!(debug_assertions) { 2_000 } else { 40_000 };

fn ended(key: Key, words: &[u64]) -> Option<Ended> {
    Some(Ended { key, value: Value::new(words).expect("it is short") })
}

#[test]
fn a_removal_without_holds_ends_its_key() {
    for layout in LAYOUTS {
        let (shard, pass) = two(layout);
        for words in 0..=16 {
            let stored: Vec<u64> = (100..100 + words).collect();
            let key = shard.insert(&stored).expect("there is room");
            assert_eq!(pass.remove_ended(key), (Ok(()), ended(key, &stored)));
            assert_eq!(pass.remove_ended(key), (Err(Error::Gone), None));
            assert_eq!(shard.get_ended(key).0.err(), Some(Error::Gone));
            let key = shard.insert(&stored).expect("there is room");
            let (taken, end) = shard.take_ended(key);
            assert_eq!((taken.expect("it is there")[..].to_vec(), end), (stored.clone(), ended(key, &stored)));
            assert_eq!(pass.take_ended(key), (Err(Error::Gone), None));
        }
        assert_eq!(pass.remove_ended(Key::from(u64::MAX)), (Err(Error::BadKey), None));
        assert_eq!(pass.take_ended(Key::from(u64::MAX)), (Err(Error::BadKey), None));
    }
}

#[test]
fn the_last_hold_on_a_removed_key_ends_it() {
    for layout in LAYOUTS {
        let (shard, pass) = two(layout);
        let key = shard.insert(&[7, 8]).expect("there is room");
        let (guard, none) = pass.get_ended(key);
        let (one, other) = (guard.expect("it is there"), shard.get(key).expect("it is there"));
        assert_eq!(none, None);
        assert_eq!(pass.get(key).expect("it is there").release(), None, "the key is not removed");
        assert_eq!(pass.take_ended(key), (Value::new(&[7, 8]), None));
        assert_eq!(shard.remove_ended(key), (Err(Error::Gone), None));
        assert_eq!((one.key(), one.release()), (key, None));
        assert_eq!(*other, [7, 8], "it is read");
        assert_eq!(other.release(), ended(key, &[7, 8]));
        assert_eq!(pass.take_ended(key), (Err(Error::Gone), None));
    }
}

/// Such a call ends a key too, and nobody hears of it.
#[test]
fn a_drop_of_a_guard_without_a_hook_says_nothing() {
    let (shard, pass) = two(Layout::Wide);
    let key = shard.insert(&[7]).expect("there is room");
    let guard = pass.get(key).expect("it is there");
    assert_eq!(shard.remove_ended(key), (Ok(()), None));
    drop(guard);
    assert_eq!(shard.remove_ended(key), (Err(Error::Gone), None));
}

/// What a hook was called with.
type Told = Arc<Mutex<Vec<(Key, Vec<u64>)>>>;

fn hook(told: &Told) -> impl Fn(Key, &[u64]) + Send + 'static {
    let told = told.clone();
    move |key, words| told.lock().expect("no thread panics").push((key, words.to_vec()))
}

fn taken(told: &Told) -> Vec<(Key, Vec<u64>)> {
    std::mem::take(&mut *told.lock().expect("no thread panics"))
}

/// The calls of a pass with a hook return what they return without one, and call it at each end.
#[test]
fn each_call_tells_its_hook() {
    for layout in LAYOUTS {
        let told = Told::default();
        let (mut shard, mut pass) = two(layout);
        shard.on_end(hook(&told));
        pass.on_end(hook(&told));
        let stored = || shard.insert(&[7, 8]).expect("there is room");
        let keys = [stored(), stored(), stored(), stored()];
        assert_eq!(pass.remove(keys[0]), Ok(()));
        assert_eq!(taken(&told), [(keys[0], vec![7, 8])]);
        assert_eq!((pass.remove(keys[0]), pass.load(keys[0])), (Err(Error::Gone), Err(Error::Gone)));
        assert_eq!(pass.take(keys[1]), Value::new(&[7, 8]));
        assert_eq!(taken(&told), [(keys[1], vec![7, 8])]);
        let guard = pass.get(keys[2]).expect("it is there");
        assert_eq!((shard.remove(keys[2]), taken(&told)), (Ok(()), vec![]));
        assert_eq!(*guard, [7, 8]);
        drop(guard);
        assert_eq!(taken(&told), [(keys[2], vec![7, 8])]);
        let guard = pass.get(keys[3]).expect("it is there");
        assert_eq!(shard.remove(keys[3]), Ok(()));
        assert_eq!(guard.release().map(|it| it.key), Some(keys[3]));
        assert_eq!(shard.remove_ended(stored()).0, Ok(()));
        assert_eq!(taken(&told), [], "what a call itself says is told once");
        drop((shard, pass));
        assert_eq!(Arc::strong_count(&told), 1, "the hooks are dropped");
    }
}

#[test]
fn walks_and_loads_are_the_same_with_a_hook() {
    let told = Told::default();
    let heap = Heap::growing(Room { owners: 1, values: 1, words: 1, passes: 2 }, 256).expect("it opens");
    let (caller, mut other) = (heap.take().expect("at home"), heap.take().expect("at home"));
    other.on_end(hook(&told));
    let keys: Vec<Key> = (0..1000).map(|n| caller.insert(&[n]).expect("there is room")).collect();
    assert!(heap.chunks() > 1);
    assert!(other.walk().map(|(key, value)| (key, value[0])).eq(caller.walk().map(|(key, value)| (key, value[0]))));
    let mut walk = other.walk_held();
    let mut met: Vec<Key> = Vec::new();
    loop {
        let guards: Vec<Guard<'_>> = walk.by_ref().flatten().collect();
        if guards.is_empty() {
            break;
        }
        guards.iter().for_each(|guard| assert!(caller.remove(guard.key()).is_ok()));
        assert!(guards.iter().all(|guard| other.load(guard.key()).is_err()));
        met.extend(guards.iter().map(Guard::key));
    }
    assert_eq!(taken(&told).iter().map(|(key, _)| *key).collect::<Vec<Key>>(), met);
    met.sort();
    let mut all = keys.clone();
    all.sort();
    assert_eq!(met, all);
    let keys: Vec<Key> = (0..40).map(|n| caller.insert(&[n]).expect("there is room")).collect();
    let guards: Vec<Guard<'_>> = keys[..16].iter().map(|key| other.get(*key).expect("it is there")).collect();
    let mut results = vec![Err(Error::Gone); 41];
    other.load_each(&[&keys[..], &[met[0]]].concat(), &mut results);
    let wanted = (0..40).map(|n| Value::new(&[n])).chain([Err(Error::Gone)]);
    assert!(results.into_iter().eq(wanted), "a load needs no room for a hold");
    assert_eq!(other.get(keys[20]).err(), Some(Error::HoldsFull));
    drop(guards);
    assert_eq!(other.remove_if(|_, words| words[0] % 2 == 0), 20);
    assert_eq!(taken(&told).len(), 20);
}

/// A key of layout tiny has four holds at most.
#[test]
fn a_crowded_key_is_loaded_with_a_hook() {
    let (shard, mut pass) = two(Layout::Tiny);
    pass.on_end(|_, _| panic!("no key ends"));
    let key = shard.insert(&[7]).expect("there is room");
    let guards: Vec<Guard<'_>> = (0..4).map(|_| shard.get(key).expect("it is there")).collect();
    assert_eq!((pass.get(key).err(), pass.load(key)), (Some(Error::Crowded), Value::new(&[7])));
    assert_eq!(pass.get_ended(key).0.err(), Some(Error::Crowded));
    assert_eq!(pass.walk_held().next().map(|met| met.err()), Some(Some(Error::Crowded)));
    drop(guards);
    assert_eq!(pass.walk_held().next().map(|met| met.map(|guard| guard.key()).ok()), Some(Some(key)));
}

#[test]
fn a_hook_stays_with_its_pass_and_is_called_by_its_thread() {
    let (sender, told) = mpsc::channel();
    let heap = Heap::open(Layout::Wide, SMALL).expect("it opens");
    let mut pass = heap.take().expect("it is at home");
    pass.on_end(|_, _| panic!("another replaces it"));
    pass.on_end(move |key, _| sender.send((thread::current().id(), key)).expect("it is heard"));
    let shard = pass.adopt(0).expect("it has no owner");
    let keys = [0, 1, 2].map(|n| shard.insert(&[n]).expect("there is room"));
    shard.remove(keys[0]).expect("it is there");
    let moved = thread::spawn(move || {
        let pass = shard.leave().expect("nobody frees there");
        pass.remove(keys[1]).expect("it is there");
        (thread::current().id(), pass)
    });
    let (id, pass) = moved.join().expect("it ends well");
    let here = thread::current().id();
    drop(pass);
    // The next one that takes the pass has no hook.
    heap.with_pass(|pass| pass.remove(keys[2])).expect("it is at home").expect("it is there");
    assert_eq!(told.into_iter().collect::<Vec<_>>(), [(here, keys[0]), (id, keys[1])]);
}

/// The call was done, and the pass and the heap are as after it.
#[test]
fn a_hook_that_panics_leaves_its_pass_whole() {
    let (shard, mut pass) = two(Layout::Wide);
    pass.on_end(|_, words| assert_ne!(words[0] % 2, 1, "it is odd"));
    let keys: Vec<Key> = (0..8).map(|n| shard.insert(&[n]).expect("there is room")).collect();
    assert!(catch_unwind(AssertUnwindSafe(|| pass.remove(keys[1]))).is_err());
    assert!(catch_unwind(AssertUnwindSafe(|| pass.take(keys[3]))).is_err());
    let guard = pass.get(keys[5]).expect("it is there");
    shard.remove(keys[5]).expect("it is there");
    assert!(catch_unwind(AssertUnwindSafe(|| drop(guard))).is_err());
    assert!([1, 3, 5].iter().all(|n| pass.load(keys[*n]) == Err(Error::Gone)));
    let guards: Vec<Guard<'_>> = (0..16).map(|_| pass.get(keys[7]).expect("no hold is lost")).collect();
    drop(guards);
    assert!(catch_unwind(AssertUnwindSafe(|| pass.remove_if(|_, _| true))).is_err());
    assert_eq!(pass.walk().count(), 0, "the last one is met last");
    drop(pass);
    let heap = Heap::open(Layout::Wide, Shape { passes: 1, ..SMALL }).expect("it opens");
    let mut shard = heap.take().expect("it is at home").adopt(0).expect("it has no owner");
    shard.on_end(|_, _| panic!("it does"));
    let key = shard.insert(&[7]).expect("there is room");
    assert!(catch_unwind(AssertUnwindSafe(|| shard.remove(key))).is_err());
    drop(shard);
    assert!(heap.take().is_ok(), "it came home");
}

/// What the threads of a test have: for each value how often its end was reported, and how many have a guard on it.
struct Tally {
    told: Vec<AtomicU32>,
    users: Vec<AtomicU32>,
    keys: Vec<AtomicU64>,
    // Ends that a refused get or removal said.
    by_refused: AtomicUsize,
}

impl Tally {
    fn new() -> Arc<Tally> {
        let zeros = || (0..COUNT).map(|_| AtomicU32::new(0)).collect();
        let keys = (0..COUNT).map(|_| AtomicU64::new(0)).collect();
        Arc::new(Tally { told: zeros(), users: zeros(), keys, by_refused: AtomicUsize::new(0) })
    }

    fn end(&self, key: Key, words: &[u64]) {
        let n = words[0] as usize;
        assert!(words.iter().all(|word| *word == words[0]) && words.len() == 1 + n % 16, "its words are whole");
        assert_eq!(self.keys[n].load(SeqCst), u64::from(key), "it is the value of the key");
        assert_eq!(self.users[n].load(SeqCst), 0, "nobody uses it any more");
        self.told[n].fetch_add(1, SeqCst);
    }

    fn end_of(&self, ended: Option<Ended>) {
        if let Some(Ended { key, value }) = ended {
            self.end(key, &value);
        }
    }

    // The key of value n, once it is there.
    fn key(&self, n: u64) -> Key {
        loop {
            match self.keys[n as usize].load(SeqCst) {
                0 => thread::yield_now(),
                key => return Key::from(key),
            }
        }
    }

    // Uses a guard, until just before it goes.
    fn use_it(&self, guard: &Guard<'_>) {
        let users = &self.users[guard[0] as usize];
        users.fetch_add(1, SeqCst);
        assert_eq!(self.told[guard[0] as usize].load(SeqCst), 0, "a key that is held does not end");
        users.fetch_sub(1, SeqCst);
    }

    fn each_is_told_once(&self) {
        for (n, told) in self.told.iter().enumerate() {
            assert_eq!(told.load(SeqCst), 1, "how often the end of value {n} was told");
        }
    }
}

/// Gets, removes and takes a key in an order that depends on the thread, and says what that ended.
fn used(pass: &Pass, key: Key, n: u64, tally: &Tally) {
    match n % 3 {
        0 => {
            let (removed, ended) = pass.remove_ended(key);
            tally.by_refused.fetch_add(usize::from(removed.is_err() && ended.is_some()), Relaxed);
            tally.end_of(ended);
        }
        1 => {
            let (guard, ended) = pass.get_ended(key);
            tally.by_refused.fetch_add(usize::from(ended.is_some()), Relaxed);
            tally.end_of(ended);
            if let Ok(guard) = guard {
                tally.use_it(&guard);
                tally.end_of(guard.release());
            }
        }
        _ => tally.end_of(pass.take_ended(key).1),
    }
}

/// The same by the calls that call the hook.
fn used_by_hook(pass: &Pass, key: Key, n: u64, tally: &Tally) {
    match n % 4 {
        0 => _ = pass.remove(key),
        1 => pass.get(key).iter().for_each(|guard| tally.use_it(guard)),
        2 => _ = pass.load(key),
        _ => _ = pass.take(key),
    }
}

/// Four threads use each value at about the same time, while another inserts.
fn raced<P: Deref<Target = Pass> + Send + 'static>(
    passes: Vec<P>,
    insert: impl Fn(&[u64]) -> Key,
    tally: &Arc<Tally>,
    use_it: fn(&Pass, Key, u64, &Tally),
) {
    let works = passes.into_iter().zip(0..).map(|(pass, at)| {
        let tally = tally.clone();
        thread::spawn(move || {
            for n in 0..COUNT {
                (0..3).for_each(|turn| use_it(&pass, tally.key(n), n / 7 + at + turn, &tally));
                use_it(&pass, tally.key(n), 0, &tally);
            }
        })
    });
    let works: Vec<_> = works.collect();
    for n in 0..COUNT {
        let key = insert(&[n; 16][..1 + n as usize % 16]);
        tally.keys[n as usize].store(key.into(), SeqCst);
    }
    works.into_iter().for_each(|work| work.join().expect("it ends well"));
    tally.each_is_told_once();
}

const ROOM: Room = Room { owners: 1, values: 1, words: 16, passes: 5 };

#[test]
fn threads_are_told_of_each_end_once() {
    for layout in [Layout::Wide, Layout::Deep] {
        let heap = Heap::open_for(layout, Room { values: 100, ..ROOM }).expect("it opens");
        let shard = heap.take().expect("it is at home").adopt(0).expect("it has no owner");
        let passes = (0..4).map(|_| Box::new(heap.take().expect("it is at home"))).collect();
        let insert = |words: &[u64]| loop {
            if let Ok(key) = shard.insert(words) {
                return key;
            }
            thread::yield_now();
        };
        let tally = Tally::new();
        raced(passes, insert, &tally, used);
        println!("{layout:?}: {} of {COUNT} ends by refused calls", tally.by_refused.load(Relaxed));
    }
}

#[test]
fn hooks_are_told_of_each_end_once() {
    let heap = Heap::growing(ROOM, 256).expect("it opens");
    let tally = Tally::new();
    let hooked = |_| {
        let (mut caller, tally) = (heap.take().expect("it is at home"), tally.clone());
        caller.on_end(move |key, words| tally.end(key, words));
        caller
    };
    let (callers, inserter) = ((0..4).map(hooked).collect(), heap.take().expect("it is at home"));
    raced(callers, |words| inserter.insert(words).expect("it grows"), &tally, used_by_hook);
}

/// One round of the next test: how many keys the refused calls ended.
fn refused_round(call: fn(&Pass, Key) -> Option<Error>) -> usize {
    // Of a generation that no place comes to in this test.
    const LATER: u64 = 1 << 50;
    let heap = Heap::open(Layout::Wide, Shape { shards: 1, segments: 1, passes: 3 }).expect("it opens");
    let shard = heap.take().expect("it is at home").adopt(0).expect("it has no owner");
    let (tally, now, by_others) = (Tally::new(), Arc::new(AtomicU64::new(0)), Arc::new(AtomicUsize::new(0)));
    let others = [0, 1].map(|_| {
        let mut pass = heap.take().expect("it is at home");
        let (told, now, by_others) = (tally.clone(), now.clone(), by_others.clone());
        pass.on_end(move |key, words| {
            by_others.fetch_add(1, Relaxed);
            told.end(key, words);
        });
        thread::spawn(move || loop {
            match now.load(SeqCst) {
                u64::MAX => break,
                key => assert_eq!(call(&pass, Key::from(key + LATER)), Some(Error::Gone)),
            }
        })
    });
    for n in 0..COUNT {
        let key = shard.insert(&[n; 16][..1 + n as usize % 16]).expect("there is room");
        tally.keys[n as usize].store(key.into(), SeqCst);
        now.store(key.into(), SeqCst);
        let (removed, ended) = shard.remove_ended(key);
        assert_eq!(removed, Ok(()));
        tally.end_of(ended);
    }
    now.store(u64::MAX, SeqCst);
    others.into_iter().for_each(|other| other.join().expect("it ends well"));
    tally.each_is_told_once();
    by_others.load(Relaxed)
}

/// Calls on numbers that are no keys yet, by passes that remove nothing. They are at the place for a moment, and some
/// are the last to leave the key that is there.
#[test]
fn calls_that_are_refused_are_told_of_ends() {
    let calls: [fn(&Pass, Key) -> Option<Error>; 3] =
        [|pass, key| pass.load(key).err(), |pass, key| pass.get(key).err(), |pass, key| pass.remove(key).err()];
    for call in calls {
        let rounds = if cfg!(debug_assertions) { 3 } else { 50 }; // (under memcheck one thread runs at a time)
        let is_told = (0..rounds).any(|_| refused_round(call) > 0);
        assert!(is_told || cfg!(debug_assertions), "no refused call ended a key");
    }
}
