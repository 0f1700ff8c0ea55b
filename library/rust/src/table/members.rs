//! Which place of a table each thread has.
use super::places::{is_within, within, Open, Owned, Places};
use crate::ended::Ended;
use crate::ffi::LiveKey;
use crate::threads::{number, Leave, Slots};
use crate::{Error, Key, Room, Value};
use std::sync::{Arc, Weak};

/// What a thread has of a table: a place of its own, or none.
type Seat = Option<Owned>;

/// The places of a table, and which thread has which.
pub(super) struct Members {
    places: Places,
    slots: Slots<Seat>,
    // Itself, as threads remember it.
    own: Weak<Members>,
}

impl Leave for Members {
    fn leave(&self, number: usize) {
        if let Some(owned) = self.slots.leave(number).flatten() {
            self.places.rest(&owned);
        }
    }
}

impl Members {
    pub(super) fn open(first: Room, chunks: u32) -> Result<Arc<Members>, Error> {
        let places = Places::open(first, chunks)?;
        Ok(Arc::new_cyclic(|own| Members { places, slots: Slots::new(), own: own.clone() }))
    }

    // The place of this thread. None if it has none, or the call comes from an allocator within one that uses it.
    #[inline]
    fn own(&self) -> Option<Open<'_>> {
        let owned = self.slots.member()?.as_ref()?;
        // SAFETY: the thread lets its place rest only once its seat has none. The result is used by one call, which
        // does not do that. And `self` stays in its `Arc`.
        Some(unsafe { owned.open() })
    }

    // Runs it with the place of this thread, so that an allocator may call from within. None as of `own`.
    #[inline(always)]
    fn with_own<T>(&self, act: impl FnOnce(Open<'_>) -> T) -> Option<T> {
        let with = |seat: &mut Seat| {
            // SAFETY: as in `own`.
            seat.as_ref().map(|owned| act(unsafe { owned.open() }))
        };
        within(|| self.slots.change_own(with)).flatten()
    }

    /// Takes a place for this thread, if it has none.
    pub(super) fn enter(&self) -> Result<(), Error> {
        if self.own().is_some() {
            return Ok(());
        }
        if is_within() {
            return Err(Error::NoPlace);
        }
        let enter = |seat: &mut Seat| {
            *seat = Some(self.places.take()?);
            Ok(())
        };
        let entered = within(|| self.slots.change(&self.own, enter));
        // A thread that ends has no number.
        entered.unwrap_or_else(|| Err(if number().is_some() { Error::Memory } else { Error::NoPlace }))
    }

    /// Lets the place of this thread rest.
    pub(super) fn rest(&self) {
        if let Some(owned) = self.slots.change_own(Seat::take).flatten() {
            self.places.rest(&owned);
        }
    }

    // Runs it with another place than the thread had so far. None if the call comes from an allocator within another,
    // and no place is free.
    #[cold]
    fn elsewhere<T>(&self, act: impl FnOnce(Open<'_>) -> T) -> Option<T> {
        if is_within() {
            return self.places.at_once(act);
        }
        match self.enter() {
            Ok(()) => self.with_own(act),
            Err(_) => self.places.shared(act),
        }
    }

    // Whether it succeeds with the place of this thread, or another. `act` takes no memory. False, too, if `elsewhere`
    // finds no place.
    #[inline]
    fn succeeds(&self, act: impl FnOnce(Open<'_>) -> bool) -> bool {
        match self.own() {
            Some(open) => act(open),
            None => self.elsewhere(act).unwrap_or(false),
        }
    }

    /// Whether the key has a value, which is written then.
    #[inline]
    pub(super) fn load(&self, key: Key, value: &mut Value) -> bool {
        self.succeeds(|open| open.load(key, value).is_ok())
    }

    /// Whether a walk goes on behind the key that it met last, which becomes the next one.
    #[inline]
    pub(super) fn next_live(&self, met: &mut LiveKey) -> bool {
        self.succeeds(|open| open.next_live(met))
    }

    /// Whether this call removed the key.
    #[inline]
    pub(super) fn remove(&self, key: Key) -> bool {
        self.succeeds(|open| open.remove(key).is_ok())
    }

    /// Whether this call removed the key, whose value is written then.
    #[inline]
    pub(super) fn take(&self, key: Key, value: &mut Value) -> bool {
        self.succeeds(|open| open.take(key, value).is_ok())
    }

    /// The same three, which write what they ended, whatever they return.
    pub(super) fn load_ended(&self, key: Key, value: &mut Value, ended: &mut Ended) -> bool {
        self.succeeds(|open| open.load_ended(key, value, ended).is_ok())
    }

    pub(super) fn remove_ended(&self, key: Key, ended: &mut Ended) -> bool {
        self.succeeds(|open| open.remove_ended(key, ended).is_ok())
    }

    pub(super) fn take_ended(&self, key: Key, value: &mut Value, ended: &mut Ended) -> bool {
        self.succeeds(|open| open.take_ended(key, value, ended).is_ok())
    }

    // (Always, since its callers are few and the compiler would count what is cold.)
    #[inline(always)]
    pub(super) fn insert(&self, words: &[u64]) -> Result<Key, Error> {
        match self.with_own(|open| open.insert(words)) {
            Some(Ok(key)) => Ok(key),
            Some(Err(refused)) => self.places.insert_by_any(words, refused),
            None => self.insert_elsewhere(words),
        }
    }

    // The same, if the thread has no place.
    #[cold]
    fn insert_elsewhere(&self, words: &[u64]) -> Result<Key, Error> {
        match self.elsewhere(|open| open.insert(words)).ok_or(Error::NoPlace)? {
            Err(refused) => self.places.insert_by_any(words, refused),
            inserted => inserted,
        }
    }

    pub(super) fn places(&self) -> &Places {
        &self.places
    }
}

#[cfg(test)]
mod tests {
    use super::*;
    use crate::threads::turns::play;
    use std::sync::atomic::{AtomicUsize, Ordering::SeqCst};
    use std::sync::Mutex;

    fn members(chunks: u32) -> Arc<Members> {
        Members::open(Room { owners: 2, values: 1, words: 1, passes: 1 }, chunks).expect("it opens")
    }

    fn loaded(members: &Members, key: Key) -> Option<u64> {
        let mut value = Value::default();
        members.load(key, &mut value).then(|| value[0])
    }

    // Takes places until this many are left.
    fn take_but(members: &Members, left: usize) -> Vec<Owned> {
        (0..60 - left).map(|_| members.places.take().expect("one rests")).collect()
    }

    #[test]
    fn a_call_from_within_another_has_a_place_that_is_free_at_once() {
        let members = members(64);
        let key = members.insert(&[7]).expect("there is room");
        let inner = members.with_own(|_| {
            // No place but the shared one was used so far.
            let inner = (members.own().is_none(), members.enter(), members.insert(&[8]), loaded(&members, key));
            let inserted = inner.2.expect("there is room");
            let mut met = LiveKey::none();
            assert!((0..2).all(|_| members.next_live(&mut met)) && !members.next_live(&mut met));
            assert!(members.remove(inserted));
            (inner.0, inner.1, inner.3)
        });
        assert_eq!(inner, Some((true, Err(Error::NoPlace), Some(7))));
        assert_eq!((members.enter(), members.places.len()), (Ok(()), 1));
    }

    #[test]
    fn a_call_from_within_another_that_has_the_only_free_place_is_refused() {
        let members = members(64);
        let key = members.insert(&[7]).expect("there is room");
        members.rest();
        let taken = take_but(&members, 0);
        let inner = members.elsewhere(|open| {
            assert_eq!((members.insert(&[8]), loaded(&members, key)), (Err(Error::NoPlace), None));
            assert!(!members.remove(key) && !members.next_live(&mut LiveKey::none()));
            open.remove(key)
        });
        assert_eq!((inner, members.places.len()), (Some(Ok(())), 0));
        taken.iter().for_each(|owned| members.places.rest(owned));
    }

    #[test]
    fn a_thread_without_a_place_shares_one_and_takes_the_next_that_rests() {
        let members = members(64);
        let taken = take_but(&members, 0);
        let key = members.insert(&[7]).expect("there is room");
        assert_eq!((members.enter(), members.own().is_none()), (Err(Error::NoPlace), true));
        members.places.rest(&taken[59]);
        assert_eq!(loaded(&members, key), Some(7));
        assert_eq!((members.own().is_some(), members.places.take().err()), (true, Some(Error::NoPlace)));
        members.rest();
        assert_eq!(members.places.take().map(|owned| owned.number).ok(), Some(59));
    }

    #[test]
    fn an_insert_without_room_tries_the_resting_and_the_shared_places() {
        let members = members(1);
        let keys: Vec<Key> = std::iter::from_fn(|| members.insert(&[7]).ok()).collect();
        assert_eq!(members.insert(&[7]), Err(Error::Full));
        // The place of this thread has the shard of its keys. Another thread frees one, and the place rests.
        let first = members.slots.change_own(Seat::take).flatten().expect("it has a place");
        assert_eq!((members.enter(), members.insert(&[7])), (Ok(()), Err(Error::Full)));
        assert!(members.remove(keys[0]));
        let before = members.insert(&[7]);
        members.places.rest(&first);
        let after = members.insert(&[7]);
        // The key is of the shard of the first place, or of a shared one.
        assert!(before.is_ok() != after.is_ok(), "{before:?}, {after:?}");
        assert_eq!((members.insert(&[7]), members.places.len()), (Err(Error::Full), keys.len()));
    }

    /// What the threads of the next tests have together.
    struct Game {
        members: Arc<Members>,
        keys: Mutex<Vec<Key>>,
        inserted: AtomicUsize,
        removed: AtomicUsize,
    }

    // One thread: it inserts, removes what others inserted, rests now and then, and ends.
    fn turn(game: &Game, number: u64) {
        for round in 0..4 {
            let key = game.members.insert(&[number << 8 | round]).expect("there is room");
            assert_eq!(loaded(&game.members, key), Some(number << 8 | round));
            game.inserted.fetch_add(1, SeqCst);
            game.keys.lock().expect("no thread panics").push(key);
            if round == number % 4 {
                game.members.rest();
            }
            let other = game.keys.lock().expect("no thread panics")[0];
            if game.members.remove(other) {
                game.removed.fetch_add(1, SeqCst);
                game.keys.lock().expect("no thread panics").retain(|key| *key != other);
            }
        }
    }

    // Five threads for the places that are left, in the order that a seed says.
    fn played(seed: u64, left: usize) {
        let members = members(64);
        let taken = take_but(&members, left);
        let (keys, inserted, removed) = Default::default();
        let game = Arc::new(Game { members, keys, inserted, removed });
        let work = |number| {
            let game = game.clone();
            Box::new(move || turn(&game, number)) as Box<dyn FnOnce() + Send>
        };
        assert!(play(seed, (0..5).map(work).collect()), "seed {seed}, {left} places");
        let left_over = game.inserted.load(SeqCst) - game.removed.load(SeqCst);
        assert_eq!(game.members.places.len(), left_over, "seed {seed}, {left} places");
        assert!(game.keys.lock().expect("no thread panics").iter().all(|key| loaded(&game.members, *key).is_some()));
        // Each place rests again, once.
        game.members.rest();
        assert_eq!(std::iter::from_fn(|| game.members.places.take().ok()).count(), left);
        taken.iter().for_each(|owned| game.members.places.rest(owned));
    }

    /// Places are taken, shared, let rest and left in many orders. Each is used by one thread at a time, which `Alone`
    /// looks at.
    #[test]
    fn threads_that_take_turns_never_have_one_place() {
        for seed in 0..60 {
            (0..3).for_each(|left| played(seed, left));
        }
    }
}
