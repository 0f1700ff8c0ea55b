//! What a slab and a pool have in common: heaps that issue keys, and nodes that are found by the places of keys.
//!
//! The heaps say which place is free and that no key is issued twice. The comparison of a key with the node of its
//! place decides what a call finds. A key is removed from its heap once the last user of its node is gone, so that no
//! place is issued again that is in use.
use super::config::Limits;
use super::members::Members;
use super::node::{Node, Removal};
use super::number;
use super::places::Places;
use crate::Error;
use std::marker::PhantomData;
use std::ptr;
use std::sync::Arc;
use std::thread;

/// What happens to a value whose key was removed, once it has no user.
pub(super) trait Ending<T> {
    /// Whether the node keeps a value for the next key.
    const KEEPS: bool;

    /// Ends the value.
    ///
    /// # Safety
    ///
    /// The value is the caller's alone. It is there afterwards exactly if it is kept and the call did not panic.
    unsafe fn end(value: *mut T);
}

/// The values of a slab or a pool.
pub(super) struct Store<T, E: Ending<T>> {
    members: Arc<Members>,
    // Dropped after the heaps, so that it returns their memory too.
    places: Places<T>,
    ending: PhantomData<fn() -> E>,
}

/// A place that was issued and has no value yet. If it is dropped, it is given back.
pub(super) struct Vacant<'s, T, E: Ending<T>> {
    store: &'s Store<T, E>,
    node: &'s Node<T>,
    number: u64,
}

// Gives a node and its place back as it is dropped, also if the end of the value panics.
struct Freed<'s, T, E: Ending<T>> {
    store: &'s Store<T, E>,
    node: &'s Node<T>,
    number: u64,
    // Whether the node still has a value.
    is_kept: bool,
}

impl<T, E: Ending<T>> Drop for Freed<'_, T, E> {
    #[inline]
    fn drop(&mut self) {
        // SAFETY: one is made only of a node that is the caller's alone, and whose value was ended.
        unsafe { self.node.free(self.is_kept) };
        self.store.members.remove(self.number);
    }
}

// A value that is being made. If it is dropped, the value is ended and its place given back.
struct Unfinished<'s, T, E: Ending<T>> {
    store: &'s Store<T, E>,
    node: &'s Node<T>,
    number: u64,
}

impl<T, E: Ending<T>> Drop for Unfinished<'_, T, E> {
    fn drop(&mut self) {
        // SAFETY: one is made only of a node that is the caller's alone, and whose value is there.
        unsafe { self.store.finish(self.node, self.number) };
    }
}

impl<T, E: Ending<T>> Store<T, E> {
    pub(super) fn open(limits: Limits) -> Result<Store<T, E>, Error> {
        Ok(Store { places: Places::new(), members: Members::open(limits)?, ending: PhantomData })
    }

    /// A place for a value. None if there is no room, or if memory is refused.
    #[inline]
    pub(super) fn vacant(&self) -> Option<Vacant<'_, T, E>> {
        let number = self.members.insert()?;
        match self.places.node(number) {
            Some(node) => Some(Vacant { store: self, node, number }),
            None => self.vacant_in_new_page(number),
        }
    }

    // The same with a number that was issued as the first of its page.
    #[cold]
    fn vacant_in_new_page(&self, number: u64) -> Option<Vacant<'_, T, E>> {
        let node = self.members.pages(number).and_then(|pages| self.places.allocate(number, pages));
        if node.is_none() {
            self.members.remove(number);
        }
        Some(Vacant { store: self, node: node?, number })
    }

    /// Becomes a user of a value.
    #[inline]
    pub(super) fn begin(&self, number: u64) -> Option<&Node<T>> {
        let node = self.places.node(number)?;
        node.begin(number::generation(number)).then_some(node)
    }

    /// Ends a use. The last one of a removed key ends the value.
    ///
    /// # Safety
    ///
    /// The node is of this number, and the caller is a user, and is none afterwards.
    #[inline]
    pub(super) unsafe fn end(&self, node: &Node<T>, number: u64) {
        // SAFETY: the caller is a user.
        if unsafe { node.end() } {
            // SAFETY: it was the last one.
            unsafe { self.finish_late(node, number) };
        }
    }

    /// Ends an exclusive use, as [`end`](Store::end) does.
    ///
    /// # Safety
    ///
    /// The node is of this number, and the caller has the exclusive use, and has none afterwards.
    #[inline]
    pub(super) unsafe fn end_writing(&self, node: &Node<T>, number: u64) {
        // SAFETY: the caller has the exclusive use.
        if unsafe { node.end_writing() } {
            // SAFETY: it was the last user.
            unsafe { self.finish_late(node, number) };
        }
    }

    // Ends the value of a node that is the caller's alone, and gives the place back.
    #[inline]
    unsafe fn finish(&self, node: &Node<T>, number: u64) {
        let mut freed = Freed { store: self, node, number, is_kept: false };
        // SAFETY: the caller says so.
        unsafe { E::end(node.at()) };
        freed.is_kept = E::KEEPS;
    }

    // The same for the end of a guard. Few guards outlast their keys: the others do not carry its code.
    #[cold]
    unsafe fn finish_late(&self, node: &Node<T>, number: u64) {
        // SAFETY: the caller says so.
        unsafe { self.finish(node, number) };
    }

    /// Removes a key: whether this call did.
    #[inline]
    pub(super) fn remove(&self, number: u64) -> bool {
        let Some(node) = self.places.node(number) else { return false };
        let removal = node.remove(number::generation(number));
        if removal == Removal::Alone {
            // SAFETY: the node is this call's alone.
            unsafe { self.finish(node, number) };
        }
        removal != Removal::Nothing
    }

    /// Removes a key and moves its value out, once nobody uses it.
    #[inline]
    pub(super) fn take(&self, number: u64) -> Option<T> {
        let node = self.places.node(number)?;
        if !node.remove_alone(number::generation(number), thread::yield_now) {
            return None;
        }
        let _freed = Freed { store: self, node, number, is_kept: false };
        // SAFETY: the node is this call's alone.
        Some(unsafe { ptr::read(node.at()) })
    }

    /// Becomes a user of each value that a key finds as its place is met.
    pub(super) fn begin_each(&self) -> impl Iterator<Item = (u64, &Node<T>)> + '_ {
        self.places.nodes().filter_map(|(place, node)| Some((number::with_generation(place, node.begin_any()?), node)))
    }

    /// All values whose keys are not removed.
    pub(super) fn values(&mut self) -> impl Iterator<Item = &T> + '_ {
        // SAFETY: a value that a key finds is there, and stays as long as the store is borrowed.
        self.places.nodes_mut().filter_map(|node| node.is_found().then(|| unsafe { &*node.at() }))
    }
}

// Drops the values of nodes. If the drop of one panics, that of the others goes on as this is dropped.
struct Rest<'s, T: 's, I: Iterator<Item = &'s mut Node<T>>>(I);

impl<'s, T: 's, I: Iterator<Item = &'s mut Node<T>>> Rest<'s, T, I> {
    fn go_on(&mut self) {
        for node in self.0.by_ref() {
            if node.is_made() {
                // SAFETY: a node that is made has a value, and the store is borrowed alone, for the last time.
                unsafe { ptr::drop_in_place(node.at()) };
            }
        }
    }
}

impl<'s, T: 's, I: Iterator<Item = &'s mut Node<T>>> Drop for Rest<'s, T, I> {
    fn drop(&mut self) {
        self.go_on();
    }
}

impl<T, E: Ending<T>> Drop for Store<T, E> {
    fn drop(&mut self) {
        Rest(self.places.nodes_mut()).go_on();
    }
}

impl<'s, T, E: Ending<T>> Vacant<'s, T, E> {
    /// The number of the key that the value will have.
    pub(super) fn number(&self) -> u64 {
        self.number
    }

    // The node, if its place is not given back any more.
    fn keep(self) -> (&'s Node<T>, u64) {
        let kept = (self.node, self.number);
        std::mem::forget(self);
        kept
    }

    /// Stores the value.
    #[inline]
    pub(super) fn fill(self, value: T) -> u64 {
        let (node, number) = self.keep();
        node.fill(number::generation(number), value);
        number
    }

    /// Makes the value if the node has none, and lets `init` change it before its key finds it. If `init` panics, the
    /// value is ended and the place given back.
    #[inline]
    pub(super) fn make(self, make: impl FnOnce() -> T, init: impl FnOnce(&mut T)) -> u64 {
        self.node.begin_making(make);
        let store = self.store;
        let (node, number) = self.keep();
        let unfinished = Unfinished { store, node, number };
        // SAFETY: the exclusive use began above, and its value is there.
        init(unsafe { &mut *node.at() });
        std::mem::forget(unfinished);
        // SAFETY: it is the same use, and the borrow of the value has ended.
        unsafe { node.end_making(number::generation(number)) };
        number
    }

    /// Begins an exclusive use, whose value is made if the node has none.
    #[inline]
    pub(super) fn write(self, make: impl FnOnce() -> T) -> (&'s Node<T>, u64) {
        self.node.begin_writing(number::generation(self.number), make);
        self.keep()
    }
}

impl<T, E: Ending<T>> Drop for Vacant<'_, T, E> {
    fn drop(&mut self) {
        self.store.members.remove(self.number);
    }
}
