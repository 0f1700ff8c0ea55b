//! The library from C: the loops of `c/loops.c`.
use crate::side::{Place, Samples, Side, User};
use std::ptr::NonNull;

// What C has of a heap.
#[repr(C)]
struct Loops {
    _unseen: [u8; 0],
}

// A pass, as C has it.
#[repr(C)]
struct Handle {
    _unseen: [u8; 0],
}

extern "C" {
    fn loops_open(values: u64, words: u32, chunks: u32, users: u32) -> NonNull<Loops>;
    fn loops_close(all: NonNull<Loops>);
    fn loops_owner(all: NonNull<Loops>) -> NonNull<Handle>;
    fn loops_user(all: NonNull<Loops>, number: u32) -> NonNull<Handle>;
    fn loops_get(pass: NonNull<Handle>, keys: *const u64, count: usize) -> u64;
    fn loops_read(pass: NonNull<Handle>, keys: *const u64, count: usize) -> u64;
    fn loops_load(pass: NonNull<Handle>, keys: *const u64, count: usize) -> u64;
    fn loops_load_in_eights(pass: NonNull<Handle>, keys: *const u64, count: usize) -> u64;
    fn loops_walk(pass: NonNull<Handle>, walks: usize) -> u64;
    fn loops_own_keys(owner: NonNull<Handle>, count: usize) -> u64;
    fn loops_insert(owner: NonNull<Handle>, samples: *const Samples, keys: *mut u64, count: usize) -> u64;
    fn loops_remove(owner: NonNull<Handle>, keys: *const u64, count: usize);
}

/// A pass of a heap that is open while this is there.
pub struct CUser {
    pass: NonNull<Handle>,
}

// SAFETY: a pass may go to another thread, and it is used by one at a time, as `&mut self` says.
unsafe impl Send for CUser {}

pub struct C {
    all: NonNull<Loops>,
    owner: CUser,
    users: Vec<CUser>,
}

impl Drop for C {
    fn drop(&mut self) {
        // SAFETY: what was opened is closed once, here.
        unsafe { loops_close(self.all) }
    }
}

impl User for CUser {
    fn get_each(&mut self, keys: &[u64]) -> u64 {
        // SAFETY: its heap is open, and a slice has as many keys as its length says.
        unsafe { loops_get(self.pass, keys.as_ptr(), keys.len()) }
    }

    fn read_each(&mut self, keys: &[u64]) -> u64 {
        // SAFETY: as in `get_each`.
        unsafe { loops_read(self.pass, keys.as_ptr(), keys.len()) }
    }

    // (In C each read is into a room of the caller's.)
    fn read_each_into(&mut self, keys: &[u64]) -> u64 {
        self.read_each(keys)
    }

    fn load_each(&mut self, keys: &[u64]) -> u64 {
        // SAFETY: as in `get_each`.
        unsafe { loops_load(self.pass, keys.as_ptr(), keys.len()) }
    }

    fn load_each_into(&mut self, keys: &[u64]) -> u64 {
        self.load_each(keys)
    }

    fn load_in_eights(&mut self, keys: &[u64]) -> u64 {
        // SAFETY: as in `get_each`.
        unsafe { loops_load_in_eights(self.pass, keys.as_ptr(), keys.len()) }
    }

    fn walk_over(&mut self, walks: usize) -> u64 {
        // SAFETY: its heap is open.
        unsafe { loops_walk(self.pass, walks) }
    }
}

impl Side for C {
    type User = CUser;

    fn open(Place { values, words, chunks, users }: Place) -> C {
        // SAFETY: it takes numbers alone, and ends the program if it cannot open.
        let all = unsafe { loops_open(values, words, chunks, users) };
        // SAFETY: the heap is open, and has so many users.
        let (owner, user) = unsafe { (loops_owner(all), |number| loops_user(all, number)) };
        let users = (0..users).map(|number| CUser { pass: user(number) }).collect();
        C { all, owner: CUser { pass: owner }, users }
    }

    fn owner(&mut self) -> &mut CUser {
        &mut self.owner
    }

    fn users(&mut self) -> &mut [CUser] {
        &mut self.users
    }

    fn own_keys(&mut self, count: usize) -> u64 {
        // SAFETY: its heap is open.
        unsafe { loops_own_keys(self.owner.pass, count) }
    }

    fn insert_each(&mut self, samples: &Samples, keys: &mut [u64]) -> u64 {
        // SAFETY: as in `get_each`, and C has the same structure of samples.
        unsafe { loops_insert(self.owner.pass, samples, keys.as_mut_ptr(), keys.len()) }
    }

    fn remove_each(&mut self, keys: &[u64]) {
        // SAFETY: as in `get_each`.
        unsafe { loops_remove(self.owner.pass, keys.as_ptr(), keys.len()) }
    }
}
