//! Where the nodes of a slab are: one for each slot of the heaps' pages, found by the place that a key names.
//!
//! Nodes are allocated in blocks, each for some pages of a shard: when the first key of any of them is issued. They
//! stay until the slab is dropped.
use super::node::Node;
use super::number::{self, MOST_HEAPS, MOST_SHARDS, SLOTS};
use super::system;
use std::alloc::{alloc_zeroed, dealloc, Layout};
use std::mem::{size_of, size_of_val};
use std::ptr;
use std::slice;
use std::sync::atomic::Ordering::{AcqRel, Acquire, Relaxed, Release};
use std::sync::atomic::{AtomicPtr, AtomicUsize};

type Page<T> = [Node<T>; SLOTS];

/// The bytes of a block, at most, if it has more than one page. In larger ones a slab of few values would have much
/// that it does not use. Smaller ones would leave fewer whole pages of the system as they are freed.
const BLOCK: usize = 64 << 10;

/// A slab that frees as many bytes of nodes returns its memory to the system.
const RETURNED: usize = 1 << 20;

/// The pages of one heap.
struct Pages<T> {
    // The pages of each shard, one shard after the other. Null before the heap has a key. The first page of a block is
    // there as soon as the block is, any other once it has a key.
    table: AtomicPtr<AtomicPtr<Page<T>>>,
    // How many pages a shard has.
    of_shard: AtomicUsize,
}

/// The nodes of a slab.
pub(super) struct Places<T> {
    heaps: Box<[Pages<T>; MOST_HEAPS]>,
}

// SAFETY: the nodes belong to it, and the values in them go where it goes.
unsafe impl<T: Send> Send for Places<T> {}

// SAFETY: threads that share nodes have `&T` of a value at the same time, and any of them may be the one that drops it.
unsafe impl<T: Send + Sync> Sync for Places<T> {}

// Zeroed memory for one `U`, or null if memory is refused.
fn zeroed<U>(layout: Layout) -> *mut U {
    // SAFETY: no layout here is of size zero: a node has a state and a key, and a table has entries.
    unsafe { alloc_zeroed(layout).cast() }
}

impl<T> Pages<T> {
    fn layout(of_shard: usize) -> Option<Layout> {
        Layout::array::<AtomicPtr<Page<T>>>(MOST_SHARDS as usize * of_shard).ok()
    }

    // How many pages a block has: a power of two. (So is the number of pages that a shard has.)
    fn of_block(of_shard: usize) -> usize {
        let most = (BLOCK / size_of::<Page<T>>()).max(1);
        of_shard.min(1 << most.ilog2())
    }

    fn layout_of_block(of_shard: usize) -> Option<Layout> {
        Layout::array::<Page<T>>(Self::of_block(of_shard)).ok()
    }

    // Runs it with the entry of a page of the number's shard. None if the heap has no key yet, or no such page.
    #[inline]
    fn entry<R>(&self, number: u64, page: usize, act: impl FnOnce(&AtomicPtr<Page<T>>) -> R) -> Option<R> {
        let table = self.table.load(Acquire);
        let of_shard = self.of_shard.load(Relaxed);
        if table.is_null() || page >= of_shard {
            return None;
        }
        // SAFETY: the table has this many pages of each shard, and stays as long as `self`.
        Some(act(unsafe { &*table.add(number::shard(number) as usize * of_shard + page) }))
    }

    // Allocates the table of a heap whose shards have this many pages. None if memory is refused.
    fn prepare(&self, of_shard: usize) -> Option<()> {
        let layout = Self::layout(of_shard)?;
        let new: *mut AtomicPtr<Page<T>> = zeroed(layout);
        if new.is_null() {
            return None;
        }
        // All that prepare this heap store the same number.
        self.of_shard.store(of_shard, Relaxed);
        if self.table.compare_exchange(ptr::null_mut(), new, AcqRel, Relaxed).is_err() {
            // SAFETY: it was allocated here with this layout, and no other thread knows of it.
            unsafe { dealloc(new.cast(), layout) };
        }
        Some(())
    }

    // The block that begins with this page, which it allocates if nobody has. None if memory is refused.
    fn block(&self, number: u64, first: usize) -> Option<*mut Page<T>> {
        let there = self.entry(number, first, |entry| entry.load(Acquire))?;
        if !there.is_null() {
            return Some(there);
        }
        // Zeroed memory is a block of nodes without values. It is not built on the stack, where large values have no
        // room.
        let layout = Self::layout_of_block(self.of_shard.load(Relaxed))?;
        let new: *mut Page<T> = zeroed(layout);
        if new.is_null() {
            return None;
        }
        let publish = |entry: &AtomicPtr<Page<T>>| entry.compare_exchange(ptr::null_mut(), new, AcqRel, Acquire);
        match self.entry(number, first, publish) {
            Some(Ok(_)) => Some(new),
            refused => {
                // SAFETY: it was allocated here with this layout, and no other thread knows of it.
                unsafe { dealloc(new.cast(), layout) };
                refused?.err()
            }
        }
    }
}

impl<T> Places<T> {
    pub(super) fn new() -> Places<T> {
        let none = |_| Pages { table: AtomicPtr::new(ptr::null_mut()), of_shard: AtomicUsize::new(0) };
        Places { heaps: Box::new(std::array::from_fn(none)) }
    }

    /// The node of a number's place. None if no key of its page was ever issued, except if it is the first of a block.
    #[inline]
    pub(super) fn node(&self, number: u64) -> Option<&Node<T>> {
        let load = |entry: &AtomicPtr<Page<T>>| entry.load(Acquire);
        let page = self.heaps.get(number::heap(number))?.entry(number, number::page(number), load)?;
        // SAFETY: a page that was published stays as long as `self`.
        unsafe { page.as_ref() }?.get(number::slot(number))
    }

    /// The node of a number that was issued, after the nodes of its page are allocated. The shards of the number's heap
    /// have `of_shard` pages, which is always the same. None if there is no such place, or memory is refused.
    pub(super) fn allocate(&self, number: u64, of_shard: usize) -> Option<&Node<T>> {
        let pages = self.heaps.get(number::heap(number))?;
        let page = number::page(number);
        if pages.entry(number, page, |_| ()).is_none() {
            pages.prepare(of_shard)?;
        }
        let at = page % Pages::<T>::of_block(of_shard);
        // All that publish a page of the block store the same address.
        let publish = |block: *mut Page<T>| {
            // SAFETY: the block has as many pages.
            pages.entry(number, page, |entry| entry.store(unsafe { block.add(at) }, Release))
        };
        pages.block(number, page - at).and_then(publish)?;
        self.node(number)
    }

    /// The nodes of each page of which a key was issued, in the order of their places, with the numbers of these. A
    /// page whose first key is issued meanwhile is met or not.
    pub(super) fn nodes(&self) -> impl Iterator<Item = (u64, &Node<T>)> + '_ {
        self.heaps.iter().enumerate().flat_map(|(heap, pages)| {
            let table = pages.table.load(Acquire);
            let of_shard = pages.of_shard.load(Relaxed);
            let length = if table.is_null() { 0 } else { MOST_SHARDS as usize * of_shard };
            (0..length).flat_map(move |at| {
                let first = number::first_of_page(heap, at / of_shard, at % of_shard);
                // SAFETY: a table has this many entries. It stays as long as `self`, and so does a page that was
                // published.
                let page = unsafe { (*table.add(at)).load(Acquire).as_ref() };
                (first..).zip(page.into_iter().flatten())
            })
        })
    }

    // The nodes of each block that was allocated.
    fn blocks_mut(&mut self) -> impl Iterator<Item = &mut [Node<T>]> + '_ {
        self.heaps.iter_mut().flat_map(|pages| {
            let (table, of_shard) = (*pages.table.get_mut(), *pages.of_shard.get_mut());
            let length = if table.is_null() { 0 } else { MOST_SHARDS as usize * of_shard };
            let of_block = Pages::<T>::of_block(of_shard);
            (0..length).step_by(of_block.max(1)).filter_map(move |first| {
                // SAFETY: a table has this many entries, and `&mut self` is the only way to them.
                let block = unsafe { *(*table.add(first)).get_mut() };
                // SAFETY: a block has this many nodes and stays as long as `self`. Each is visited once.
                (!block.is_null()).then(|| unsafe { slice::from_raw_parts_mut(block.cast(), of_block * SLOTS) })
            })
        })
    }

    /// All nodes of blocks that were allocated.
    pub(super) fn nodes_mut(&mut self) -> impl Iterator<Item = &mut Node<T>> + '_ {
        self.blocks_mut().flatten()
    }
}

impl<T> Drop for Places<T> {
    /// Frees the memory. Values that are still in the nodes are not dropped.
    fn drop(&mut self) {
        let is_large = self.blocks_mut().map(|nodes| size_of_val(nodes)).sum::<usize>() >= RETURNED;
        for nodes in self.blocks_mut() {
            let (layout, at) = (Layout::for_value(nodes), ptr::from_mut(nodes).cast());
            if is_large {
                // SAFETY: all that use the block borrow the slab or have a share of it, and no value is read any more.
                unsafe { system::forget_pages(at, layout.size()) };
            }
            // SAFETY: it was allocated with this layout, and nobody uses it, as above.
            unsafe { dealloc(at, layout) };
        }
        for pages in self.heaps.iter_mut() {
            let (table, of_shard) = (*pages.table.get_mut(), *pages.of_shard.get_mut());
            if let Some(layout) = Pages::<T>::layout(of_shard).filter(|_| !table.is_null()) {
                // SAFETY: as above, for a table.
                unsafe { dealloc(table.cast(), layout) };
            }
        }
        if is_large {
            system::return_free_memory();
        }
    }
}
