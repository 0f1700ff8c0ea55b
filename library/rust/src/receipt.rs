//! Receipts.
use crate::ffi::ReceiptHandle;

/// A receipt of a pass: what it covers happens before the next calls of the pass that [heeds](crate::Pass::heed) it.
///
/// It covers all calls of the pass that [made](crate::Pass::receipt) it until then, and what the receipts cover that
/// this pass heeded before. It may go to another thread. It orders no threads itself: what it goes by does, as a
/// channel.
///
/// Calls of two passes are ordered by receipts only. If a thread inserts a key and hands it to another without a
/// receipt, the contracts of the library allow that the other finds it `Gone`. (Each step of the library is a
/// sequentially consistent atomic operation, so that a key which was handed over is found in practice.)
///
/// `Ok` of a [`load`](crate::Pass::load) promises a little less than `Ok` of a [`get`](crate::Pass::get), which leaves
/// a hold. If another pass removed the key, and this one heeded no receipt of that, the contracts allow that the load
/// comes before the removal, even if it was called later. With the receipt they do not.
///
/// ```
/// use gearlongan::{Error, Heap, Layout, Shape};
/// use std::{sync::mpsc, thread};
///
/// let heap = Heap::open(Layout::Wide, Shape { shards: 1, segments: 1, passes: 2 })?;
/// let (shard, pass) = (heap.take()?.adopt(0)?, heap.take()?);
/// let (sender, receiver) = mpsc::channel();
///
/// let thread = thread::spawn(move || {
///     let (key, receipt) = receiver.recv().expect("it is sent");
///     pass.heed(receipt)?;
///     pass.load(key) // `Gone` only if a call removed the key
/// });
/// let key = shard.insert(&[7, 8])?;
/// sender.send((key, shard.receipt()?)).expect("the thread waits for it");
/// assert_eq!(thread.join().expect("the thread ends well")?, [7, 8]);
/// # Ok::<(), Error>(())
/// ```
#[derive(Debug)]
#[must_use = "a receipt that nobody heeds orders nothing"]
pub struct Receipt {
    pub(crate) handle: ReceiptHandle,
}
