//! Heaps of each layout.
use gearlongan::{Heap, Layout, Pass, Shape, Shard};

pub(crate) const LAYOUTS: [Layout; 4] = [Layout::Wide, Layout::Tagged, Layout::Deep, Layout::Tiny];
pub(crate) const SMALL: Shape = Shape { shards: 2, segments: 1, passes: 2 };

/// An owner of shard 0, and another pass.
pub(crate) fn two(layout: Layout) -> (Shard, Pass) {
    let heap = Heap::open(layout, SMALL).expect("it opens");
    let shard = heap.take().expect("a pass is at home").adopt(0).expect("it has no owner");
    (shard, heap.take().expect("another is at home"))
}
