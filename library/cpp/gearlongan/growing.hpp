// Heaps that grow, and their callers. A part of shardheap.hpp, which says what holds of all.
#ifndef GEARLONGAN_GROWING_HPP
#define GEARLONGAN_GROWING_HPP

#include "gearlongan/heaps.hpp"
#include "gearlongan/inserters.hpp"

#include <cstdint>

namespace gearlongan {

/// The pass of a growing heap: it inserts without a shard of its own, since an insert adopts one in a chunk with room,
/// and opens a chunk if there is none. If the heap may have no more chunks, an insert is no_shard if each shard has
/// another owner, and otherwise full. When it is destroyed it leaves its shards and goes home, as a shard does. A
/// function that takes a `reader &` takes it. A receipt of a caller covers all chunks that it has used.
///
///     auto growing = gearlongan::growing_heap::open({1, 1000, 2, 8}, 256);
///     gearlongan::caller caller = growing.take(), other = growing.take();
///     const auto first = caller.insert({7, 8});
///     other.heed(caller.receipt());
///     assert((*other.load(first))[1] == 8);
class [[nodiscard]] caller : public detail::inserter {
public:
    constexpr caller() noexcept {}

    /// Leaves the shards that the caller owns, so that other callers may insert there. waiting, if another caller is in
    /// the middle of a free in one of them.
    ///
    ///     auto growing = gearlongan::growing_heap::open({1, 1000, 2, 8}, 256);
    ///     auto caller = growing.take();
    ///     while (caller.try_leave() == gearlongan::errc::waiting) std::this_thread::yield();
    errc try_leave() noexcept { return static_cast<errc>(shardheap_leave(raw())); }

    /// Leaves each shard that the caller owns and in which no other caller is in the middle of a free. waiting, if one
    /// is left. A caller that inserts seldom calls it between its inserts, so that others insert in the same shard.
    ///
    ///     auto growing = gearlongan::growing_heap::open({1, 1000, 2, 8}, 1);
    ///     auto caller = growing.take(), other = growing.take();
    ///     (void)caller.insert({7, 8});
    ///     assert(caller.try_leave_idle() == gearlongan::errc::ok);
    ///     (void)other.insert({9});
    errc try_leave_idle() noexcept { return static_cast<errc>(shardheap_leave_idle(raw())); }

#if defined(__cpp_exceptions)
    /// Leaves each shard that it can, as try_leave_idle does. It throws waiting.
    ///
    ///     auto growing = gearlongan::growing_heap::open({1, 1000, 2, 8}, 256);
    ///     auto caller = growing.take();
    ///     (void)caller.insert({7, 8});
    ///     caller.leave_idle();
    void leave_idle() { detail::check(try_leave_idle()); }

    /// Leaves the shards, as try_leave does. It throws waiting.
    ///
    ///     auto growing = gearlongan::growing_heap::open({1, 1000, 2, 8}, 256);
    ///     auto caller = growing.take();
    ///     const auto first = caller.insert({7, 8});
    ///     caller.leave();
    ///     assert(growing.take().load(first));
    void leave() { detail::check(try_leave()); }
#endif

    /// Leaves the shards, brings the caller home, and empties this object, as the destructor does.
    ///
    ///     auto growing = gearlongan::growing_heap::open({1, 1000, 2, 8}, 256);
    ///     auto caller = growing.take();
    ///     caller.close();
    ///     assert(!caller);
    void close() noexcept { reader::close(); }
};

/// A heap that grows by chunks as inserts find no room. Threads take callers of it. Any number of threads use one
/// object, as that of a heap, and the heap goes with the last of these objects and its callers. The refusals of all
/// calls here include errc::empty. It also has the calls of heap_base and of owned.
///
///     auto growing = gearlongan::growing_heap::open({1, 1, 1, 2}, 256);    // one segment at first, 2 passes
///     auto caller = growing.take();
///     for (std::uint64_t n = 0; n < 1000; n++) (void)caller.insert({n});
///     assert(growing.chunks() > 1 && growing.passes() == 2);
class [[nodiscard]] growing_heap : public detail::heap_base<growing_heap, caller> {
public:
    constexpr growing_heap() noexcept {}

    /// Opens a heap in this object, which is empty. Its first chunk is the least one that has this room, and it has at
    /// most this many chunks, 1 to 256. The owners are the threads that insert, since each keeps a shard. occupied,
    /// memory; bad_shape, if a number is outside its limits or no chunk has the room.
    ///
    ///     gearlongan::growing_heap growing;
    ///     assert(growing.try_open({1, 1000, 2, 8}, 257) == gearlongan::errc::bad_shape);
    errc try_open(room first, std::uint32_t chunks) noexcept {
        return static_cast<errc>(alone(shardheap_open_growing, first.owners, first.values, first.words, first.passes,
                                       chunks));
    }

#if defined(__cpp_exceptions)
    /// Opens a heap, as the call above does.
    ///
    ///     auto growing = gearlongan::growing_heap::open({1, 1000, 2, 8}, 256);
    ///     std::thread([other = growing.share()]() mutable { (void)other.take().insert({7}); }).join();
    [[nodiscard]] static growing_heap open(room first, std::uint32_t chunks) {
        growing_heap opened;
        detail::check(opened.try_open(first, chunks));
        return opened;
    }
#endif

    /// How many of its chunks are open: 0 of an empty object.
    ///
    ///     auto growing = gearlongan::growing_heap::open({1, 1000, 2, 8}, 256);
    ///     assert(growing.passes() == 8 && growing.chunks() == 1);
    [[nodiscard]] std::uint64_t chunks() const noexcept { return alone(shardheap_chunks); }
};

} // namespace gearlongan

#endif
