// Heaps. A part of shardheap.hpp, which says what holds of all.
#ifndef GEARLONGAN_HEAPS_HPP
#define GEARLONGAN_HEAPS_HPP

#include "gearlongan/passes.hpp"
#include "gearlongan/ranges.hpp"

#include <cstdint>
#include <mutex>
#include <utility>

namespace gearlongan {

/// The layouts: how many shards and pages a heap may have, and so what its keys look like (shardheap_layout).
enum class layout : std::uint32_t {
    wide = SHARDHEAP_WIDE,     ///< 256 shards of 1,024 pages each
    tagged = SHARDHEAP_TAGGED, ///< 64 shards of 256 pages; keys are below 2^52
    deep = SHARDHEAP_DEEP,     ///< 64 shards of 1,048,576 pages, 16,777,216 in all; keys use all 64 bits
    tiny = SHARDHEAP_TINY,     ///< 4 shards of 16 pages, whose slots serve 3 values each and no more: for tests
    growing = SHARDHEAP_GROWING, ///< that of heaps that grow, which heap::open refuses as bad_layout
};

/// The size of a heap by its parts: shards, segments of 8 pages in each, and 1 to 64 passes.
struct shape {
    std::uint32_t shards, segments, passes;
};

/// The size of a heap by what has room in it: owners of a shard each, values of 0 to 16 words for each of them, and 1
/// to 64 passes.
struct room {
    std::uint32_t owners;
    std::uint64_t values;
    std::uint32_t words, passes;
};

/// The slots of a page, and those of all pages (shardheap_page, shardheap_sums).
using page_accounts = ::shardheap_page;
using totals = ::shardheap_sums;

namespace detail {

/// What a heap and a growing heap have in common. `Heap` is the class of such a heap, and `Taken` what it gives to
/// threads: a pass or a caller. The refusals of all calls here include errc::empty.
template <class Heap, class Taken> class heap_base : public detail::owned<::shardheap> {
public:
    /// Whether there is a heap here: false if it is empty.
    [[nodiscard]] explicit operator bool() const noexcept {
        const std::lock_guard<std::mutex> locked(lock_);
        return owned::operator bool();
    }

    /// Takes a pass or a caller that is at home into an empty one. no_pass, memory; occupied, if `into` is not empty.
    ///
    ///     gearlongan::pass other;
    ///     assert(heap.try_take(other) == gearlongan::errc::ok);
    errc try_take(Taken &into) noexcept { return static_cast<errc>(alone(shardheap_take, into.raw())); }

    /// Makes an empty object a second one of this heap, for another thread. memory; occupied, if it is not empty.
    ///
    ///     gearlongan::heap other;
    ///     assert(heap.try_share(other) == gearlongan::errc::ok);
    errc try_share(Heap &into) noexcept { return static_cast<errc>(alone(shardheap_share, into.raw())); }

#if defined(__cpp_exceptions)
    /// Takes a pass or a caller that is at home. It throws no_pass if there is none.
    ///
    ///     gearlongan::pass other = heap.take();
    [[nodiscard]] Taken take() {
        Taken taken;
        detail::check(try_take(taken));
        return taken;
    }

    /// Makes a second object of this heap, for another thread.
    ///
    ///     std::thread([other = heap.share()]() mutable { other.take().close(); }).join();
    [[nodiscard]] Heap share() {
        Heap other;
        detail::check(try_share(other));
        return other;
    }
#endif

    /// How many passes or callers the heap has, at home or away: 0 of an empty object.
    ///
    ///     assert(heap.passes() == 4);
    [[nodiscard]] std::uint64_t passes() const noexcept { return alone(shardheap_passes); }

    /// How many values of this many words the heap has slots for, if all its pages are for values of that length. Of a
    /// growing heap that is the room in the chunks that are open. It is 0 for more than 16 words, and of an empty
    /// object.
    ///
    ///     assert(heap.capacity(2) == 384); // two shards of 8 pages
    [[nodiscard]] std::uint64_t capacity(std::uint32_t words) const noexcept {
        return alone(shardheap_capacity, words);
    }

    /// How many bytes of memory the heap's words take, in the chunks that are open: 0 of an empty object.
    ///
    ///     assert(heap.bytes() == 24992);
    [[nodiscard]] std::uint64_t bytes() const noexcept { return alone(shardheap_bytes); }

    /// Writes the layout of the heap.
    ///
    ///     gearlongan::layout of;
    ///     assert(heap.try_layout_of(of) == gearlongan::errc::ok);
    errc try_layout_of(layout &into) const noexcept {
        std::uint32_t number = 0;
        const auto code = static_cast<errc>(alone(shardheap_layout_of, &number));
        if (code == errc::ok) into = static_cast<layout>(number);
        return code;
    }

#if defined(__cpp_exceptions)
    /// The layout of the heap.
    ///
    ///     assert(heap.layout_of() == gearlongan::layout::wide);
    [[nodiscard]] layout layout_of() const {
        layout found{};
        detail::check(try_layout_of(found));
        return found;
    }
#endif

protected:
    heap_base() noexcept = default;
    heap_base(heap_base &&other) noexcept : owned(std::move(other)) {}
    heap_base &operator=(heap_base &&other) noexcept {
        owned::operator=(std::move(other));
        return *this;
    }
    ~heap_base() = default;

    // Makes a call of shardheap.h on the handle, which no other of these calls uses meanwhile.
    template <class Code, class... Parameters, class... Words>
    Code alone(Code (*call)(::shardheap *, Parameters...), Words... words) const noexcept {
        const std::lock_guard<std::mutex> locked(lock_);
        return call(handle(), words...);
    }

private:
    mutable std::mutex lock_;
};

} // namespace detail

/// A heap, of which threads take passes. Any number of threads use one object, at the same time, except that it is
/// opened, moved, closed and destroyed by one thread while no other uses it. `share` makes another object of the heap,
/// and the heap goes with the last of these objects and its passes. The refusals of all calls here include errc::empty.
/// It also has the calls of heap_base and of owned.
///
///     auto other = gearlongan::heap::open(gearlongan::layout::wide, {4, 2, 8});    // 4 shards of 16 pages, 8 passes
///     auto first = other.take();
///     other.close();
///     assert(first);    // it serves on
class [[nodiscard]] heap : public detail::heap_base<heap, pass> {
public:
    constexpr heap() noexcept {}

    /// Opens a heap in this object, which is empty. occupied, bad_layout, bad_shape, memory.
    ///
    ///     gearlongan::heap other;
    ///     assert(other.try_open(gearlongan::layout::tiny, {1, 1, 65}) == gearlongan::errc::bad_shape);
    errc try_open(layout of, shape parts) noexcept {
        return static_cast<errc>(
            alone(shardheap_open, static_cast<std::uint32_t>(of), parts.shards, parts.segments, parts.passes));
    }

    /// Opens the least heap that has this room. occupied, bad_layout, memory; bad_shape, if the layout has none.
    ///
    ///     gearlongan::heap other;
    ///     assert(other.try_open_for(gearlongan::layout::wide, {4, 20000, 2, 8}) == gearlongan::errc::ok);
    errc try_open_for(layout of, room with) noexcept {
        return static_cast<errc>(alone(shardheap_open_for, static_cast<std::uint32_t>(of), with.owners, with.values,
                                       with.words, with.passes));
    }

    /// Joins all passes of the heap in one, if all are at home: it is the only pass from then on. away, memory.
    ///
    ///     assert(heap.try_gather() == gearlongan::errc::away);
    errc try_gather() noexcept { return static_cast<errc>(alone(shardheap_gather)); }

    /// Counts the slots of a page, by the numbers of its shard and its page there, both from 0. away, if the pass that
    /// gather left is not at home; no_page.
    ///
    ///     gearlongan::page_accounts page;
    ///     assert(heap.try_accounts(0, 0, page) == gearlongan::errc::away);
    errc try_accounts(std::uint32_t shard, std::uint32_t page, page_accounts &into) noexcept {
        return static_cast<errc>(alone(shardheap_accounts, shard, page, &into));
    }

    /// Counts the slots of all pages. away, as above.
    ///
    ///     gearlongan::totals sums;
    ///     assert(heap.try_totals(sums) == gearlongan::errc::away);
    errc try_totals(totals &into) noexcept { return static_cast<errc>(alone(shardheap_totals, &into)); }

    /// Finds the first key of the map at a place or behind it. Places are numbers of slots over the whole heap, and
    /// `place` becomes the one behind that of the key. A loop that begins at place 0 gets each key once, in the order
    /// of their places, if the map does not change meanwhile. away, as above; no_key, if no key is left.
    ///
    ///     std::uint64_t place = 0;
    ///     gearlongan::key next;
    ///     assert(heap.try_next_key(place, next) == gearlongan::errc::away && place == 0);
    errc try_next_key(std::uint64_t &place, key &into) noexcept {
        std::uint64_t number = 0;
        const auto code = static_cast<errc>(alone(shardheap_next_key, &place, &number));
        if (code == errc::ok) into = key(number);
        return code;
    }

#if defined(__cpp_exceptions)
    /// Opens a heap, by its parts or by the room it has.
    ///
    ///     auto other = gearlongan::heap::open(gearlongan::layout::wide, {4, 2, 8});
    ///     auto roomy = gearlongan::heap::open_for(gearlongan::layout::wide, {4, 20000, 2, 8});
    [[nodiscard]] static heap open(layout of, shape parts) {
        heap opened;
        detail::check(opened.try_open(of, parts));
        return opened;
    }
    [[nodiscard]] static heap open_for(layout of, room with) {
        heap opened;
        detail::check(opened.try_open_for(of, with));
        return opened;
    }

    /// Joins all passes in one, and counts the slots of a page and of all pages, as the calls above do.
    ///
    ///     shard.close();
    ///     pass.close();
    ///     heap.gather();
    ///     assert(heap.totals().live == 1 && heap.accounts(0, 0).live == 1);
    void gather() { detail::check(try_gather()); }
    [[nodiscard]] page_accounts accounts(std::uint32_t shard, std::uint32_t page) {
        page_accounts counted{};
        detail::check(try_accounts(shard, page, counted));
        return counted;
    }
    [[nodiscard]] gearlongan::totals totals() {
        gearlongan::totals sums{};
        detail::check(try_totals(sums));
        return sums;
    }

    /// The keys of the map, each once, if it does not change meanwhile. The begin of the range throws away, as above.
    ///
    ///     shard.close();
    ///     pass.close();
    ///     heap.gather();
    ///     for (const gearlongan::key it : heap.keys()) assert(it == key);
    [[nodiscard]] key_range keys() & noexcept { return key_range(*this); }
#endif
};

} // namespace gearlongan

#endif
