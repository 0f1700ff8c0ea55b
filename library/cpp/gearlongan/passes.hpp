// Passes, and the shards that they own. A part of shardheap.hpp, which says what holds of all.
#ifndef GEARLONGAN_PASSES_HPP
#define GEARLONGAN_PASSES_HPP

#include "gearlongan/inserters.hpp"

#include <cstdint>

namespace gearlongan {

/// One thread's right to use a heap. It goes home when it is destroyed, for the next thread that takes one.
///
///     gearlongan::pass other = heap.take();
///     other = std::move(pass);    // the pass that `other` had is at home again, and `pass` is empty
///     assert(other && !pass);
class [[nodiscard]] pass : public reader {
public:
    constexpr pass() noexcept {}

    /// Makes this pass the owner of a shard, by its number from 0, and moves it to an empty `into`. no_shard, taken,
    /// memory; occupied, if `into` is not empty. After a refusal the pass is where it was.
    ///
    ///     gearlongan::shard owner;
    ///     assert(pass.try_adopt(0, owner) == gearlongan::errc::taken && pass);
    ///     assert(pass.try_adopt(1, owner) == gearlongan::errc::ok && owner && !pass);
    errc try_adopt(std::uint64_t number, shard &into) & noexcept;

#if defined(__cpp_exceptions)
    /// Makes this pass the owner of a shard. After a refusal the pass is where it was.
    ///
    ///     gearlongan::shard owner = std::move(pass).adopt(1);
    ///     gearlongan::shard next;
    ///     try { next = heap.take().adopt(1); } catch (const gearlongan::error &) {}    // the pass is at home again
    [[nodiscard]] shard adopt(std::uint64_t number) &&;
#endif

    /// Brings the pass home, and empties it.
    ///
    ///     pass.close();
    void close() noexcept { reader::close(); }
};

/// A pass that owns a shard: it also inserts there. When it is destroyed it leaves the shard, and the pass goes home.
///
///     gearlongan::key third = shard.insert({1, 2, 3});
///     assert(shard.load(third)->size() == 3);
class [[nodiscard]] shard : public detail::inserter {
public:
    constexpr shard() noexcept {}

    /// Stores a value as try_insert does, but does not collect. too_long, memory, full.
    ///
    ///     gearlongan::key third;
    ///     assert(shard.try_insert_once(std::array<std::uint64_t, 3>{1, 2, 3}, third) == gearlongan::errc::ok);
    errc try_insert_once(words_view words, key &into) noexcept { return stored(shardheap_insert_once, words, into); }

    /// Counts the pages of the shard that have no class yet: each has room for 48 values of a word, or fewer longer
    /// ones.
    ///
    ///     std::uint64_t pages;
    ///     assert(shard.try_pages_left(pages) == gearlongan::errc::ok && pages == 7);
    errc try_pages_left(std::uint64_t &pages) noexcept {
        return static_cast<errc>(shardheap_pages_left(&raw_, &pages));
    }

    /// Counts the slots of the other pages that are not free for this owner. They have a value, or had one that is
    /// held, or another pass freed them and they are not collected yet, or they are never used again. So the shard has
    /// at most this many values.
    ///
    ///     std::uint64_t slots;
    ///     assert(shard.try_slots_out(slots) == gearlongan::errc::ok && slots == 1);
    errc try_slots_out(std::uint64_t &slots) noexcept {
        return static_cast<errc>(shardheap_slots_out(&raw_, &slots));
    }

    /// Finds the first live key of the shard at a place or behind it. Places are numbers of slots in the shard, and
    /// `place` becomes the one behind that of the key. A loop that begins at place 0 meets what a walk of the pass
    /// meets in the shard. no_key, if no key is met.
    ///
    ///     std::uint64_t place = 0;
    ///     gearlongan::key next;
    ///     assert(shard.try_next_key(place, next) == gearlongan::errc::ok && next == key);
    ///     assert(shard.try_next_key(place, next) == gearlongan::errc::no_key);
    errc try_next_key(std::uint64_t &place, key &into) noexcept {
        std::uint64_t number = 0;
        const auto code = static_cast<errc>(shardheap_next_own_key(&raw_, &place, &number));
        if (code == errc::ok) into = key(number);
        return code;
    }

    /// Gives a page of the shard to values of `words` words, 0 to 16, and writes its number to `page`. too_long, full,
    /// memory.
    ///
    ///     std::uint32_t page;
    ///     assert(shard.try_prepare(2, page) == gearlongan::errc::ok);
    errc try_prepare(std::uint32_t words, std::uint32_t &page) noexcept {
        return static_cast<errc>(shardheap_prepare(&raw_, words, &page));
    }

    /// Leaves the shard, so that another pass may adopt it, and moves the pass to an empty `into`. occupied, if `into`
    /// is not empty; waiting, if another pass is in the middle of a free there. After that the shard is still owned.
    ///
    ///     gearlongan::pass left;
    ///     while (shard.try_leave(left) == gearlongan::errc::waiting) std::this_thread::yield();
    ///     assert(left && !shard);
    errc try_leave(pass &into) & noexcept;

#if defined(__cpp_exceptions)
    /// Stores a value as insert does, but does not collect.
    ///
    ///     assert(shard.insert_once(std::vector<std::uint64_t>(16, 1)) != key);
    [[nodiscard]] key insert_once(words_view words) {
        key into;
        detail::check(try_insert_once(words, into));
        return into;
    }

    /// Counts the pages that have no class yet, and the slots of the others that are not free, as the calls above do.
    ///
    ///     assert(shard.pages_left() == 7 && shard.slots_out() == 1);
    ///     shard.remove(key);
    ///     assert(shard.slots_out() == 0);
    [[nodiscard]] std::uint64_t pages_left() {
        std::uint64_t pages = 0;
        detail::check(try_pages_left(pages));
        return pages;
    }
    [[nodiscard]] std::uint64_t slots_out() {
        std::uint64_t slots = 0;
        detail::check(try_slots_out(slots));
        return slots;
    }

    /// The live keys of the shard, each once, as a walk of the pass meets them.
    ///
    ///     for (const gearlongan::key it : shard.keys()) shard.remove(it);
    ///     assert(!pass.load(key));
    [[nodiscard]] shard_key_range keys() & noexcept { return shard_key_range(*this); }

    /// Gives a page to values of `words` words, and returns its number.
    ///
    ///     shard.prepare(16);
    std::uint32_t prepare(std::uint32_t words) {
        std::uint32_t page = 0;
        detail::check(try_prepare(words, page));
        return page;
    }

    /// Leaves the shard, and returns the pass. After a refusal, which is waiting, the shard is where it was.
    ///
    ///     gearlongan::pass left = std::move(shard).leave();
    [[nodiscard]] pass leave() &&;
#endif

    /// Leaves the shard, brings the pass home, and empties this object, as the destructor does.
    ///
    ///     shard.close();
    void close() noexcept { reader::close(); }
};

inline errc pass::try_adopt(std::uint64_t number, shard &into) & noexcept {
    if (into) return errc::occupied;
    if (!unguarded()) return errc::busy;
    const auto code = static_cast<errc>(shardheap_adopt(&raw_, number));
    if (code == errc::ok) into.take_over(*this);
    return code;
}

inline errc shard::try_leave(pass &into) & noexcept {
    if (into) return errc::occupied;
    if (!unguarded()) return errc::busy;
    const auto code = static_cast<errc>(shardheap_leave(&raw_));
    if (code == errc::ok) into.take_over(*this);
    return code;
}

#if defined(__cpp_exceptions)
inline shard pass::adopt(std::uint64_t number) && {
    shard owner;
    detail::check(try_adopt(number, owner));
    return owner;
}

inline pass shard::leave() && {
    pass left;
    detail::check(try_leave(left));
    return left;
}
#endif

} // namespace gearlongan

#endif
