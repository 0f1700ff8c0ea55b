// The keys of a heap or of a shard, and the live keys that a walk meets, as ranges, and batches of keys. A part of
// shardheap.hpp, which says what holds of all.
#ifndef GEARLONGAN_RANGES_HPP
#define GEARLONGAN_RANGES_HPP

#include "gearlongan/errors.hpp"
#include "gearlongan/keys.hpp"
#include "gearlongan/values.hpp"

#include <cstddef>
#include <cstdint>
#include <iterator>

namespace gearlongan {

class heap;
class reader;
class shard;

/// A key to load, and what its load returned: an element of a batch for reader::load_each.
///
///     gearlongan::loaded one(key);
///     assert(pass.try_load_each(&one, 1) == gearlongan::errc::ok && one && one.view()[1] == 8);
class loaded : private shardheap_loaded {
public:
    // (the words are written before they are read)
    loaded() noexcept : loaded(gearlongan::key()) {}
    explicit loaded(gearlongan::key of) noexcept { // NOLINT(cppcoreguidelines-pro-type-member-init)
        shardheap_loaded::key = of.number();
        shardheap_loaded::length = 0;
        shardheap_loaded::code = SHARDHEAP_EMPTY;
    }

    /// The key that is to be loaded.
    [[nodiscard]] gearlongan::key key() const noexcept { return gearlongan::key(shardheap_loaded::key); }
    /// Names another key for the next batch.
    void set_key(gearlongan::key of) noexcept { shardheap_loaded::key = of.number(); }
    /// What the load returned: what try_load returns, or empty, if it was in no batch yet.
    [[nodiscard]] errc code() const noexcept { return static_cast<errc>(shardheap_loaded::code); }
    /// Whether the key was loaded.
    [[nodiscard]] explicit operator bool() const noexcept { return code() == errc::ok; }
    /// The value, which has no words if the key was not loaded.
    [[nodiscard]] words_view view() const noexcept {
        return {words, static_cast<std::size_t>(*this ? shardheap_loaded::length : 0)};
    }

private:
    friend class reader;
};
static_assert(sizeof(loaded) == sizeof(shardheap_loaded), "a batch is a batch of the library");

/// A live key that a walk met, with its value.
struct live_key {
    gearlongan::key key;
    gearlongan::value value;
};

#if defined(__cpp_exceptions)
/// The keys of a heap whose passes were gathered (heap::keys) or of a shard (shard::keys), or the live keys that a walk
/// meets (reader::walk), as a range of input iterators. It and its iterators refer to that object, which is not moved
/// or destroyed while they are used. A begin and an increment are a try_next_key or a try_next_live of it, and throw
/// what that refuses, except no_key: that is the end.
///
///     const gearlongan::shard_key_range range = shard.keys();
///     assert(std::vector<gearlongan::key>(range.begin(), range.end()) == std::vector<gearlongan::key>{key});
template <class T, class Met> class range_of {
public:
    class iterator {
    public:
        using iterator_category = std::input_iterator_tag;
        using value_type = Met;
        using difference_type = std::ptrdiff_t;
        using pointer = const Met *;
        using reference = const Met &;

        iterator() noexcept = default; ///< The end.
        [[nodiscard]] reference operator*() const noexcept { return met_; }
        [[nodiscard]] pointer operator->() const noexcept { return &met_; }
        iterator &operator++() {
            const errc code = next(*of_, place_, met_);
            if (code == errc::no_key) return *this = iterator();
            detail::check(code);
            return *this;
        }
        iterator operator++(int) {
            iterator before = *this;
            ++*this;
            return before;
        }

        friend bool operator==(const iterator &a, const iterator &b) noexcept {
            return a.of_ == b.of_ && a.place_ == b.place_;
        }
        friend bool operator!=(const iterator &a, const iterator &b) noexcept { return !(a == b); }

    private:
        friend class range_of;
        explicit iterator(T &of) : of_(&of) { ++*this; }
        static errc next(T &of, std::uint64_t &place, key &into) noexcept { return of.try_next_key(place, into); }
        static errc next(T &of, std::uint64_t &place, live_key &into) noexcept {
            return of.try_next_live(place, into);
        }
        T *of_ = nullptr;
        std::uint64_t place_ = 0;
        Met met_;
    };

    [[nodiscard]] iterator begin() const { return iterator(*of_); }
    [[nodiscard]] iterator end() const noexcept { return {}; }

private:
    friend T;
    explicit range_of(T &of) noexcept : of_(&of) {}
    T *of_;
};

/// The ranges of keys of a heap and of a shard, and of the live keys that a pass, a shard or a caller meets.
using key_range = range_of<heap, key>;
using shard_key_range = range_of<shard, key>;
using live_range = range_of<reader, live_key>;
#endif

} // namespace gearlongan

#endif
