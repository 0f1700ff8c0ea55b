// What shards and callers have in common. A part of shardheap.hpp, which says what holds of all.
#ifndef GEARLONGAN_INSERTERS_HPP
#define GEARLONGAN_INSERTERS_HPP

#include "gearlongan/readers.hpp"

#include <cstddef>
#include <cstdint>
#include <initializer_list>

namespace gearlongan {

namespace detail {

/// What a shard and a caller of a growing heap have in common: they insert, and collect what others freed.
class inserter : public reader {
public:
    /// Stores a value of 0 to 16 words. If there is no room it collects once and tries again. too_long, memory, full;
    /// no_shard, of a growing heap.
    ///
    ///     gearlongan::key third;
    ///     assert(shard.try_insert({1, 2, 3}, third) == gearlongan::errc::ok);
    inline errc try_insert(words_view words, key &into) noexcept { return stored(shardheap_insert, words, into); }
    inline errc try_insert(std::initializer_list<std::uint64_t> words, key &into) noexcept {
        return try_insert(words_view(words), into);
    }

    /// Stores a record, as an insert does.
    ///
    ///     gearlongan::key third;
    ///     assert(shard.try_insert_record(1.5, third) == gearlongan::errc::ok);
    template <class T> errc try_insert_record(const T &record, key &into) noexcept {
        return try_insert(record_words<T>(record).words, into);
    }

    /// Collects what others freed on all pages of the shard, or of each shard that a caller owns, so that pages of
    /// which nothing is used may take values of another length.
    ///
    ///     assert(shard.try_collect() == gearlongan::errc::ok);
    errc try_collect() noexcept { return static_cast<errc>(shardheap_collect(raw())); }

#if defined(__cpp_exceptions)
    /// Stores a value, and returns its key.
    ///
    ///     gearlongan::key third = shard.insert({1, 2, 3});
    ///     assert(shard.insert({}) != third);
    [[nodiscard]] inline key insert(words_view words) {
        key into;
        check(try_insert(words, into));
        return into;
    }
    [[nodiscard]] inline key insert(std::initializer_list<std::uint64_t> words) { return insert(words_view(words)); }

    /// Stores a record, and returns its key.
    ///
    ///     gearlongan::key third = shard.insert_record(std::array<float, 3>{1, 2, 3});
    ///     assert((*pass.load_record<std::array<float, 3>>(third))[2] == 3);
    template <class T> [[nodiscard]] key insert_record(const T &record) {
        return insert(record_words<T>(record).words);
    }

    /// Collects, as try_collect does.
    ///
    ///     shard.collect();
    void collect() { check(try_collect()); }
#endif

protected:
    inserter() noexcept = default;

    using insertion = std::uint32_t (*)(shardheap_pass *, const std::uint64_t *, std::size_t, std::uint64_t *);
    inline errc stored(insertion insert_by, words_view words, key &into) noexcept {
        std::uint64_t number = 0;
        const auto code = static_cast<errc>(insert_by(raw(), words.data(), words.size(), &number));
        if (code == errc::ok) into = key(number);
        return code;
    }
};

} // namespace detail

} // namespace gearlongan

#endif
