// Values: words in place, views of words, and records. A part of shardheap.hpp, which says what holds of all.
#ifndef GEARLONGAN_VALUES_HPP
#define GEARLONGAN_VALUES_HPP

#include "gearlongan/errors.hpp"

#include <cstddef>
#include <cstdint>
#include <cstring>
#include <initializer_list>
#include <iterator>
#include <optional>
#include <type_traits>
#include <utility>

namespace gearlongan {

/// A view of words that somebody else keeps, as a std::span<const std::uint64_t>. It is made of what has data() and
/// size(), such as a std::vector, a std::array or a value, and of an array.
///
///     std::vector<std::uint64_t> words(3, 7);
///     gearlongan::key third = shard.insert(words);
///     assert(pass.load(third)->view() == words);
class words_view {
public:
    using value_type = std::uint64_t;
    using const_iterator = const std::uint64_t *;

    constexpr words_view() noexcept = default;
    constexpr words_view(const std::uint64_t *data, std::size_t size) noexcept : data_(data), size_(size) {}
    template <class Words, class = std::enable_if_t<std::is_convertible_v<
                               decltype(std::data(std::declval<const Words &>())), const std::uint64_t *>>>
    constexpr words_view(const Words &words) noexcept : data_(std::data(words)), size_(std::size(words)) {}

    [[nodiscard]] constexpr const std::uint64_t *data() const noexcept { return data_; }
    [[nodiscard]] constexpr std::size_t size() const noexcept { return size_; }
    [[nodiscard]] constexpr bool empty() const noexcept { return size_ == 0; }
    [[nodiscard]] constexpr const_iterator begin() const noexcept { return data_; }
    [[nodiscard]] constexpr const_iterator end() const noexcept { return data_ + size_; }
    [[nodiscard]] constexpr const std::uint64_t &operator[](std::size_t at) const noexcept { return data_[at]; }

    friend constexpr bool operator==(words_view a, words_view b) noexcept {
        if (a.size_ != b.size_) return false;
        for (std::size_t at = 0; at < a.size_; at++)
            if (a[at] != b[at]) return false;
        return true;
    }
    friend constexpr bool operator!=(words_view a, words_view b) noexcept { return !(a == b); }

private:
    const std::uint64_t *data_ = nullptr;
    std::size_t size_ = 0;
};

/// Whether T is a record: a trivially copyable type of at most 128 bytes. It is stored as its bytes, in the least
/// number of words that has room for them. A value has no type: to read it as another record of that many words is no
/// error.
template <class T>
inline constexpr bool is_record_v = std::is_object_v<T> && !std::is_array_v<T> && !std::is_const_v<T> &&
                                    !std::is_volatile_v<T> && std::is_trivially_copyable_v<T> &&
                                    std::is_copy_constructible_v<T> && sizeof(T) <= 128;

namespace detail {

class ending;

template <class T> inline constexpr std::size_t words_of = (sizeof(T) + 7) / 8;

// The words of a record. Those of its padding are whatever they are; the rest of the last word is 0.
template <class T> struct record_words {
    static_assert(is_record_v<T>, "a record is a trivially copyable type of at most 128 bytes");
    std::uint64_t words[words_of<T>] = {};
    explicit record_words(const T &record) noexcept { std::memcpy(words, &record, sizeof(T)); }
};

// Room for a record, which need not have a default constructor.
template <class T> union record_room {
    static_assert(is_record_v<T>, "a record is a trivially copyable type of at most 128 bytes");
    char none;
    T record;
    record_room() noexcept : none() {}
    void fill(const std::uint64_t *words) noexcept { std::memcpy(static_cast<void *>(this), words, sizeof(T)); }
};

} // namespace detail

/// A copy of a value: 0 to 16 words, in place, as a std::array whose size varies. To read into one that is there saves
/// its construction; a copy copies as many words as it has.
///
///     gearlongan::value value;
///     pass.load(key, value);
///     assert(value.size() == 2 && value[0] == 7 && value.back() == 8);
class value {
public:
    using value_type = std::uint64_t;
    using iterator = std::uint64_t *;
    using const_iterator = const std::uint64_t *;

    // (the words are written before they are read)
    value() noexcept : size_(0) {} // NOLINT(cppcoreguidelines-pro-type-member-init,hicpp-member-init)
    value(const value &other) noexcept : size_(0) { fill(other); } // NOLINT(cppcoreguidelines-pro-type-member-init)
    value &operator=(const value &other) noexcept {
        if (this != &other) fill(other);
        return *this;
    }
    ~value() = default;
#if defined(__cpp_exceptions)
    /// A copy of these words. too_long.
    explicit value(words_view words) : value() { detail::check(try_assign(words)); }
    value(std::initializer_list<std::uint64_t> words) : value(words_view(words)) {}
#endif
    /// Copies these words, which are none of this value. too_long.
    errc try_assign(words_view words) noexcept {
        if (words.size() > max_size()) return errc::too_long;
        fill(words);
        return errc::ok;
    }

    [[nodiscard]] static constexpr std::size_t max_size() noexcept { return 16; }
    [[nodiscard]] std::size_t size() const noexcept { return static_cast<std::size_t>(size_); }
    [[nodiscard]] bool empty() const noexcept { return size_ == 0; }
    [[nodiscard]] std::uint64_t *data() noexcept { return words_; }
    [[nodiscard]] const std::uint64_t *data() const noexcept { return words_; }
    [[nodiscard]] iterator begin() noexcept { return words_; }
    [[nodiscard]] const_iterator begin() const noexcept { return words_; }
    [[nodiscard]] iterator end() noexcept { return words_ + size_; }
    [[nodiscard]] const_iterator end() const noexcept { return words_ + size_; }
    [[nodiscard]] std::uint64_t &operator[](std::size_t at) noexcept { return words_[at]; }
    [[nodiscard]] const std::uint64_t &operator[](std::size_t at) const noexcept { return words_[at]; }
    [[nodiscard]] const std::uint64_t &front() const noexcept { return words_[0]; }
    [[nodiscard]] const std::uint64_t &back() const noexcept { return words_[size_ - 1]; }
    [[nodiscard]] words_view view() const noexcept { return {words_, size()}; }

    friend bool operator==(const value &a, const value &b) noexcept { return a.view() == b.view(); }
    friend bool operator!=(const value &a, const value &b) noexcept { return a.view() != b.view(); }

    /// The value as a record. Nothing if it has another number of words than a T.
    ///
    ///     gearlongan::value value{1, 2};
    ///     assert((*value.as<std::array<std::uint32_t, 3>>())[2] == 2);
    ///     assert(!value.as<std::uint64_t>());
    template <class T> [[nodiscard]] std::optional<T> as() const noexcept {
        if (size_ != detail::words_of<T>) return std::nullopt;
        detail::record_room<T> room;
        room.fill(words_);
        return room.record;
    }

private:
    friend class detail::ending;
    friend class reader;
    void fill(words_view words) noexcept {
        if (!words.empty()) std::memcpy(words_, words.data(), words.size() * sizeof *words_);
        size_ = words.size();
    }
    std::uint64_t words_[16]; // NOLINT(cppcoreguidelines-avoid-c-arrays)
    std::uint64_t size_;
};

} // namespace gearlongan

#endif
