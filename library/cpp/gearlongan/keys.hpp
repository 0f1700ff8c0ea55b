// Keys, and tags on them. A part of shardheap.hpp, which says what holds of all.
#ifndef GEARLONGAN_KEYS_HPP
#define GEARLONGAN_KEYS_HPP

#include "gearlongan/errors.hpp"

#include <cstddef>
#include <cstdint>
#include <functional>

namespace gearlongan {

/// The key of a value: a number that no other value of its heap ever has. It has an order and a hash, and may be in a
/// std::atomic.
///
///     std::unordered_map<gearlongan::key, std::string> names;
///     names[key] = "the pair";
///     assert(gearlongan::key(key.number()) == key);
class key {
public:
    constexpr key() noexcept = default;
    explicit constexpr key(std::uint64_t number) noexcept : number_(number) {}
    [[nodiscard]] constexpr std::uint64_t number() const noexcept { return number_; }

    friend constexpr bool operator==(key a, key b) noexcept { return a.number_ == b.number_; }
    friend constexpr bool operator!=(key a, key b) noexcept { return a.number_ != b.number_; }
    friend constexpr bool operator<(key a, key b) noexcept { return a.number_ < b.number_; }
    friend constexpr bool operator>(key a, key b) noexcept { return b < a; }
    friend constexpr bool operator<=(key a, key b) noexcept { return !(b < a); }
    friend constexpr bool operator>=(key a, key b) noexcept { return !(a < b); }

private:
    std::uint64_t number_ = 0;
};

/// The key of a record of type R in a table: a number that no other record of its table ever has. It converts to no key
/// of another type. That it is of another table of the same type is not found.
///
///     using number_key = gearlongan::key_of<double>;
///     static_assert(sizeof(number_key) == 8 && !std::is_convertible_v<number_key, gearlongan::key_of<float>>);
///     assert(number_key(4096).number() == 4096);
template <class R> class key_of {
public:
    constexpr key_of() noexcept = default;
    explicit constexpr key_of(std::uint64_t number) noexcept : number_(number) {}
    [[nodiscard]] constexpr std::uint64_t number() const noexcept { return number_; }

    friend constexpr bool operator==(key_of a, key_of b) noexcept { return a.number_ == b.number_; }
    friend constexpr bool operator!=(key_of a, key_of b) noexcept { return a.number_ != b.number_; }
    friend constexpr bool operator<(key_of a, key_of b) noexcept { return a.number_ < b.number_; }
    friend constexpr bool operator>(key_of a, key_of b) noexcept { return b < a; }
    friend constexpr bool operator<=(key_of a, key_of b) noexcept { return !(b < a); }
    friend constexpr bool operator>=(key_of a, key_of b) noexcept { return !(a < b); }

private:
    std::uint64_t number_ = 0;
};

// ---- Tags: 8 bits of the caller's on a key of layout tagged ----

/// A key, and the tag that was with it.
struct tagged_key {
    gearlongan::key key;
    std::uint8_t tag = 0;
};

/// Puts a tag on a key below 2^52. The number is no key: untag it for the calls above. bad_key.
///
///     std::uint64_t number;
///     assert(gearlongan::try_tag(gearlongan::key(5), 7, number) == gearlongan::errc::ok);
inline errc try_tag(key of, std::uint8_t with, std::uint64_t &number) noexcept {
    return static_cast<errc>(shardheap_tag(of.number(), with, &number));
}

/// Takes the key and the tag out of a number. bad_key, if its bits 52 to 55 are not all zero.
///
///     gearlongan::tagged_key both;
///     assert(gearlongan::try_untag(std::uint64_t{1} << 52, both) == gearlongan::errc::bad_key);
inline errc try_untag(std::uint64_t number, tagged_key &into) noexcept {
    std::uint64_t bare = 0;
    std::uint32_t with = 0;
    const auto code = static_cast<errc>(shardheap_untag(number, &bare, &with));
    if (code == errc::ok) into = {key(bare), static_cast<std::uint8_t>(with)};
    return code;
}

#if defined(__cpp_exceptions)
/// The same, which throw bad_key.
///
///     std::uint64_t number = gearlongan::tag(gearlongan::key(5), 7);
///     assert(gearlongan::untag(number).key == gearlongan::key(5) && gearlongan::untag(number).tag == 7);
[[nodiscard]] inline std::uint64_t tag(key of, std::uint8_t with) {
    std::uint64_t number = 0;
    detail::check(try_tag(of, with, number));
    return number;
}
[[nodiscard]] inline tagged_key untag(std::uint64_t number) {
    tagged_key both;
    detail::check(try_untag(number, both));
    return both;
}
#endif

} // namespace gearlongan

/// The hash of a key, for std::unordered_map and std::unordered_set.
template <> struct std::hash<gearlongan::key> {
    [[nodiscard]] std::size_t operator()(gearlongan::key of) const noexcept {
        return std::hash<std::uint64_t>{}(of.number());
    }
};
template <class R> struct std::hash<gearlongan::key_of<R>> {
    [[nodiscard]] std::size_t operator()(gearlongan::key_of<R> of) const noexcept {
        return std::hash<std::uint64_t>{}(of.number());
    }
};

#endif
