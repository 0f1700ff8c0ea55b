// Errors: the codes of shardheap.h, as std::error_code and as an exception. A part of shardheap.hpp, which says what
// holds of all.
#ifndef GEARLONGAN_ERRORS_HPP
#define GEARLONGAN_ERRORS_HPP

#include "shardheap.h"

#include <cstdint>
#include <string>
#include <system_error>
#include <type_traits>

namespace gearlongan {

/// What a call of the form `try_..` returns: the codes of shardheap.h, with their numbers. It converts to a
/// std::error_code.
///
///     std::error_code code = pass.try_remove(key);
///     assert(!code);
///     code = pass.try_remove(key);
///     assert(code == gearlongan::errc::gone);
enum class [[nodiscard]] errc : std::uint32_t {
    ok = SHARDHEAP_OK,
    bad_key = SHARDHEAP_BAD_KEY,
    gone = SHARDHEAP_GONE,
    crowded = SHARDHEAP_CROWDED,
    holds_full = SHARDHEAP_HOLDS_FULL,
    not_held = SHARDHEAP_NOT_HELD,
    too_long = SHARDHEAP_TOO_LONG,
    full = SHARDHEAP_FULL,
    memory = SHARDHEAP_MEMORY,
    taken = SHARDHEAP_TAKEN,
    no_shard = SHARDHEAP_NO_SHARD,
    waiting = SHARDHEAP_WAITING,
    bad_shape = SHARDHEAP_BAD_SHAPE,
    empty = SHARDHEAP_EMPTY,
    occupied = SHARDHEAP_OCCUPIED,
    no_pass = SHARDHEAP_NO_PASS,
    too_short = SHARDHEAP_SHORT,
    null = SHARDHEAP_NULL,
    bad_layout = SHARDHEAP_BAD_LAYOUT,
    owns = SHARDHEAP_OWNS,
    away = SHARDHEAP_AWAY,
    no_page = SHARDHEAP_NO_PAGE,
    overlap = SHARDHEAP_OVERLAP,
    no_handle = SHARDHEAP_NO_HANDLE,
    moved = SHARDHEAP_MOVED,
    busy = SHARDHEAP_BUSY,
    other_heap = SHARDHEAP_OTHER_HEAP,
    no_key = SHARDHEAP_NO_KEY,
    no_place = SHARDHEAP_NO_PLACE,
    wrong_size = 1000, ///< of this header alone: the value has another number of words than the record
};

namespace detail {

class category final : public std::error_category {
public:
    const char *name() const noexcept override { return "gearlongan"; }
    std::string message(int code) const override {
        if (static_cast<errc>(code) == errc::wrong_size) return "WrongSize";
        return shardheap_name(static_cast<std::uint32_t>(code));
    }
    std::error_condition default_error_condition(int code) const noexcept override {
        switch (static_cast<errc>(code)) {
        case errc::memory: return std::errc::not_enough_memory;
        case errc::waiting: return std::errc::resource_unavailable_try_again;
        case errc::too_long: return std::errc::message_size;
        case errc::bad_shape:
        case errc::bad_layout:
        case errc::bad_key: return std::errc::invalid_argument;
        default: return {code, *this};
        }
    }
};

} // namespace detail

/// The category of these codes, whose name is "gearlongan". The message of a code is its name in shardheap.h.
[[nodiscard]] inline const std::error_category &error_category() noexcept {
    static const detail::category only;
    return only;
}

[[nodiscard]] inline std::error_code make_error_code(errc of) noexcept {
    return {static_cast<int>(of), error_category()};
}

} // namespace gearlongan

template <> struct std::is_error_code_enum<gearlongan::errc> : std::true_type {};

namespace gearlongan {

#if defined(__cpp_exceptions)
/// What the calls throw. A refusal of memory is one too, and no std::bad_alloc.
///
///     try {
///         pass.get(key).reset();
///     } catch (const gearlongan::error &refused) {
///         if (refused.reason() != gearlongan::errc::gone) throw;
///     }
class error : public std::system_error {
public:
    explicit error(errc of) : std::system_error(make_error_code(of)) {}
    [[nodiscard]] errc reason() const noexcept { return static_cast<errc>(code().value()); }
};

namespace detail {

[[noreturn, gnu::cold, gnu::noinline]] inline void refuse(errc of) { throw error(of); }

inline void check(errc of) {
    if (of != errc::ok) refuse(of);
}

// Whether the key was there. Another refusal is thrown.
inline bool found(errc of) {
    if (of != errc::gone) check(of);
    return of == errc::ok;
}

} // namespace detail
#endif

} // namespace gearlongan

#endif
