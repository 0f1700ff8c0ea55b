// What the classes with a handle of shardheap.h have in common. A part of shardheap.hpp, which says what holds of all.
#ifndef GEARLONGAN_HANDLES_HPP
#define GEARLONGAN_HANDLES_HPP

#include "gearlongan/errors.hpp"
#include "shardheap_table.h"

#include <cstdint>
#include <utility>

namespace gearlongan {

namespace detail {

inline std::uint32_t begin(shardheap *handle) noexcept { return shardheap_begin_heap(handle); }
inline std::uint32_t begin(shardheap_pass *handle) noexcept { return shardheap_begin_pass(handle); }
inline std::uint32_t begin(shardheap_receipt *handle) noexcept { return shardheap_begin_receipt(handle); }
inline std::uint32_t begin(shardheap_table *handle) noexcept { return shardheap_table_begin(handle); }
inline void settle(shardheap *handle) noexcept { shardheap_settle_heap(handle, SHARDHEAP_OK); }
inline void settle(shardheap_pass *handle) noexcept { shardheap_settle_pass(handle, SHARDHEAP_OK); }
inline void settle(shardheap_receipt *handle) noexcept { shardheap_settle_receipt(handle, SHARDHEAP_OK); }
inline void settle(shardheap_table *handle) noexcept {
    shardheap_settle(handle, handle->full, &handle->seal, SHARDHEAP_OK);
}

// Moves what is in a handle to one that is empty. In checked mode a handle that another call uses stays as it is.
template <class Handle> void shift(Handle &from, Handle &to) noexcept {
    if (begin(&from) != SHARDHEAP_OK) return;
    to.at = std::exchange(from.at, nullptr);
    to.full = std::exchange(from.full, false);
    to.seal.mark = from.seal.mark;
    settle(&to);
    settle(&from);
}

inline void close(shardheap *handle) noexcept { shardheap_close(handle); }
inline void close(shardheap_receipt *handle) noexcept { shardheap_receipt_close(handle); }
inline void close(shardheap_table *handle) noexcept { shardheap_table_close(handle); }

/// What a heap, a growing heap, a receipt and a table have in common: a handle that can be moved, and closes itself.
template <class Handle> class owned {
public:
    owned(const owned &) = delete;
    owned &operator=(const owned &) = delete;

    /// Whether there is something here: false if it is empty.
    [[nodiscard]] explicit operator bool() const noexcept { return raw_.full; }

    /// The handle, for a call of shardheap.h that this header does not have. It stays the property of this object.
    [[nodiscard]] Handle *raw() noexcept { return &raw_; }
    [[nodiscard]] const Handle *raw() const noexcept { return &raw_; }

    /// Empties the object, as its destructor does.
    ///
    ///     gearlongan::receipt receipt = pass.receipt();
    ///     receipt.close();
    ///     heap.close();
    ///     assert(!receipt && !heap);
    void close() noexcept { detail::close(&raw_); }

protected:
    owned() noexcept = default;
    owned(owned &&other) noexcept { shift(other.raw_, raw_); }
    owned &operator=(owned &&other) noexcept {
        if (this == &other) return *this;
        close();
        shift(other.raw_, raw_);
        return *this;
    }
    ~owned() { close(); }

    // The same for calls of C that change the handle only until they return.
    [[nodiscard]] Handle *handle() const noexcept { return &raw_; }

private:
    mutable Handle raw_ = SHARDHEAP_INIT;
};

} // namespace detail

} // namespace gearlongan

#endif
