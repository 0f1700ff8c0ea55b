// Receipts. A part of shardheap.hpp, which says what holds of all.
#ifndef GEARLONGAN_RECEIPTS_HPP
#define GEARLONGAN_RECEIPTS_HPP

#include "gearlongan/handles.hpp"

namespace gearlongan {

/// What a pass did until it made this receipt. A pass of the same heap heeds it: then all that it covers happens before
/// the next calls of that pass. A receipt orders no threads. It goes to another thread by whatever orders the two, and
/// may outlive its pass and its heap. One that is closed is heeded by no pass.
///
///     gearlongan::receipt receipt = shard.receipt();    // it goes to another thread with the key
///     pass.heed(std::move(receipt));                    // there, before the load
///     assert(pass.load(key) && !receipt);
class [[nodiscard]] receipt : public detail::owned<shardheap_receipt> {
public:
    constexpr receipt() noexcept {}
};

} // namespace gearlongan

#endif
