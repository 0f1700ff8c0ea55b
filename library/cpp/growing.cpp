// Heaps that grow: values of several chunks, receipts, callers that come home, and threads.
#include "check.hpp"

#include <atomic>
#include <cstdint>
#include <thread>
#include <utility>
#include <vector>

namespace {

constexpr std::uint64_t chunk = 384;
#ifdef FEWER_ROUNDS
constexpr int looks = 100;
#else
constexpr int looks = 20000;
#endif

// At most three chunks, each of a shard of one segment.
gearlongan::growing_heap three_chunks(std::uint32_t passes) {
    return gearlongan::growing_heap::open({1, chunk, 1, passes}, 3);
}

std::vector<gearlongan::key> stored(gearlongan::caller &caller, std::uint64_t from, std::uint64_t count) {
    std::vector<gearlongan::key> keys;
    for (std::uint64_t n = from; n < from + count; n++) keys.push_back(caller.insert({n}));
    return keys;
}

} // namespace

TEST(a_growing_heap_is_opened) {
    gearlongan::growing_heap heap;
    CHECK(!heap && heap.chunks() == 0 && heap.passes() == 0 && heap.capacity(1) == 0 && heap.bytes() == 0);
    THROWS(heap.layout_of(), empty);
    IS(heap.try_open({0, 1, 1, 1}, 1), bad_shape);
    IS(heap.try_open({1, 1, 17, 1}, 1), bad_shape);
    IS(heap.try_open({1, 1, 1, 65}, 1), bad_shape);
    IS(heap.try_open({1, 1, 1, 1}, 0), bad_shape);
    IS(heap.try_open({1, 1, 1, 1}, 257), bad_shape);
    IS(heap.try_open({1, 1, 1, 2}, 256), ok);
    IS(heap.try_open({1, 1, 1, 2}, 256), occupied);
    CHECK(heap && heap.chunks() == 1 && heap.passes() == 2);
    // one segment: 8 pages of 195 words, with slots for 48 values of one word, and two words of the shard
    CHECK(heap.capacity(1) == chunk && heap.capacity(17) == 0 && heap.bytes() == (8 * 195 + 2) * 8);
    CHECK(heap.layout_of() == gearlongan::layout::growing);
    THROWS(gearlongan::growing_heap::open({1, 1, 1, 1}, 0), bad_shape);
}

TEST(inserts_open_chunks) {
    auto heap = three_chunks(2);
    auto caller = heap.take(), other = heap.take();
    for (std::uint64_t n = 0; n < 3; n++) {
        const auto keys = stored(caller, n * chunk, chunk);
        CHECK(heap.chunks() == n + 1);
        for (std::uint64_t at = 0; at < chunk; at++) CHECK((*other.load(keys[at]))[0] == n * chunk + at);
        auto guard = other.get(keys[0]);
        CHECK(caller.remove(keys[0]) && guard.read()[0] == n * chunk);
        guard.reset();
        CHECK(!other.load(keys[0]));
    }
    CHECK(stored(caller, 5000, 3).size() == 3);
    THROWS(caller.insert({7}), full);
    IS(caller.try_collect(), ok);
    IS(caller.try_leave(), ok);
    IS(caller.try_leave(), ok);
}

TEST(callers_leave_and_collect) {
    auto heap = three_chunks(2);
    auto caller = heap.take(), other = heap.take();
    const auto keys = stored(caller, 0, chunk);
    for (const auto it : keys) CHECK(other.remove(it));
    caller.collect();
    CHECK(stored(caller, 0, chunk).size() == chunk && heap.chunks() == 1);
    caller.leave();
    caller.leave();
    CHECK(other.load(caller.insert({7}))->front() == 7);
    gearlongan::caller none;
    THROWS(none.leave(), empty);
    THROWS(none.collect(), empty);
}

TEST(callers_leave_what_is_idle) {
    auto heap = gearlongan::growing_heap::open({1, chunk, 1, 2}, 1);
    auto caller = heap.take(), other = heap.take();
    (void)caller.insert({7});
    THROWS(other.insert({8}), no_shard);
    caller.leave_idle();
    (void)other.insert({8});
    IS(other.try_leave_idle(), ok);
    (void)caller.insert({9});
    gearlongan::caller none;
    THROWS(none.leave_idle(), empty);
}

// The hold is in the second chunk, and the first call there is by the hold.
TEST(callers_keep_their_holds) {
    auto heap = three_chunks(1);
    gearlongan::key held;
    {
        auto caller = heap.take();
        held = stored(caller, 0, chunk + 1).back();
        (void)caller.get(held).detach();
        CHECK(caller.remove(held));
    }
    auto caller = heap.take();
    IS(caller.try_release(held), ok);
    IS(caller.try_release(held), not_held);
}

TEST(callers_heed_receipts) {
    auto heap = three_chunks(2);
    auto caller = heap.take(), other = heap.take();
    const auto keys = stored(caller, 0, chunk + 1);
    gearlongan::receipt receipt = caller.receipt();
    IS(caller.try_receipt(receipt), occupied);
    other.heed(std::move(receipt));
    CHECK(other.load(keys.back())->front() == chunk && !receipt); // NOLINT(bugprone-use-after-move)
    CHECK(other.remove(keys.front()));
    receipt = other.receipt();
    IS(caller.try_heed(receipt), ok);
    CHECK(!caller.load(keys.front()) && !receipt);
    IS(caller.try_heed(receipt), empty);
    CHECK(stored(caller, 5000, 1).size() == 1 && heap.chunks() == 2);
}

TEST(a_receipt_of_another_growing_heap_orders_nothing) {
    auto heap = three_chunks(1), second = three_chunks(1);
    auto caller = heap.take(), elsewhere = second.take();
    const auto key = caller.insert({7});
    gearlongan::receipt receipt = elsewhere.receipt();
    IS(caller.try_heed(receipt), ok);
    CHECK(stored(elsewhere, 0, chunk + 1).size() == chunk + 1);
    receipt = elsewhere.receipt();
    IS(caller.try_heed(receipt), taken);
    CHECK(!receipt && heap.chunks() == 1);
    THROWS(caller.heed(elsewhere.receipt()), taken);
    CHECK(caller.load(key)->front() == 7);
}

TEST(callers_move_and_come_home) {
    auto heap = three_chunks(1);
    {
        auto caller = heap.take();
        const auto key = caller.insert({7});
        gearlongan::caller moved = std::move(caller);
        CHECK(moved && (*moved.load(key))[0] == 7);
        THROWS(heap.take(), no_pass);
    }
    auto caller = heap.take();
    auto other = std::move(heap);
    CHECK(other.chunks() == 1);
    other.close();
    CHECK(caller.insert({8}).number() != 0);
    caller.close();
    CHECK(!caller);
}

// (See cpp_sanitized in tests.sh.)
#ifndef ONE_THREAD_GROWS
// Threads look at one object while another takes callers of it. The room is never less than before.
TEST(threads_look_at_a_growing_heap) {
    auto heap = gearlongan::growing_heap::open({1, chunk, 1, 2}, 64);
    std::atomic<int> looking{3};
    std::vector<std::thread> threads;
    for (int n = 0; n < 3; n++)
        threads.emplace_back([&looking, &looked_at = std::as_const(heap)]() {
            std::uint64_t chunks = 1, capacity = chunk, bytes = chunk * 65 / 2;
            for (int look = 0; look < looks; look++) {
                const auto found = looked_at.capacity(1), taken = looked_at.bytes(), open = looked_at.chunks();
                CHECK(found >= capacity && found % chunk == 0 && taken >= bytes && open >= chunks);
                chunks = open, capacity = found, bytes = taken;
            }
            looking--;
        });
    for (std::uint64_t n = 0; n < 4 || looking > 0; n++) {
        auto caller = heap.take();
        const auto keys = stored(caller, 0, chunk);
        for (std::size_t at = n < 4 ? chunk : 0; at < chunk; at++) CHECK(caller.remove(keys[at]));
    }
    for (auto &it : threads) it.join();
    CHECK(heap.chunks() >= 4 && heap.capacity(1) >= 4 * chunk);
}

TEST(threads_fill_a_growing_heap) {
    constexpr std::uint64_t each = 2000;
    auto heap = gearlongan::growing_heap::open({1, 1, 1, 4}, 256);
    std::vector<std::vector<gearlongan::key>> keys(4);
    std::vector<std::thread> threads;
    for (std::size_t n = 0; n < 4; n++)
        threads.emplace_back([&mine = keys[n], n, caller = heap.take()]() mutable {
            mine = stored(caller, n * each, each);
        });
    for (auto &it : threads) it.join();
    auto caller = heap.take();
    for (std::size_t n = 0; n < 4; n++)
        for (std::uint64_t at = 0; at < each; at++) {
            CHECK((*caller.load(keys[n][at]))[0] == n * each + at);
            CHECK(caller.remove(keys[n][at]) && !caller.load(keys[n][at]));
        }
}
#endif
