// Passes, shards, guards and heaps that move from thread to thread.
#include "check.hpp"

#include <array>
#include <atomic>
#include <functional>
#include <thread>
#include <vector>

using gearlongan::errc;
using gearlongan::layout;

namespace {

#ifdef FEWER_ROUNDS
constexpr std::uint64_t rounds = 2000;
#else
constexpr std::uint64_t rounds = 30000;
#endif

// A ring of keys from one thread to another.
class ring {
public:
    void put(gearlongan::key key) {
        while (put_ - taken_.load() == keys_.size()) std::this_thread::yield();
        keys_[put_ % keys_.size()] = key;
        stored_.store(++put_);
    }
    gearlongan::key take() {
        const std::uint64_t at = taken_.load();
        while (stored_.load() == at) std::this_thread::yield();
        const auto key = keys_[at % keys_.size()];
        taken_.store(at + 1);
        return key;
    }

private:
    std::uint64_t put_ = 0;
    std::atomic<std::uint64_t> stored_{0}, taken_{0};
    std::array<gearlongan::key, 64> keys_{};
};

std::uint64_t word(std::uint64_t round, std::size_t at) { return (round * 31 + at) * 0x9e3779b97f4a7c15U; }

gearlongan::value value_of(std::uint64_t round) {
    gearlongan::value value;
    IS(value.try_assign({std::array<std::uint64_t, 16>{}.data(), round % 17}), ok);
    for (std::size_t at = 0; at < value.size(); at++) value[at] = word(round, at);
    return value;
}

// Inserts, and gives its shard and its pass away now and then.
void produces(gearlongan::heap heap, std::uint64_t number, ring &to) {
    auto shard = heap.take().adopt(number);
    for (std::uint64_t round = 0; round < rounds; round++) {
        gearlongan::key key;
        errc code;
        while ((code = shard.try_insert(value_of(round), key)) == errc::full) std::this_thread::yield();
        IS(code, ok);
        to.put(key);
        if (round % 1024 != 1023) continue;
        gearlongan::pass pass;
        while ((code = shard.try_leave(pass)) == errc::waiting) std::this_thread::yield();
        IS(code, ok);
        pass.close();
        shard = heap.take().adopt(number);
    }
}

// Holds, reads and removes what was inserted.
void consumes(gearlongan::pass pass, ring &from) {
    for (std::uint64_t round = 0; round < rounds; round++) {
        const auto key = from.take();
        auto guard = pass.get(key);
        if (round % 2 == 1) CHECK(pass.remove(key));
        CHECK(guard.read() == value_of(round));
        guard.reset();
        if (round % 2 == 0) CHECK(pass.remove(key));
        CHECK(!pass.load(key) && !pass.find(key));
    }
}

} // namespace

TEST(producers_and_consumers) {
    constexpr std::uint64_t pairs = 2;
    auto heap = gearlongan::heap::open(layout::wide, {pairs, 4, 2 * pairs});
    std::array<ring, pairs> rings;
    std::vector<std::thread> threads;
    for (std::uint64_t pair = 0; pair < pairs; pair++) {
        threads.emplace_back(produces, heap.share(), pair, std::ref(rings[pair]));
        threads.emplace_back(consumes, heap.take(), std::ref(rings[pair]));
    }
    for (std::thread &it : threads) it.join();
    heap.gather(); // all passes are at home
    CHECK(heap.totals().live == 0 && heap.totals().marked == 0);
}

// A guard goes to another thread with its pass, which stays where it is.
TEST(a_guard_crosses_threads) {
    auto heap = gearlongan::heap::open(layout::wide, {1, 1, 2});
    auto shard = heap.take().adopt(0);
    auto pass = heap.take();
    const auto key = shard.insert({7, 8});
    auto guard = pass.get(key);
    std::thread([&shard, key]() { CHECK(shard.remove(key)); }).join();
    std::thread([held = std::move(guard)]() mutable {
        CHECK(held.read()[1] == 8);
        held.reset();
    }).join();
    CHECK(!pass.load(key));
    IS(pass.try_release(key), not_held);
}

// Each key is removed by exactly one of the threads that try.
TEST(one_remover) {
    constexpr std::size_t removers = 3, keys = 1000;
    auto heap = gearlongan::heap::open(layout::wide, {1, 4, removers + 1});
    auto shard = heap.take().adopt(0);
    std::vector<gearlongan::key> all;
    for (std::size_t at = 0; at < keys; at++) all.push_back(shard.insert_record(at));
    std::atomic<std::size_t> removed{0};
    std::vector<std::thread> threads;
    for (std::size_t at = 0; at < removers; at++)
        threads.emplace_back([&all, &removed, pass = heap.take()]() mutable {
            for (const auto &key : all)
                if (pass.remove(key)) removed++;
        });
    for (std::thread &it : threads) it.join();
    CHECK(removed == keys);
}

// Threads take passes of one heap object, and others look at it meanwhile.
TEST(threads_share_a_heap) {
    constexpr int takers = 4, lookers = 2;
    auto heap = gearlongan::heap::open(layout::wide, {takers, 1, 2});
    const gearlongan::heap &looked_at = heap;
    std::atomic<int> ran{0};
    std::vector<std::thread> threads;
    for (std::uint64_t at = 0; at < takers; at++)
        threads.emplace_back([&, at]() {
            for (int round = 0; round < 200; round++) {
                gearlongan::pass pass;
                while (!pass) {
                    const errc code = heap.try_take(pass);
                    CHECK(code == errc::ok || code == errc::no_pass);
                }
                auto shard = std::move(pass).adopt(at);
                CHECK(shard.remove(shard.insert({at})));
                CHECK(heap.share().passes() == 2);
                ran++;
            }
        });
    for (int at = 0; at < lookers; at++)
        threads.emplace_back([&]() {
            while (ran < takers * 200) {
                CHECK(looked_at && looked_at.passes() == 2 && looked_at.layout_of() == layout::wide);
                CHECK(looked_at.capacity(1) == 4 * 384 && looked_at.bytes() == 4 * (8 * 195 + 2) * 8);
            }
        });
    for (std::thread &it : threads) it.join();
    heap.gather();
    CHECK(ran == takers * 200 && heap.totals().live == 0);
}
