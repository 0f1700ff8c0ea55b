// What checked mode finds of handles that move.
#include <cstdint>

namespace {
std::uint32_t misuses, last_misuse;
void misused(std::uint32_t code) {
    misuses++;
    last_misuse = code;
}
} // namespace

#define SHARDHEAP_CHECKED
#define SHARDHEAP_ON_MISUSE(code) misused(code)
#include "check.hpp"

#include <cstring>
#include <utility>
#include <vector>

using gearlongan::errc;
using gearlongan::layout;

namespace {

bool reported(std::uint32_t code, std::uint32_t times = 1) {
    const bool right = misuses == times && (times == 0 || last_misuse == code);
    misuses = 0;
    return right;
}

} // namespace

TEST(a_move_is_no_copy) {
    auto heap = gearlongan::heap::open(layout::wide, {2, 1, 2});
    auto elsewhere = std::move(heap);
    std::vector<gearlongan::pass> passes;
    passes.push_back(elsewhere.take());
    passes.push_back(elsewhere.take()); // the first is moved as the vector grows
    auto shard = std::move(passes[0]).adopt(0);
    auto other = std::move(shard);
    const auto key = other.insert({7});
    CHECK(passes[1].load(key)->front() == 7 && other.remove(key));
    passes[0] = std::move(other).leave();
    std::swap(passes[0], passes[1]);
    passes.clear();
    heap = std::move(elsewhere);
    CHECK(heap.take() && heap.passes() == 2);
    CHECK(reported(0, 0));
}

TEST(keys_of_another_heap) {
    auto heap = gearlongan::heap::open(layout::wide, {1, 1, 2});
    auto other = gearlongan::heap::open(layout::wide, {1, 1, 1});
    auto shard = heap.take().adopt(0);
    auto moved = std::move(shard);
    auto pass = heap.take(), elsewhere = other.take();
    const auto key = moved.insert({7});
    THROWS(elsewhere.load(key), other_heap);
    CHECK(reported(SHARDHEAP_OTHER_HEAP));
    CHECK(pass.load(key) && reported(0, 0));
}

TEST(receipts_of_another_heap) {
    auto heap = gearlongan::heap::open(layout::wide, {1, 1, 2});
    auto other = gearlongan::heap::open(layout::wide, {1, 1, 1});
    auto pass = heap.take(), elsewhere = other.take();
    auto receipt = pass.receipt();
    std::vector<gearlongan::receipt> moved; // each is sealed at its new place, and has the number of its heap
    moved.push_back(std::move(receipt));
    moved.push_back(pass.receipt());
    IS(elsewhere.try_heed(moved[0]), other_heap);
    CHECK(reported(SHARDHEAP_OTHER_HEAP) && moved[0]);
    THROWS(elsewhere.heed(std::move(moved[1])), other_heap);
    CHECK(reported(SHARDHEAP_OTHER_HEAP) && moved[1]);
    auto same = heap.take();
    IS(same.try_heed(moved[0]), ok);
    IS(pass.try_heed(moved[1]), ok);
    // An object that held one takes that of another heap.
    moved[0] = elsewhere.receipt();
    IS(pass.try_heed(moved[0]), other_heap);
    CHECK(reported(SHARDHEAP_OTHER_HEAP));
    IS(elsewhere.try_heed(moved[0]), ok);
    CHECK(reported(0, 0));
}

TEST(keys_that_are_listed) {
    auto heap = gearlongan::heap::open(layout::wide, {1, 1, 1});
    auto other = gearlongan::heap::open(layout::wide, {1, 1, 1});
    auto shard = heap.take().adopt(0), elsewhere = other.take().adopt(0);
    const auto key = shard.insert({7});
    THROWS(elsewhere.take(key), other_heap);
    CHECK(reported(SHARDHEAP_OTHER_HEAP));
    CHECK(shard.walk().begin()->key == key);
    shard.close();
    int found = 0;
    for (const auto it : heap.keys()) found += it == key; // it has the number of its heap
    CHECK(found == 1 && heap.take().take(key)->front() == 7);
    CHECK(reported(0, 0));
}

TEST(a_guarded_pass_stays) {
    auto heap = gearlongan::heap::open(layout::wide, {2, 1, 2});
    auto shard = heap.take().adopt(0);
    auto pass = heap.take();
    const auto key = shard.insert({7});
    auto guard = pass.get(key);
    auto moved = std::move(pass);
    CHECK(reported(SHARDHEAP_BUSY) && pass && !moved); // NOLINT(bugprone-use-after-move)
    moved = std::move(pass);
    CHECK(reported(SHARDHEAP_BUSY) && pass && !moved); // NOLINT(bugprone-use-after-move)
    IS(pass.try_adopt(1, shard), occupied);
    gearlongan::shard owner;
    IS(pass.try_adopt(1, owner), busy);
    CHECK(reported(SHARDHEAP_BUSY) && pass && !owner);
    auto other = shard.get(key);
    gearlongan::pass left;
    IS(shard.try_leave(left), busy);
    CHECK(reported(SHARDHEAP_BUSY) && shard && !left);
    // Guards that moved, ended or left their hold behind count once.
    auto held = std::move(guard);
    guard = std::move(held);
    guard.reset();
    const auto left_behind = other.detach();
    moved = std::move(pass);
    IS(shard.try_leave(left), ok);
    IS(left.try_release(left_behind), ok);
    CHECK(moved && left && reported(0, 0));
}

TEST(a_guarded_pass_that_is_closed) {
    auto heap = gearlongan::heap::open(layout::wide, {1, 1, 2});
    auto shard = heap.take().adopt(0);
    auto pass = heap.take();
    auto guard = pass.get(shard.insert({7}));
    pass.close();
    CHECK(reported(SHARDHEAP_BUSY) && !pass);
    guard.reset();
    CHECK(reported(0, 0));
}

TEST(bytes_that_were_copied) {
    auto heap = gearlongan::heap::open(layout::wide, {1, 1, 1});
    auto pass = heap.take();
    shardheap_pass copy;
    std::memcpy(&copy, pass.raw(), sizeof copy);
    CHECK(shardheap_give(&copy) == SHARDHEAP_MOVED && reported(SHARDHEAP_MOVED));
    auto moved = std::move(pass); // it is sealed at its new place
    std::memcpy(&copy, moved.raw(), sizeof copy);
    CHECK(shardheap_give(&copy) == SHARDHEAP_MOVED && reported(SHARDHEAP_MOVED));
    auto elsewhere = std::move(heap);
    shardheap other;
    std::memcpy(&other, elsewhere.raw(), sizeof other);
    CHECK(shardheap_gather(&other) == SHARDHEAP_MOVED && reported(SHARDHEAP_MOVED));
    auto receipt = moved.receipt();
    auto second = std::move(receipt);
    shardheap_receipt bytes;
    std::memcpy(&bytes, second.raw(), sizeof bytes);
    CHECK(shardheap_heed(moved.raw(), &bytes) == SHARDHEAP_MOVED && reported(SHARDHEAP_MOVED));
}

int main(int argc, char **argv) { return run_tests(argc, argv); }
