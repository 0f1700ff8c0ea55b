// Values that one call of several takes, receipts, the keys of a gathered heap, and how full a shard is. A part of the
// program `tests`.
#include "check.hpp"

#include <algorithm>
#include <array>
#include <atomic>
#include <iterator>
#include <set>
#include <string>
#include <thread>
#include <type_traits>
#include <utility>
#include <vector>

using gearlongan::errc;
using gearlongan::layout;

namespace {

#ifdef FEWER_ROUNDS
constexpr std::uint64_t rounds = 1000;
#else
constexpr std::uint64_t rounds = 10000;
#endif

using pair = std::array<std::uint64_t, 2>;

// All keys of a heap by the call with a place, which ends with no_key and changes nothing then.
std::vector<gearlongan::key> by_places(gearlongan::heap &heap) {
    std::vector<gearlongan::key> keys;
    std::uint64_t place = 0, before = 0;
    gearlongan::key key(99);
    while (heap.try_next_key(place, key) == errc::ok) {
        CHECK(place > before);
        before = place;
        keys.push_back(key);
    }
    const gearlongan::key last = key;
    IS(heap.try_next_key(place, key), no_key);
    CHECK(place == before && key == last);
    return keys;
}

std::vector<gearlongan::key> by_range(gearlongan::heap &heap) {
    std::vector<gearlongan::key> keys;
    for (const gearlongan::key it : heap.keys()) keys.push_back(it);
    return keys;
}

} // namespace

TEST(values_are_taken_once) {
    auto heap = gearlongan::heap::open(layout::wide, {1, 1, 2});
    auto shard = heap.take().adopt(0);
    auto pass = heap.take();
    const auto key = shard.insert({7, 8}), second = shard.insert({9}), third = shard.insert({});
    gearlongan::value value{5};
    CHECK(*pass.take(key) == gearlongan::value({7, 8}));
    CHECK(!pass.take(key) && !shard.take(key) && !pass.remove(key) && !pass.load(key));
    CHECK(!pass.take(key, value) && value == gearlongan::value({5}));
    IS(pass.try_take(key, value), gone);
    CHECK(value == gearlongan::value({5}));
    CHECK(shard.take(second, value) && value == gearlongan::value({9}));
    IS(shard.try_take(third, value), ok);
    CHECK(value.empty() && shard.slots_out() == 1);
    shard.collect();
    CHECK(shard.slots_out() == 0);
}

TEST(a_taken_value_stays_for_guards) {
    auto heap = gearlongan::heap::open(layout::wide, {1, 1, 2});
    auto shard = heap.take().adopt(0);
    auto pass = heap.take();
    const auto key = shard.insert({7, 8});
    auto guard = pass.get(key);
    CHECK(shard.take(key)->back() == 8 && guard.read()[0] == 7);
    IS(shard.try_release(key), not_held);
    guard.reset();
    IS(pass.try_release(key), not_held);
}

TEST(records_are_taken) {
    auto heap = gearlongan::heap::open(layout::wide, {1, 1, 1});
    auto shard = heap.take().adopt(0);
    const auto key = shard.insert_record(pair{7, 8}), word = shard.insert_record(1.5), next = shard.insert({3, 4});
    pair read{1, 2};
    double real = 0;
    // Those of another size stay: a longer one and a shorter one.
    IS(shard.try_take_record(key, real), wrong_size);
    IS(shard.try_take_record(word, read), wrong_size);
    THROWS(shard.take_record<double>(key), wrong_size);
    THROWS(shard.take_record<pair>(word), wrong_size);
    CHECK(read[0] == 1 && read[1] == 2 && real == 0 && shard.slots_out() == 3);
    IS(shard.try_take_record(key, read), ok);
    CHECK(read[0] == 7 && read[1] == 8 && *shard.take_record<double>(word) == 1.5);
    CHECK(shard.take_record<pair>(next)->at(1) == 4 && shard.slots_out() == 0);
    IS(shard.try_take_record(key, read), gone);
    CHECK(read[0] == 7 && !shard.take_record<pair>(key) && !shard.load(key) && !shard.remove(word));
}

TEST(takes_that_are_refused) {
    auto heap = gearlongan::heap::open(layout::wide, {1, 1, 1});
    auto shard = heap.take().adopt(0);
    const auto key = shard.insert({7});
    const gearlongan::key none(key.number() | ((std::uint64_t{1} << 56) - 1));
    gearlongan::value value{9};
    std::uint64_t word = 5;
    THROWS(shard.take(none), bad_key);
    THROWS(shard.take(none, value), bad_key);
    THROWS(shard.take_record<std::uint64_t>(none), bad_key);
    IS(shard.try_take(none, value), bad_key);
    IS(shard.try_take_record(none, word), bad_key);
    std::vector<gearlongan::guard> all;
    for (int at = 0; at < 16; at++) all.push_back(shard.get(key));
    THROWS(shard.take(key), holds_full);
    IS(shard.try_take(key, value), holds_full);
    CHECK(value == gearlongan::value({9}) && shard.load(key));
    IS(shard.try_take_record(key, word), ok); // a load and a removal, neither of which needs room for a hold
    CHECK(word == 7 && !shard.load(key));
    all.clear();

    auto tiny = gearlongan::heap::open(layout::tiny, {1, 1, 1});
    auto small = tiny.take().adopt(0);
    const auto crowded = small.insert({7});
    for (int at = 0; at < 4; at++) all.push_back(small.get(crowded));
    THROWS(small.take(crowded), crowded);
    IS(small.try_take(crowded, value), crowded);
    CHECK(value == gearlongan::value({9}));
    all.clear();
    CHECK(small.take(crowded));
}

TEST(receipts_move) {
    auto heap = gearlongan::heap::open(layout::wide, {1, 1, 2});
    auto pass = heap.take(), other = heap.take();
    auto receipt = pass.receipt();
    CHECK(receipt && receipt.raw()->full);
    IS(pass.try_receipt(receipt), occupied);
    gearlongan::receipt &same = receipt;
    receipt = std::move(same);
    CHECK(receipt);
    auto moved = std::move(receipt);
    CHECK(moved && !receipt); // NOLINT(bugprone-use-after-move)
    IS(other.try_receipt(receipt), ok);
    receipt = std::move(moved); // the one of `other` ends
    CHECK(receipt && !moved);   // NOLINT(bugprone-use-after-move)
    std::vector<gearlongan::receipt> many;
    for (int at = 0; at < 100; at++) many.push_back(pass.receipt());
    for (auto &it : many) IS(other.try_heed(it), ok);
    for (auto &it : many) CHECK(!it);
    std::swap(receipt, moved);
    CHECK(moved && !receipt);
    moved.close();
    CHECK(!moved);
    moved.close();
}

TEST(receipts_are_heeded) {
    auto heap = gearlongan::heap::open(layout::wide, {2, 1, 2});
    auto shard = heap.take().adopt(0);
    auto pass = heap.take();
    gearlongan::receipt none;
    IS(pass.try_heed(none), empty);
    THROWS(pass.heed(std::move(none)), empty);
    const auto key = shard.insert({7});
    auto receipt = shard.receipt();
    IS(pass.try_heed(receipt), ok);
    CHECK(!receipt);
    IS(pass.try_heed(receipt), empty);
    CHECK(pass.take(key));
    shard.heed(pass.receipt());
    CHECK(!shard.load(key));
    // By itself, by a pass that went to another shard, and after its pass went home and its heap was closed.
    shard.heed(shard.receipt());
    const auto next = shard.insert({8});
    receipt = shard.receipt();
    auto left = std::move(shard).leave();
    left = std::move(left).adopt(1).leave();
    left.close();
    heap.close();
    IS(left.try_heed(receipt), empty);
    CHECK(receipt);
    pass.heed(std::move(receipt));
    CHECK(pass.load(next)->front() == 8 && !receipt); // NOLINT(bugprone-use-after-move)
    receipt = pass.receipt();
    pass.close();
    CHECK(receipt);
}

TEST(what_is_empty_makes_no_receipt) {
    gearlongan::heap heap;
    gearlongan::pass pass;
    gearlongan::shard shard;
    gearlongan::receipt receipt;
    gearlongan::key key(5);
    gearlongan::value value;
    std::uint64_t place = 3, pages = 9, slots = 9;
    CHECK(!receipt);
    THROWS(pass.receipt(), empty);
    THROWS(pass.take(key), empty);
    THROWS(pass.take_record<int>(key), empty);
    THROWS(shard.pages_left(), empty);
    THROWS(shard.slots_out(), empty);
    THROWS(shard.keys().begin(), empty);
    THROWS(heap.keys().begin(), empty);
    IS(shard.try_receipt(receipt), empty);
    IS(shard.try_take(key, value), empty);
    IS(shard.try_pages_left(pages), empty);
    IS(shard.try_slots_out(slots), empty);
    IS(shard.try_next_key(place, key), empty);
    IS(heap.try_next_key(place, key), empty);
    CHECK(place == 3 && key.number() == 5 && pages == 9 && slots == 9 && value.empty() && !receipt);
}

TEST(keys_that_are_handed_over) {
    auto heap = gearlongan::heap::open_for(layout::wide, {1, 1000, 1, 2});
    struct slot {
        std::atomic<bool> full{false};
        gearlongan::key key;
        gearlongan::receipt receipt;
    };
    std::array<slot, 64> slots;
    std::thread other([&, shard = heap.take().adopt(0)]() mutable {
        for (std::uint64_t at = 0; at < rounds; at++) {
            gearlongan::key key;
            while (shard.try_insert({at}, key) == errc::full) std::this_thread::yield();
            slot &into = slots[at % slots.size()];
            while (into.full) std::this_thread::yield();
            into.key = key;
            into.receipt = shard.receipt();
            into.full = true;
        }
    });
    auto pass = heap.take();
    for (std::uint64_t at = 0; at < rounds; at++) {
        slot &from = slots[at % slots.size()];
        while (!from.full) std::this_thread::yield();
        pass.heed(std::move(from.receipt));
        CHECK(pass.take(from.key)->front() == at);
        from.full = false;
    }
    other.join();
}

TEST(each_value_goes_to_one_thread) {
    constexpr std::uint64_t many = 2000;
    auto heap = gearlongan::heap::open_for(layout::wide, {1, 2 * many, 2, 5});
    auto shard = heap.take().adopt(0);
    std::vector<gearlongan::key> keys;
    for (std::uint64_t at = 0; at < many; at++) keys.push_back(shard.insert({at, at}));
    std::vector<std::atomic<int>> owners(many);
    std::vector<std::thread> threads;
    for (int at = 0; at < 4; at++)
        threads.emplace_back([&, at, pass = heap.take()]() mutable {
            for (const auto &it : keys) {
                // (half of the threads take records)
                const auto record = at % 2 ? pass.take_record<pair>(it) : std::nullopt;
                const auto value = at % 2 ? std::nullopt : pass.take(it);
                if (record) owners[record->at(0)]++;
                if (value) owners[value->front()]++;
            }
        });
    for (auto &it : threads) it.join();
    for (const auto &it : owners) CHECK(it == 1);
}

TEST(how_full_a_shard_is) {
    auto heap = gearlongan::heap::open(layout::wide, {1, 1, 2});
    auto shard = heap.take().adopt(0);
    auto pass = heap.take();
    CHECK(shard.pages_left() == 8 && shard.slots_out() == 0);
    const auto one = shard.insert({1}), two = shard.insert({2}), three = shard.insert({1, 2, 3});
    CHECK(shard.pages_left() == 6 && shard.slots_out() == 3);
    CHECK(shard.remove(one) && pass.remove(two) && pass.remove(three));
    CHECK(shard.slots_out() == 2);
    shard.collect();
    std::uint64_t pages = 99, slots = 99;
    IS(shard.try_slots_out(slots), ok);
    IS(shard.try_pages_left(pages), ok);
    CHECK(slots == 0 && pages == shard.pages_left());
}

TEST(keys_of_a_shard) {
    for (const layout of : {layout::wide, layout::tagged, layout::deep, layout::tiny}) {
        auto heap = gearlongan::heap::open(of, {2, 2, 2});
        auto shard = heap.take().adopt(1);
        auto other = heap.take().adopt(0);
        CHECK(shard.keys().begin() == shard.keys().end());
        CHECK(other.insert({1}).number() != 0); // (a key of another shard)
        std::set<gearlongan::key> kept;
        for (std::uint64_t at = 0; at < 60; at++) {
            const auto last = at % 2 ? shard.insert({at}) : shard.insert(std::array<std::uint64_t, 16>{at});
            if (at % 3) kept.insert(last);
            else CHECK(at % 2 ? shard.remove(last) : other.remove(last));
        }
        std::set<gearlongan::key> found;
        for (const gearlongan::key it : shard.keys()) {
            CHECK(found.insert(it).second);
            CHECK(shard.load(it));
        }
        CHECK(found == kept);
        // What is removed meanwhile is not found: here each key but the first.
        auto it = shard.keys().begin();
        for (const auto &key : kept)
            if (key != *it) CHECK(other.remove(key));
        CHECK(++it == shard.keys().end());
        // A walk needs no room for a hold.
        std::vector<gearlongan::guard> guards;
        for (int at = 0; at < 4; at++) {
            const auto key = shard.insert({1});
            for (int hold = 0; hold < 4; hold++) guards.push_back(shard.get(key));
        }
        THROWS(shard.get(*shard.keys().begin()), holds_full);
        const auto keys = shard.keys();
        CHECK(std::distance(keys.begin(), keys.end()) == 5);
    }
}

TEST(keys_of_a_gathered_heap) {
    for (const layout of : {layout::wide, layout::tagged, layout::deep, layout::tiny}) {
        auto heap = gearlongan::heap::open(of, {2, 2, 2});
        auto shard = heap.take().adopt(1);
        std::set<gearlongan::key> kept;
        gearlongan::key last;
        for (std::uint64_t at = 0; at < 60; at++) {
            last = at % 2 ? shard.insert({at}) : shard.insert(std::array<std::uint64_t, 16>{at});
            if (at % 3) kept.insert(last);
            else CHECK(shard.remove(last));
        }
        std::uint64_t place = 3;
        gearlongan::key key(5);
        IS(heap.try_next_key(place, key), away);
        THROWS(heap.keys().begin(), away);
        CHECK(place == 3 && key.number() == 5);
        shard.close();
        heap.gather();
        const auto keys = by_range(heap);
        CHECK(keys == by_places(heap) && keys.size() == kept.size());
        CHECK(std::set<gearlongan::key>(keys.begin(), keys.end()) == kept);
        // The pass that is left finds them all.
        auto pass = heap.take();
        for (const auto &it : keys) CHECK(pass.load(it));
        CHECK(pass.take(keys[0]));
        THROWS(by_range(heap), away);
        pass.close();
        CHECK(by_range(heap) == std::vector<gearlongan::key>(keys.begin() + 1, keys.end()));
    }
}

TEST(a_range_of_keys) {
    auto heap = gearlongan::heap::open(layout::wide, {1, 1, 1});
    const auto none = heap.keys();
    CHECK(none.begin() == none.end() && !(none.begin() != none.end()) && by_range(heap).empty());
    auto shard = heap.take().adopt(0);
    const auto one = shard.insert({1}), two = shard.insert({2});
    shard.close();
    const auto range = heap.keys();
    auto it = range.begin();
    CHECK(it != range.end() && it == range.begin() && *it == one && it->number() == one.number());
    auto before = it++;
    CHECK(*before == one && *it == two && it != before && it != range.begin() && it != range.end());
    CHECK(++it == range.end() && it == gearlongan::key_range::iterator());
    CHECK(std::count(range.begin(), range.end(), two) == 1 && std::distance(range.begin(), range.end()) == 2);
    // A pass that is taken in the middle stops it, and the iterator goes on when it is home.
    it = range.begin();
    auto pass = heap.take();
    THROWS(++it, away);
    CHECK(*it == one);
    pass.close();
    CHECK(*++it == two);
}

TEST(the_code_of_no_key) {
    CHECK(std::error_code(errc::no_key).message() == std::string("NoKey"));
    CHECK(static_cast<std::uint32_t>(errc::no_key) == 28);
}

static_assert(std::is_nothrow_move_constructible_v<gearlongan::receipt> &&
              std::is_nothrow_move_assignable_v<gearlongan::receipt>);
static_assert(!std::is_copy_constructible_v<gearlongan::receipt> && !std::is_copy_assignable_v<gearlongan::receipt>);
static_assert(noexcept(std::declval<gearlongan::heap &>().keys()));
static_assert(noexcept(std::declval<gearlongan::shard &>().keys()));
#if defined(__cpp_lib_ranges)
static_assert(std::input_iterator<gearlongan::key_range::iterator>);
static_assert(std::input_iterator<gearlongan::shard_key_range::iterator>);
static_assert(std::ranges::input_range<gearlongan::key_range>);
#endif
#ifndef SHARDHEAP_CHECKED
static_assert(sizeof(gearlongan::receipt) == sizeof(shardheap_receipt));
#endif
