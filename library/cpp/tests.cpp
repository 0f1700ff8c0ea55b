// Heaps, passes, shards and guards: what they return and throw, what is left where they were moved from, and what their
// destructors give back.
#include "check.hpp"

#include <array>
#include <stdexcept>
#include <type_traits>
#include <utility>
#include <vector>

using gearlongan::errc;
using gearlongan::layout;

namespace {

gearlongan::heap a_heap(std::uint32_t passes) { return gearlongan::heap::open(layout::wide, {2, 1, passes}); }

// How many passes of a heap are at home.
std::size_t at_home(gearlongan::heap &heap) {
    std::vector<gearlongan::pass> taken;
    gearlongan::pass next;
    while (heap.try_take(next) == errc::ok) taken.push_back(std::move(next));
    return taken.size();
}

// Moves an object onto itself: compilers warn of it where they see it.
template <class T> void onto_itself(T &one) {
    T &same = one;
    one = std::move(same);
}

} // namespace

TEST(one_session) {
    auto heap = gearlongan::heap::open_for(layout::wide, {1, 20000, 2, 8});
    auto shard = heap.take().adopt(0);
    auto pass = heap.take();
    const auto key = shard.insert({7, 8});
    auto guard = pass.get(key);
    CHECK(guard && guard.key() == key);
    CHECK(shard.remove(key));
    CHECK(!pass.remove(key) && !shard.remove(key));
    CHECK(guard.read() == gearlongan::value({7, 8}));
    CHECK(!pass.load(key) && !pass.find(key));
    guard.reset();
    CHECK(!guard);
    CHECK(heap.passes() == 8);
}

TEST(every_length) {
    auto heap = gearlongan::heap::open(layout::wide, {1, 4, 1});
    auto shard = heap.take().adopt(0);
    std::array<std::uint64_t, 17> words{};
    for (std::size_t at = 0; at < words.size(); at++) words[at] = 100 + at;
    for (std::size_t count = 0; count <= 16; count++) {
        const gearlongan::words_view some(words.data(), count);
        const auto key = shard.insert(some);
        CHECK(shard.load(key)->view() == some);
        CHECK(shard.get(key).read().size() == count);
        CHECK(shard.load(shard.insert_once(some))->view() == some);
    }
    THROWS(shard.insert(words), too_long);
    THROWS(shard.insert_once(words), too_long);
    THROWS(shard.prepare(17), too_long);
    gearlongan::key key(5);
    IS(shard.try_insert(words, key), too_long);
    CHECK(key.number() == 5);
}

TEST(refusals_of_keys) {
    auto heap = a_heap(2);
    auto shard = heap.take().adopt(1);
    auto pass = heap.take();
    const auto key = shard.insert({7});
    // (a page that the heap has not; in checked mode the upper bits are the number of the heap)
    const gearlongan::key none(key.number() | ((std::uint64_t{1} << 56) - 1));
    gearlongan::guard guard;
    gearlongan::value value{9};
    THROWS(pass.get(none), bad_key);
    THROWS(pass.find(none), bad_key);
    THROWS(pass.load(none), bad_key);
    THROWS(pass.remove(none), bad_key);
    THROWS(pass.load_record<std::uint64_t>(none), bad_key);
    IS(pass.try_get(none, guard), bad_key);
    IS(pass.try_load(none, value), bad_key);
    IS(pass.try_remove(none), bad_key);
    IS(pass.try_release(key), not_held);
    CHECK(!guard && value == gearlongan::value({9}));

    CHECK(pass.remove(key));
    THROWS(pass.get(key), gone);
    IS(pass.try_get(key, guard), gone);
    IS(pass.try_load(key, value), gone);
    CHECK(!pass.load(key, value));
    CHECK(!pass.load_record<std::uint64_t>(key));
    CHECK(!guard && value == gearlongan::value({9}));
}

TEST(batches) {
    auto heap = a_heap(2);
    auto shard = heap.take().adopt(1);
    auto pass = heap.take();
    std::vector<gearlongan::loaded> batch;
    const auto length = [](std::uint64_t n) { return n % 5 * 4; };
    for (std::uint64_t n = 0; n < 15; n++) batch.emplace_back(shard.insert(std::vector<std::uint64_t>(length(n), n)));
    IS(batch[0].code(), empty);
    CHECK(shard.remove(batch[3].key()) && batch[3].view().empty());
    pass.load_each(batch);
    for (std::uint64_t n = 0; n < 15; n++) {
        CHECK(batch[n].code() == (n == 3 ? errc::gone : errc::ok));
        CHECK(static_cast<bool>(batch[n]) == (n != 3));
        CHECK(batch[n].view() == std::vector<std::uint64_t>(n == 3 ? 0 : length(n), n));
    }
    batch[3].set_key(batch[2].key());
    IS(shard.try_load_each(batch.data() + 3, 1), ok);
    CHECK(batch[3].view() == batch[2].view());
    gearlongan::pass none;
    IS(none.try_load_each(batch.data(), 1), empty);
    THROWS(none.load_each(batch), empty);
}

TEST(refusals_of_heaps_and_shards) {
    THROWS(gearlongan::heap::open(layout::wide, {257, 1, 1}), bad_shape);
    THROWS(gearlongan::heap::open_for(layout::tiny, {1, 1000000, 2, 8}), bad_shape);
    THROWS(gearlongan::heap::open(static_cast<layout>(4), {1, 1, 1}), bad_layout);
    auto heap = a_heap(2);
    IS(heap.try_open(layout::wide, {1, 1, 1}), occupied);
    IS(heap.try_open_for(layout::wide, {1, 1, 1, 1}), occupied);
    auto shard = heap.take().adopt(0);
    auto pass = heap.take();
    THROWS(heap.take(), no_pass);
    IS(heap.try_take(pass), occupied);
    THROWS(std::move(pass).adopt(0), taken);
    THROWS(std::move(pass).adopt(2), no_shard);
    CHECK(pass); // a refusal leaves it where it was
    gearlongan::shard owner;
    IS(pass.try_adopt(0, owner), taken);
    IS(pass.try_adopt(1, shard), occupied);
    IS(shard.try_leave(pass), occupied);
    CHECK(pass && shard && !owner);
    IS(pass.try_adopt(1, owner), ok);
    CHECK(!pass && owner);
}

// (A class without a constructor of its own is an aggregate in C++17, and its braces would call those of its base.)
TEST(handles_begin_empty) {
    const gearlongan::heap heap{};
    const gearlongan::growing_heap growing{};
    const gearlongan::pass pass{};
    const gearlongan::shard shard{};
    const gearlongan::caller caller{};
    const gearlongan::guard guard{};
    const gearlongan::receipt receipt{};
    CHECK(!heap && !growing && !pass && !shard && !caller && !guard && !receipt);
}

TEST(what_is_empty_refuses) {
    gearlongan::heap heap;
    gearlongan::pass pass;
    gearlongan::shard shard;
    gearlongan::guard guard;
    gearlongan::key key;
    gearlongan::value value;
    std::uint32_t page = 9;
    CHECK(!heap && !pass && !shard && !guard && heap.passes() == 0);
    THROWS(heap.take(), empty);
    THROWS(heap.share(), empty);
    THROWS(heap.gather(), empty);
    THROWS(heap.accounts(0, 0), empty);
    THROWS(heap.totals(), empty);
    THROWS(pass.get(key), empty);
    THROWS(pass.load(key), empty);
    THROWS(pass.remove(key), empty);
    THROWS(std::move(pass).adopt(0), empty);
    THROWS(shard.insert({7}), empty);
    THROWS(shard.insert_record(7), empty);
    THROWS(shard.collect(), empty);
    THROWS(std::move(shard).leave(), empty);
    THROWS(guard.read(), empty);
    THROWS(guard.record<int>(), empty);
    IS(pass.try_release(key), empty);
    IS(shard.try_insert_once({}, key), empty);
    IS(shard.try_prepare(2, page), empty);
    IS(guard.try_read(value), empty);
    CHECK(page == 9 && value.empty());
    guard.reset();
    pass.close();
    shard.close();
    heap.close();
    pass.lose();
}

TEST(moves_leave_empty) {
    auto heap = a_heap(3);
    auto pass = heap.take(), other = heap.take();
    onto_itself(heap);
    onto_itself(pass);
    CHECK(heap && pass);
    auto moved = std::move(pass);
    CHECK(moved && !pass); // NOLINT(bugprone-use-after-move)
    IS(pass.try_remove(gearlongan::key()), empty);
    moved = std::move(other); // the first pass comes home
    CHECK(moved && !other);   // NOLINT(bugprone-use-after-move)
    CHECK(at_home(heap) == 2);
    moved = gearlongan::pass();
    CHECK(!moved && at_home(heap) == 3);
    auto shard = heap.take().adopt(0);
    onto_itself(shard);
    CHECK(shard);
    auto second = std::move(shard);
    const auto key = second.insert({7});
    CHECK(!shard); // NOLINT(bugprone-use-after-move)
    THROWS(shard.insert({7}), empty);
    std::swap(shard, second);
    CHECK(shard.load(key) && !second);
    second = heap.take().adopt(1);
    second = std::move(shard); // shard 1 is left
    CHECK(heap.take().adopt(1).insert({1}) != key);
    auto elsewhere = std::move(heap);
    CHECK(!heap && elsewhere.passes() == 3); // NOLINT(bugprone-use-after-move)
    heap = a_heap(1);
    heap = std::move(elsewhere);
    CHECK(heap.passes() == 3 && second.load(key));
}

TEST(guards_move) {
    auto heap = a_heap(2);
    auto shard = heap.take().adopt(0);
    const auto key = shard.insert({7}), next = shard.insert({8});
    auto one = shard.get(key);
    onto_itself(one);
    CHECK(one.read()[0] == 7);
    auto other = std::move(one);
    CHECK(!one && other.read()[0] == 7); // NOLINT(bugprone-use-after-move)
    one = shard.get(next);
    one = std::move(other); // the hold on `next` is given back
    IS(shard.try_release(next), not_held);
    CHECK(one.key() == key && one.read()[0] == 7 && !other); // NOLINT(bugprone-use-after-move)
    std::vector<gearlongan::guard> many;
    for (int at = 0; at < 15; at++) many.push_back(shard.get(next));
    THROWS(shard.get(key), holds_full);
    IS(shard.try_get(key, one), occupied);
    IS(shard.try_get(key, other), holds_full);
    many.pop_back();
    IS(shard.try_get(key, other), ok);
    CHECK(other.key() == key && other.read()[0] == 7);
    other.reset();
    CHECK(shard.get(key).read()[0] == 7);
    many.clear();
    IS(shard.try_release(next), not_held);
}

TEST(loads_take_no_hold) {
    auto heap = a_heap(2);
    auto shard = heap.take().adopt(0);
    auto pass = heap.take();
    const auto key = shard.insert({7, 8});
    const gearlongan::key not_issued(key.number() + 1); // of the next slot, which nothing was put in yet
    std::vector<gearlongan::guard> all;
    for (int at = 0; at < 16; at++) all.push_back(pass.get(key));
    THROWS(pass.get(key), holds_full);
    gearlongan::value value{5};
    IS(pass.try_load(key, value), ok);
    CHECK(value == gearlongan::value({7, 8}) && *pass.load(key) == value);
    IS(pass.try_load(not_issued, value), holds_full); // it goes on to a get
    THROWS(pass.load(not_issued), holds_full);
    CHECK(value == gearlongan::value({7, 8}));
    all.clear();
    CHECK(!pass.load(not_issued));
    IS(pass.try_release(key), not_held);
}

TEST(guards_end_holds) {
    auto heap = a_heap(2);
    auto shard = heap.take().adopt(0);
    auto pass = heap.take();
    const auto key = shard.insert({7});
    for (int at = 0; at < 100; at++) CHECK(pass.get(key).read()[0] == 7);
    const auto held = pass.get(key).detach();
    CHECK(held == key);
    auto moved = std::move(pass);
    CHECK(moved.remove(key) && !moved.load(key));
    IS(moved.try_release(key), ok);
    IS(moved.try_release(key), not_held);
    auto again = moved.get(shard.insert({8}));
    IS(moved.try_release(again.key()), ok); // by hand, so that the guard has nothing left
    THROWS(again.read(), not_held);
}

TEST(destructors_give_back) {
    auto heap = a_heap(2);
    {
        auto shard = heap.take().adopt(0);
        auto pass = heap.take();
        THROWS(heap.take(), no_pass);
    }
    CHECK(at_home(heap) == 2);
    try {
        auto shard = heap.take().adopt(0);
        auto guard = shard.get(shard.insert({7}));
        throw std::runtime_error("the program's own");
    } catch (const std::runtime_error &) {
    }
    CHECK(at_home(heap) == 2);
    THROWS(heap.take().adopt(7), no_shard);
    CHECK(at_home(heap) == 2);
    auto shard = heap.take().adopt(0);
    shard.close();
    CHECK(!shard && at_home(heap) == 2);
    auto pass = heap.take().adopt(0).leave();
    shard = std::move(pass).adopt(0);
    shard.lose();
    CHECK(!shard && at_home(heap) == 1);
    THROWS(heap.take().adopt(0), taken); // no other owns it again
}

TEST(a_pass_outlives_its_heap) {
    gearlongan::shard shard;
    {
        auto heap = a_heap(1);
        shard = heap.take().adopt(0);
    }
    CHECK(shard.load(shard.insert({7}))->front() == 7);
}

TEST(full_shards_collect) {
    auto heap = gearlongan::heap::open(layout::wide, {1, 1, 2});
    auto shard = heap.take().adopt(0);
    auto pass = heap.take();
    std::vector<gearlongan::key> keys;
    gearlongan::key key;
    while (shard.try_insert_once({}, key) == errc::ok) keys.push_back(key);
    THROWS(shard.insert({1}), full);
    for (const auto &it : keys) CHECK(pass.remove(it));
    const std::array<std::uint64_t, 16> words{1};
    IS(shard.try_insert_once(words, key), full);
    THROWS(shard.insert_once(words), full);
    CHECK(shard.load(shard.insert(words))->size() == 16); // it collects
    shard.collect();
    CHECK(shard.prepare(2) < 8);
}

TEST(heaps_as_a_whole) {
    auto heap = a_heap(2);
    auto shard = heap.take().adopt(1);
    const auto one = shard.insert({7}), other = shard.insert({8});
    CHECK(shard.remove(one) && shard.load(other));
    THROWS(heap.gather(), away);
    THROWS(heap.totals(), away);
    THROWS(heap.accounts(1, 0), away);
    shard.close();
    heap.gather();
    CHECK(heap.totals().live == 1 && heap.totals().used_pages == 1 && heap.totals().blank_pages == 15);
    CHECK(heap.accounts(1, 0).live == 1 && heap.accounts(1, 0).queued == 47);
    THROWS(heap.accounts(2, 0), no_page);
    auto second = heap.share();
    heap.close();
    CHECK(!heap && second.totals().live == 1);
    IS(second.try_share(heap), ok);
    IS(second.try_share(heap), occupied);
    CHECK(heap.passes() == 2);
}

TEST(calls_of_c_take_the_handles) {
    auto heap = a_heap(1);
    auto pass = heap.take();
    CHECK(shardheap_passes(heap.raw()) == 1);
    CHECK(shardheap_adopt(pass.raw(), 0) == SHARDHEAP_OK); // the destructor leaves it
    pass.close();
    CHECK(at_home(heap) == 1);
}

static_assert(!std::is_copy_constructible_v<gearlongan::heap> && !std::is_copy_assignable_v<gearlongan::heap>);
static_assert(!std::is_copy_constructible_v<gearlongan::pass> && !std::is_copy_assignable_v<gearlongan::pass>);
static_assert(!std::is_copy_constructible_v<gearlongan::shard> && !std::is_copy_assignable_v<gearlongan::shard>);
static_assert(!std::is_copy_constructible_v<gearlongan::guard> && !std::is_copy_assignable_v<gearlongan::guard>);
template <class T>
inline constexpr bool moves = std::is_nothrow_move_constructible_v<T> && std::is_nothrow_move_assignable_v<T> &&
                              std::is_nothrow_default_constructible_v<T> && std::is_nothrow_destructible_v<T>;
static_assert(moves<gearlongan::heap> && moves<gearlongan::guard>);
static_assert(moves<gearlongan::pass> && moves<gearlongan::shard>);
// A pass and a shard are not made of each other, nor of a reader: only adopt and leave do that.
static_assert(!std::is_constructible_v<gearlongan::pass, gearlongan::shard &&>);
static_assert(!std::is_constructible_v<gearlongan::shard, gearlongan::pass &&>);
static_assert(!std::is_constructible_v<gearlongan::pass, gearlongan::reader &&>);
#ifndef SHARDHEAP_CHECKED
static_assert(sizeof(gearlongan::receipt) == sizeof(shardheap_receipt));
static_assert(sizeof(gearlongan::pass) == sizeof(shardheap_pass) + sizeof(void *)); // (with its hook)
static_assert(sizeof(gearlongan::guard) == 16);
#endif

int main(int argc, char **argv) { return run_tests(argc, argv); }
