// Walks over the live keys of a heap, beside what other passes do. A part of the program `tests`.
#include "check.hpp"

#include <algorithm>
#include <array>
#include <atomic>
#include <iterator>
#include <map>
#include <thread>
#include <utility>
#include <vector>

using gearlongan::errc;
using gearlongan::layout;

namespace {

#ifdef FEWER_ROUNDS
constexpr std::uint64_t rounds = 300;
#else
constexpr std::uint64_t rounds = 10000;
#endif

using contents = std::map<gearlongan::key, gearlongan::value>;

// All that a walk meets, each key once, in the order of their places.
contents met_by(gearlongan::reader &reader) {
    contents met;
    gearlongan::live_key next;
    std::uint64_t place = 0, before = 0;
    while (reader.try_next_live(place, next) == errc::ok) {
        CHECK(place > before && met.emplace(next.key, next.value).second);
        before = place;
    }
    const gearlongan::key last = next.key;
    IS(reader.try_next_live(place, next), no_key);
    CHECK(place == before && next.key == last);
    for (auto [key, value] : reader.walk()) CHECK(met.at(key) == value);
    CHECK(static_cast<std::size_t>(std::distance(reader.walk().begin(), reader.walk().end())) == met.size());
    return met;
}

// Values of each length in the shard, of which the owner or another pass removes each third.
void keeps(gearlongan::shard &shard, gearlongan::reader &other, contents &kept) {
    for (std::uint64_t at = 0; at < 45; at++) {
        const std::array<std::uint64_t, 16> words{at};
        const gearlongan::value value(gearlongan::words_view(words.data(), at % 17));
        const gearlongan::key key = shard.insert(value);
        if (at % 3) kept.emplace(key, value);
        else CHECK(at % 2 ? shard.remove(key) : other.remove(key));
    }
}

} // namespace

TEST(walks_meet_each_live_key_once) {
    for (const layout of : {layout::wide, layout::tagged, layout::deep, layout::tiny}) {
        auto heap = gearlongan::heap::open(of, {2, 2, 3});
        auto pass = heap.take();
        auto one = heap.take().adopt(1), two = heap.take().adopt(0);
        contents kept;
        CHECK(met_by(pass).empty());
        keeps(one, pass, kept);
        keeps(two, one, kept);
        CHECK(met_by(pass) == kept && met_by(one) == kept && met_by(two) == kept);
        CHECK(pass.remove_if([](gearlongan::key, const gearlongan::value &) { return true; }) == kept.size());
        CHECK(met_by(pass).empty() && met_by(one).empty());
    }
}

TEST(a_range_of_live_keys) {
    auto heap = gearlongan::heap::open(layout::wide, {1, 1, 2});
    auto shard = heap.take().adopt(0);
    auto pass = heap.take();
    const auto one = shard.insert({1}), two = shard.insert({2});
    const auto range = pass.walk();
    auto it = range.begin();
    CHECK(it != range.end() && it == range.begin() && it->key == one && (*it).value[0] == 1);
    auto before = it++;
    CHECK(before->key == one && it->key == two && it != before && it->value.back() == 2);
    CHECK(++it == range.end() && it == gearlongan::live_range::iterator());
    // What is removed meanwhile is not met, and what was met is a copy.
    it = range.begin();
    CHECK(shard.remove(one) && shard.remove(two));
    CHECK(it->value[0] == 1 && ++it == range.end());
    CHECK(std::none_of(range.begin(), range.end(), [](const gearlongan::live_key &) { return true; }));
    gearlongan::pass none;
    THROWS(none.walk().begin(), empty);
    THROWS(none.remove_if([](gearlongan::key, const gearlongan::value &) { return true; }), empty);
}

TEST(a_removal_counts_what_it_removed) {
    auto heap = gearlongan::heap::open(layout::wide, {1, 1, 2});
    auto shard = heap.take().adopt(0);
    auto pass = heap.take();
    for (std::uint64_t at = 0; at < 20; at++) CHECK(shard.insert({at}).number() != 0);
    std::uint64_t removed = 77, called = 0;
    const auto is_small = [&](gearlongan::key key, const gearlongan::value &value) {
        called++;
        // (the owner removes some before)
        if (value[0] % 3 == 0) CHECK(shard.remove(key));
        return value[0] < 10;
    };
    IS(pass.try_remove_if(is_small, removed), ok);
    CHECK(removed == 6 && called == 20 && met_by(pass).size() == 7);
    const auto is_any = [](gearlongan::key, const gearlongan::value &) { return true; };
    CHECK(shard.remove_if(is_any) == 7 && pass.remove_if(is_any) == 0);
    gearlongan::pass none;
    IS(none.try_remove_if(is_any, removed), empty);
    CHECK(removed == 6);
}

TEST(walks_go_over_the_chunks) {
    constexpr std::uint64_t chunk = 384, many = 2 * chunk + 10;
    auto heap = gearlongan::growing_heap::open({1, chunk, 1, 2}, 3);
    auto caller = heap.take(), other = heap.take();
    CHECK(met_by(other).empty());
    contents kept;
    for (std::uint64_t at = 0; at < many; at++) kept.emplace(caller.insert({at}), gearlongan::value{at});
    CHECK(heap.chunks() == 3 && met_by(other) == kept && met_by(caller) == kept);
    // It can be drained.
    CHECK(other.remove_if([](gearlongan::key, const gearlongan::value &) { return true; }) == many);
    CHECK(met_by(caller).empty());
}

// Owners keep some values, and insert and remove others, which a janitor removes too. A walk beside them meets each
// value that stays.
TEST(a_janitor_beside_owners) {
    constexpr std::size_t owners = 2, lasting = 50;
    auto heap = gearlongan::heap::open(layout::wide, {owners, 2, owners + 2});
    std::atomic<std::uint64_t> working{owners}, removed{0};
    std::vector<gearlongan::key> stay;
    std::vector<std::thread> threads;
    for (std::size_t number = 0; number < owners; number++) {
        auto shard = heap.take().adopt(number);
        for (std::size_t at = 0; at < lasting; at++) stay.push_back(shard.insert({0}));
        threads.emplace_back([&working, &removed, shard = std::move(shard)]() mutable {
            for (std::uint64_t round = 0; round < rounds; round++) {
                gearlongan::key key;
                while (shard.try_insert({1}, key) != errc::ok) std::this_thread::yield();
                if (round % 3 == 0 && shard.remove(key)) removed++;
            }
            working--;
        });
    }
    threads.emplace_back([&working, &removed, pass = heap.take()]() mutable {
        bool last = false;
        while (!last) {
            last = working == 0;
            removed += pass.remove_if([](gearlongan::key, const gearlongan::value &value) { return value[0] == 1; });
        }
    });
    auto pass = heap.take();
    std::sort(stay.begin(), stay.end());
    do {
        std::vector<gearlongan::key> met;
        for (const auto &[key, value] : pass.walk())
            if (value[0] == 0) met.push_back(key);
        std::sort(met.begin(), met.end());
        CHECK(met == stay);
    } while (working != 0);
    for (auto &it : threads) it.join();
    CHECK(removed == owners * rounds && met_by(pass).size() == stay.size());
}

static_assert(noexcept(std::declval<gearlongan::pass &>().walk()));
#if defined(__cpp_lib_ranges)
static_assert(std::input_iterator<gearlongan::live_range::iterator>);
static_assert(std::ranges::input_range<gearlongan::live_range>);
#endif
