// Which key a call ended, by what it writes and by a hook, of passes, callers and tables: each once.
#include "check.hpp"

#include <array>
#include <atomic>
#include <cstdint>
#include <memory>
#include <mutex>
#include <optional>
#include <thread>
#include <utility>
#include <vector>

using gearlongan::ended;
using gearlongan::key;
using gearlongan::key_of;
using gearlongan::words_view;

namespace {

#ifdef FEWER_ROUNDS
constexpr std::uint64_t count = 1000;
#else
constexpr std::uint64_t count = 20000;
#endif
constexpr std::uint64_t later = std::uint64_t{1} << 50; // added to a key: of a generation that no place comes to

gearlongan::heap a_heap(std::uint32_t passes) {
    return gearlongan::heap::open(gearlongan::layout::wide, {1, 1, passes});
}

bool is(const std::optional<ended> &told, key of, words_view words) {
    return told && told->key == of && told->value.view() == words;
}

// What a hook was told.
using ends = std::vector<std::pair<key, std::uint64_t>>;

gearlongan::end_hook noting(ends &told) {
    return [&told](key of, words_view words) { told.emplace_back(of, words[0]); };
}

ends taken(ends &told) { return std::exchange(told, {}); }

} // namespace

TEST(calls_write_which_key_they_ended) {
    auto heap = gearlongan::heap::open(gearlongan::layout::deep, {1, 1, 2}); // (no mark on its keys)
    auto shard = heap.take().adopt(0);
    auto pass = heap.take();
    for (std::size_t size = 0; size <= 16; size++) {
        const std::vector<std::uint64_t> words(size, size + 100);
        std::optional<ended> told(std::in_place);
        const key first = shard.insert(words), second = shard.insert(words), third = shard.insert(words);
        CHECK(pass.remove(first, told) && is(told, first, words));
        CHECK(!pass.remove(first, told) && !told);
        CHECK(shard.take(second, told)->view() == words_view(words) && is(told, second, words));
        CHECK(!shard.take(second, told) && !told && !shard.find(second, told) && !told);
        auto one = pass.find(third, told), other = shard.get(third);
        CHECK(one && !told && pass.take(third, told) && !told && !pass.remove(third, told) && !told);
        CHECK(!one.release() && !one && other.read().view() == words_view(words));
        told = other.release();
        CHECK(is(told, third, words) && !other && !other.release());
    }
    std::optional<ended> told(std::in_place);
    gearlongan::value value{5};
    gearlongan::guard guard;
    IS(pass.try_remove(key(~0ull), told), bad_key);
    CHECK(!told);
    told.emplace();
    IS(pass.try_take(key(~0ull), value, told), bad_key);
    CHECK(!told && value.size() == 1);
    told.emplace();
    IS(pass.try_release(key(5), told), not_held);
    CHECK(!told);
    guard = pass.get(shard.insert({7}));
    told.emplace();
    IS(pass.try_get(guard.key(), guard, told), occupied);
    CHECK(!told);
    gearlongan::pass empty;
    told.emplace();
    IS(empty.try_remove(guard.key(), told), empty);
    CHECK(!told);
}

TEST(a_hook_is_told_what_calls_end) {
    ends told;
    auto heap = a_heap(2);
    auto pass = heap.take(), other = heap.take();
    pass.on_end([](key, words_view) { CHECK(false && "another replaces it"); });
    pass.on_end(noting(told));
    auto shard = std::move(pass).adopt(0);
    other.on_end(noting(told));
    CHECK(!pass);
    const std::array<key, 6> keys{shard.insert({0}), shard.insert({1}), shard.insert({2}),
                                  shard.insert({3}), shard.insert({4}), shard.insert({5})};
    CHECK(shard.remove(keys[0]) && taken(told) == ends{{keys[0], 0}});
    CHECK(!shard.remove(keys[0]) && !other.load(keys[0]) && !other.find(keys[0]) && !other.take(keys[0]));
    CHECK(other.take(keys[1])->front() == 1 && taken(told) == ends{{keys[1], 1}});
    {
        auto guard = other.get(keys[2]);
        CHECK(shard.remove(keys[2]) && told.empty() && guard.read()[0] == 2);
    }
    CHECK(taken(told) == ends{{keys[2], 2}});
    CHECK(other.load(keys[3])->front() == 3 && other.load_record<std::uint64_t>(keys[3]) == 3);
    std::array<gearlongan::loaded, 3> batch{gearlongan::loaded(keys[3]), gearlongan::loaded(keys[0]),
                                            gearlongan::loaded(keys[4])};
    other.load_each(batch);
    CHECK(batch[0].view()[0] == 3 && batch[1].code() == gearlongan::errc::gone && batch[2].view()[0] == 4);
    CHECK(other.remove_if([](key, const gearlongan::value &value) { return value[0] == 3; }) == 1);
    CHECK(taken(told) == ends{{keys[3], 3}});
    auto moved = std::move(other);
    CHECK(moved.take_record<std::uint64_t>(keys[4]) == 4 && taken(told) == ends{{keys[4], 4}});
    const key held = moved.get(keys[5]).detach();
    std::optional<ended> written;
    CHECK(shard.remove(keys[5], written) && !written && told.empty());
    IS(moved.try_release(held), ok);
    CHECK(taken(told) == ends{{keys[5], 5}});
    const key last = shard.insert({6});
    auto guard = moved.get(last);
    shard.remove(last);
    CHECK(guard.release()->key == last && told.empty()); // what a call returns is told once
    pass = std::move(shard).leave();
    IS(pass.try_adopt(0, shard), ok);
    shard.remove(shard.insert({7}));
    CHECK(taken(told).back().second == 7);
    shard.on_end(nullptr);
    shard.remove(shard.insert({7}));
    moved.close();
    CHECK(told.empty());
    moved = heap.take(); // the pass that came home has no hook
    moved.remove(shard.insert({7}));
    CHECK(told.empty());
}

// A pass with 16 holds loads, and so it does with a hook.
TEST(a_load_needs_no_hold_with_a_hook) {
    auto growing = gearlongan::growing_heap::open({1, 1, 1, 2}, 256);
    auto caller = growing.take(), other = growing.take();
    ends told;
    other.on_end(noting(told));
    std::vector<key> keys;
    for (std::uint64_t n = 0; n < 1000; n++) keys.push_back(caller.insert({n}));
    std::vector<gearlongan::guard> guards;
    for (std::size_t n = 0; n < 16; n++) guards.push_back(other.get(keys[n]));
    THROWS(other.get(keys[20]), holds_full);
    for (std::uint64_t n = 0; n < 1000; n++) CHECK(other.load(keys[n])->front() == n);
    gearlongan::value value;
    guards.clear();
    for (std::uint64_t n = 0; n < 1000; n++) CHECK(other.take(keys[n], value) && value[0] == n);
    CHECK(told.size() == 1000 && told[999].second == 999);
}

namespace {

// How often the end of each value was told.
struct tally {
    std::vector<std::atomic<std::uint32_t>> told = std::vector<std::atomic<std::uint32_t>>(count);
    std::vector<std::atomic<std::uint64_t>> keys = std::vector<std::atomic<std::uint64_t>>(count);
    void end(key of, words_view words) {
        const std::uint64_t n = words[0];
        CHECK(words.size() == n % 16 + 1 && words[n % 16] == n && keys[n] == of.number());
        told[n]++;
    }
    void end(const std::optional<ended> &it) {
        if (it) end(it->key, it->value.view());
    }
    key wait_for(std::uint64_t n) {
        while (keys[n] == 0) std::this_thread::yield();
        return key(keys[n]);
    }
    void check() const {
        for (const auto &it : told) CHECK(it == 1);
    }
};

void uses(gearlongan::reader &pass, key of, std::uint64_t how, tally &all) {
    std::optional<ended> told;
    if (how % 3 == 0) {
        pass.remove(of, told);
    } else if (how % 3 == 1) {
        (void)pass.take(of, told);
    } else {
        auto guard = pass.find(of, told);
        all.end(told);
        if (guard) CHECK(all.told[guard.read()[0]] == 0);
        told = guard.release();
    }
    all.end(told);
}

} // namespace

TEST(threads_are_told_of_each_end_once) {
    constexpr std::uint64_t threads = 4;
    for (const bool hooked : {false, true}) {
        auto heap = a_heap(threads + 1);
        auto shard = heap.take().adopt(0);
        tally all;
        std::vector<std::thread> works;
        for (std::uint64_t at = 0; at < threads; at++)
            works.emplace_back([&all, at, hooked, pass = heap.take()]() mutable {
                if (hooked) pass.on_end([&all](key of, words_view words) { all.end(of, words); });
                for (std::uint64_t n = 0; n < count; n++) {
                    const key of = all.wait_for(n);
                    for (std::uint64_t turn = 0; turn < 3; turn++) {
                        if (!hooked) uses(pass, of, n / 7 + at + turn, all);
                        else if ((n / 7 + at + turn) % 3 == 0) pass.remove(of);
                        else if (auto guard = pass.find(of)) CHECK(all.told[guard.read()[0]] == 0);
                        (void)(hooked && pass.load(key(of.number() + later)));
                    }
                }
            });
        for (std::uint64_t n = 0; n < count; n++) {
            key of;
            const std::vector<std::uint64_t> words(n % 16 + 1, n);
            while (shard.try_insert(words, of) != gearlongan::errc::ok) std::this_thread::yield();
            all.keys[n] = of.number();
        }
        for (std::thread &work : works) work.join();
        all.check();
    }
}

// ---- Tables ----

TEST(a_table_tells_each_end_once) {
    std::vector<std::uint32_t> told(1000);
    const auto hook = [&told](key_of<std::uint32_t>, std::uint32_t n) { told[n]++; };
    gearlongan::table<std::uint32_t> numbers;
    IS(numbers.try_on_end(hook), empty);
    THROWS(numbers.on_end(hook), empty);
    numbers = gearlongan::table<std::uint32_t>::open();
    numbers.on_end([](auto, auto) { CHECK(false && "another replaces it"); });
    numbers.on_end(hook);
    std::vector<key_of<std::uint32_t>> keys;
    for (std::uint32_t n = 0; n < 1000; n++) keys.push_back(numbers.insert(n));
    CHECK(numbers.remove(keys[0]) && !numbers.remove(keys[0]) && told[0] == 1);
    CHECK(numbers.take(keys[1]) == 1u && !numbers.take(keys[1]) && told[1] == 1);
    CHECK(numbers.remove_if([](auto, std::uint32_t n) { return n == 2; }) == 1 && told[2] == 1);
    CHECK(numbers.get(keys[3]) == 3u && numbers.contains(keys[3]) && told[3] == 0);
    auto moved = std::move(numbers);
    CHECK(moved.remove(keys[3]) && told[3] == 1 && moved.size() == 996);
    moved = gearlongan::table<std::uint32_t>::open(); // it ends the table before
    for (std::uint32_t it : told) CHECK(it == 1);
    moved.on_end(hook);
    (void)moved.insert(5);
    moved.close();
    IS(moved.try_open(), ok); // without a hook
    (void)moved.insert(5);
    moved.close();
    CHECK(told[5] == 2);
    {
        auto last = gearlongan::table<std::uint32_t>::open();
        last.on_end(hook);
        (void)last.insert(6);
    }
    CHECK(told[6] == 2);
}

TEST(threads_of_a_table_are_told_of_each_end_once) {
    std::vector<std::atomic<std::uint32_t>> told(count);
    std::vector<std::atomic<std::uint64_t>> keys(count);
    auto numbers = gearlongan::table<std::uint64_t>::open();
    numbers.on_end([&told](auto, std::uint64_t n) { told[n]++; });
    std::vector<std::thread> works;
    for (std::uint64_t at = 0; at < 4; at++)
        works.emplace_back([&, at] {
            for (std::uint64_t n = 0; n < count; n++) {
                if (n % 4 == at) keys[n] = numbers.insert(n).number();
                const std::uint64_t back = n * at % 7 < n ? n - n * at % 7 : n, number = keys[back];
                if (number == 0) continue;
                const key_of<std::uint64_t> of(number);
                if ((n + at) % 4 == 0) numbers.remove(of);
                else if (auto found = (n + at) % 4 == 1 ? numbers.take(of) : numbers.get(of)) CHECK(*found == back);
                CHECK(!numbers.contains(key_of<std::uint64_t>(number + later)));
            }
        });
    for (std::thread &work : works) work.join();
    numbers.close();
    for (const auto &it : told) CHECK(it == 1);
}
