// Tables: records of several sizes, keys, objects that are moved and closed, and threads.
#include "check.hpp"

#include <algorithm>
#include <array>
#include <atomic>
#include <cstdint>
#include <iterator>
#include <optional>
#include <thread>
#include <unordered_set>
#include <utility>
#include <vector>

using gearlongan::key_of;
using gearlongan::table;

namespace {

#ifdef FEWER_ROUNDS
constexpr std::uint64_t rounds = 100;
#else
constexpr std::uint64_t rounds = 2000;
#endif

struct entity {
    explicit entity(std::uint32_t of) : number(of) {}
    std::uint32_t number;
    float place[3] = {1, 2, 3};
    char tail = 't';
};

template <class R> void keeps(const R &record) {
    auto records = table<R>::open();
    const auto key = records.insert(record);
    CHECK(records.size() == 1 && records.contains(key) && records.get(key) == record);
    CHECK(records.capacity() >= 48 && records.bytes() == 24992);
    CHECK(records.take(key) == record && !records.take(key) && !records.get(key) && !records.contains(key));
    CHECK(records.size() == 0);
}

} // namespace

TEST(a_table_keeps_records) {
    keeps('a');
    keeps(0.5);
    keeps(std::array<std::uint32_t, 3>{1, 2, 3});
    std::array<std::uint64_t, 16> most{};
    most[15] = 7;
    keeps(most);
    auto entities = table<entity>::open();
    const auto key = entities.insert(entity(9));
    const std::optional<entity> found = entities.get(key);
    CHECK(found && found->number == 9 && found->place[2] == 3 && found->tail == 't');
}

TEST(a_table_refuses) {
    table<double> numbers;
    double number = 5;
    key_of<double> half;
    CHECK(!numbers && numbers.size() == 0 && numbers.capacity() == 0 && numbers.bytes() == 0);
    IS(numbers.try_insert(0.5, half), empty);
    IS(numbers.try_get(half, number), empty);
    IS(numbers.try_enter(), empty);
    THROWS(numbers.get(half), empty);
    THROWS(numbers.rest(), empty);
    IS(numbers.try_open({65, 1, 1}), bad_shape);
    IS(numbers.try_open({1, 384, 1}), ok);
    IS(numbers.try_open(), occupied);
    THROWS(table<double>::open({1, 1, 257}), bad_shape);
    half = numbers.insert(0.5);
    IS(numbers.try_get(key_of<double>(~std::uint64_t{0}), number), bad_key);
    THROWS(numbers.contains(key_of<double>(~std::uint64_t{0})), bad_key);
    CHECK(numbers.remove(half) && !numbers.remove(half));
    IS(numbers.try_get(half, number), gone);
    IS(numbers.try_take(half, number), gone);
    CHECK(number == 5);
    for (int n = 0; n < 384; n++) half = numbers.insert(n);
    THROWS(numbers.insert(0.5), full);
    CHECK(numbers.take(half) == 383 && numbers.size() == 383);
    // (a call of C may store what is no record of the table)
    std::uint64_t words[2] = {1, 2}, key = 0;
    CHECK(shardheap_table_insert(numbers.raw(), words, 0, &key) == SHARDHEAP_OK);
    IS(numbers.try_get(key_of<double>(key), number), wrong_size);
    CHECK(std::error_code(gearlongan::errc::no_place).message() == std::string("NoPlace"));
}

TEST(a_table_is_walked) {
    auto entities = table<entity>::open({1, 1, 64});
    CHECK(entities.begin() == entities.end());
    std::vector<key_of<entity>> keys;
    for (std::uint32_t n = 0; n < 1000; n++) keys.push_back(entities.insert(entity(n)));
    std::vector<bool> seen(1000);
    for (const auto &[key, record] : std::as_const(entities)) {
        CHECK(keys[record.number] == key && !seen[record.number] && record.tail == 't');
        seen[record.number] = true;
        // (the loop may call the table)
        if (record.number % 4 == 0) CHECK(entities.remove(key));
    }
    CHECK(std::count(seen.begin(), seen.end(), true) == 1000 && entities.size() == 750);
    auto at = entities.begin();
    CHECK(at->record.number == at++->record.number && at != entities.begin() && at != entities.end());
    const auto is_odd = [&](key_of<entity> key, const entity &of) { return entities.contains(key) && of.number % 2; };
    CHECK(entities.remove_if(is_odd) == 500 && entities.remove_if(is_odd) == 0 && entities.size() == 250);
    // (a call of C may store what is no record of the table: a walk passes over it)
    std::uint64_t words[1] = {1}, key = 0, place = 0;
    CHECK(shardheap_table_insert(entities.raw(), words, 1, &key) == SHARDHEAP_OK);
    CHECK(std::distance(entities.begin(), entities.end()) == 250);
    entities.close();
    entity into(7);
    IS(entities.try_next(place, keys[0], into), empty);
    IS(entities.try_remove_if(is_odd, key), empty);
    THROWS(entities.begin(), empty);
    THROWS(entities.remove_if(is_odd), empty);
    CHECK(into.number == 7 && place == 0);
}

TEST(keys_of_tables_are_ordered_and_hashed) {
    auto numbers = table<double>::open();
    std::unordered_set<key_of<double>> keys;
    for (int n = 0; n < 100; n++) keys.insert(numbers.insert(n));
    CHECK(keys.size() == 100);
    const key_of<double> one(1), two(2);
    CHECK(one < two && one <= two && two > one && two >= one && one != two && one == key_of<double>(1));
    CHECK(key_of<double>() == key_of<double>(0));
}

TEST(a_table_is_moved) {
    auto numbers = table<double>::open();
    const auto half = numbers.insert(0.5);
    table<double> other = std::move(numbers);
    CHECK(!numbers && other.get(half) == 0.5); // NOLINT(bugprone-use-after-move)
    IS(numbers.try_remove(half), empty);
    numbers = table<double>::open();
    numbers = std::move(other); // the first one ends
    CHECK(numbers.get(half) == 0.5 && !other);
    std::swap(numbers, other);
    CHECK(other.get(half) == 0.5);
    other.close();
    CHECK(!other);
}

// (See cpp_sanitized in tests.sh.)
#ifndef ONE_THREAD_GROWS
TEST(threads_use_one_table) {
    auto entities = table<entity>::open();
    const auto common = entities.insert(entity(77));
    std::atomic<int> removed{0};
    const auto is_whole = [](const table<entity>::entry &met) { return met.record.tail == 't'; };
    std::vector<std::thread> threads;
    for (std::uint32_t n = 0; n < 16; n++)
        threads.emplace_back([&is_whole, &entities, &removed, common, n] {
            if (n % 2 == 0) entities.enter();
            for (std::uint64_t round = 0; round < rounds; round++) {
                if (round % 500 == n) CHECK(std::all_of(entities.begin(), entities.end(), is_whole));
                const auto key = entities.insert(entity(n));
                CHECK(entities.get(key)->number == n);
                if (round % 100 == 0) entities.rest();
                CHECK(round % 2 ? entities.remove(key) : entities.take(key)->number == n);
            }
            if (entities.remove(common)) removed++;
        });
    for (auto &thread : threads) thread.join();
    CHECK(removed == 1 && entities.size() == 0);
}
#endif
