// Values, views, records, keys and errors: what needs no heap, or one that is only a place to store them.
#include "check.hpp"

#include <array>
#include <atomic>
#include <limits>
#include <map>
#include <string>
#include <unordered_map>
#include <unordered_set>
#include <vector>
#if __has_include(<span>) && __cplusplus >= 202002L
#include <span>
#endif

using gearlongan::errc;
using gearlongan::layout;

namespace {

// A record with padding, of three words.
struct mixed {
    std::uint8_t small;
    double large;
    std::uint16_t last;
};

// A record without a default constructor, whose members are constant.
class point {
public:
    point(int x, int y) : x_(x), y_(y) {}
    int sum() const { return x_ + y_; }

private:
    const int x_, y_;
};

struct greatest {
    unsigned char bytes[128];
};
struct too_great {
    unsigned char bytes[129];
};
struct owning {
    std::string text;
};

static_assert(gearlongan::is_record_v<mixed> && gearlongan::is_record_v<point> && gearlongan::is_record_v<greatest>);
static_assert(gearlongan::is_record_v<char> && gearlongan::is_record_v<void *> && gearlongan::is_record_v<layout>);
static_assert(!gearlongan::is_record_v<too_great> && !gearlongan::is_record_v<owning>);
static_assert(!gearlongan::is_record_v<int &> && !gearlongan::is_record_v<int[2]>);
static_assert(!gearlongan::is_record_v<const int>);

} // namespace

TEST(values_are_words_in_place) {
    gearlongan::value none, two{7, 8};
    CHECK(none.empty() && none.size() == 0 && none == gearlongan::value());
    CHECK(two.size() == 2 && two.front() == 7 && two.back() == 8 && two[1] == 8 && !two.empty());
    CHECK(gearlongan::value{7}.front() == 7 && gearlongan::value({7}).size() == 1);
    CHECK(two != none && two != gearlongan::value({7}) && two != gearlongan::value({7, 9}));
    auto copy = two;
    copy[0] = 9;
    CHECK(copy[0] == 9 && two[0] == 7);
    none = copy;
    CHECK(none == copy);
    gearlongan::value &same = none;
    none = same;
    CHECK(none == copy);
    std::uint64_t sum = 0;
    for (const std::uint64_t word : two) sum += word;
    for (std::uint64_t &word : two) word = 0;
    CHECK(sum == 15 && two == gearlongan::value({0, 0}));
    CHECK(two.end() - two.begin() == 2 && two.data() == two.begin());
    CHECK(gearlongan::value::max_size() == 16);
}

TEST(values_have_an_end) {
    const std::vector<std::uint64_t> words(17, 3);
    THROWS(gearlongan::value(gearlongan::words_view(words)), too_long);
    gearlongan::value value{1};
    IS(value.try_assign(words), too_long);
    CHECK(value == gearlongan::value({1}));
    IS(value.try_assign({words.data(), 16}), ok);
    CHECK(value.size() == 16 && value.back() == 3);
    IS(value.try_assign({}), ok);
    CHECK(value.empty());
}

TEST(views_of_what_has_words) {
    const std::array<std::uint64_t, 2> array{7, 8};
    const std::vector<std::uint64_t> vector{7, 8};
    const std::uint64_t plain[2] = {7, 8};
    const gearlongan::value value{7, 8};
    const gearlongan::words_view view(array);
    CHECK(view == vector && view == plain && view == value && view.data() == array.data());
    CHECK(view != gearlongan::words_view() && view != gearlongan::words_view(plain, 1));
    CHECK(view.size() == 2 && !view.empty() && view[1] == 8 && view.end() - view.begin() == 2);
    CHECK(gearlongan::words_view().empty() && gearlongan::words_view().begin() == gearlongan::words_view().end());
    constexpr gearlongan::words_view none;
    static_assert(none.empty() && none == gearlongan::words_view());
#if __has_include(<span>) && __cplusplus >= 202002L
    const std::span<const std::uint64_t> span(view);
    CHECK(span.size() == 2 && gearlongan::words_view(span) == view);
#endif
    auto heap = gearlongan::heap::open(layout::wide, {1, 1, 1});
    auto shard = heap.take().adopt(0);
    for (const auto &key : {shard.insert(array), shard.insert(vector), shard.insert(plain), shard.insert(value),
                            shard.insert(view), shard.insert({7, 8}), shard.insert_once(value)})
        CHECK(*shard.load(key) == value);
}

TEST(records_are_stored_as_their_bytes) {
    auto heap = gearlongan::heap::open(layout::wide, {1, 1, 1});
    auto shard = heap.take().adopt(0);
    const auto first = shard.insert_record(mixed{7, 1.5, 8});
    const auto read = shard.load_record<mixed>(first);
    CHECK(read && read->small == 7 && read->large == 1.5 && read->last == 8);
    CHECK(shard.get(first).record<mixed>().last == 8);
    CHECK(shard.load(first)->size() == 3);

    const auto second = shard.insert_record(point(3, 4));
    CHECK(shard.load_record<point>(second)->sum() == 7 && shard.get(second).record<point>().sum() == 7);
    CHECK(shard.load(second)->size() == 1);

    greatest all{};
    for (std::size_t at = 0; at < sizeof all; at++) all.bytes[at] = static_cast<unsigned char>(at);
    const auto third = shard.insert_record(all);
    greatest again{};
    IS(shard.try_load_record(third, again), ok);
    CHECK(std::memcmp(&again, &all, sizeof all) == 0 && shard.load(third)->size() == 16);
}

// The bytes after the record in its last word are zero, also if the value is read as words.
TEST(records_end_in_zeros) {
    auto heap = gearlongan::heap::open(layout::wide, {1, 1, 1});
    auto shard = heap.take().adopt(0);
    const auto key = shard.insert_record(std::array<unsigned char, 9>{1, 2, 3, 4, 5, 6, 7, 8, 9});
    CHECK((*shard.load(key))[1] == 9);
    CHECK(shard.load_record<std::array<std::uint64_t, 2>>(key)->at(1) == 9);
}

TEST(records_of_another_size) {
    auto heap = gearlongan::heap::open(layout::wide, {1, 1, 1});
    auto shard = heap.take().adopt(0);
    const auto key = shard.insert({7, 8});
    std::uint64_t one = 5;
    std::array<std::uint64_t, 3> three{5};
    IS(shard.try_load_record(key, one), wrong_size);
    IS(shard.try_load_record(key, three), wrong_size);
    CHECK(one == 5 && three[0] == 5);
    THROWS(shard.load_record<std::uint64_t>(key), wrong_size);
    THROWS(shard.get(key).record<std::uint64_t>(), wrong_size);
    CHECK(!shard.load(key)->as<mixed>() && !gearlongan::value().as<char>());
    IS(shard.try_remove(key), ok);
    IS(shard.try_load_record(key, one), gone);
}

TEST(keys_have_an_order_and_a_hash) {
    const gearlongan::key one(1), two(2);
    CHECK(one < two && one <= two && !(one > two) && !(one >= two) && one != two && one == gearlongan::key(1));
    CHECK(std::hash<gearlongan::key>{}(one) == std::hash<gearlongan::key>{}(gearlongan::key(1)));
    std::unordered_map<gearlongan::key, int> by_hash{{one, 1}, {two, 2}};
    std::map<gearlongan::key, int> by_order{{two, 2}, {one, 1}};
    CHECK(by_hash[two] == 2 && by_order.begin()->second == 1);
    std::unordered_set<std::size_t> hashes;
    for (std::uint64_t number = 0; number < 1000; number++)
        hashes.insert(std::hash<gearlongan::key>{}(gearlongan::key(number)));
    CHECK(hashes.size() == 1000);
    std::atomic<gearlongan::key> shared(one);
    shared.store(two);
    CHECK(shared.load() == two && std::atomic<gearlongan::key>::is_always_lock_free);
    static_assert(std::is_trivially_copyable_v<gearlongan::key> && sizeof(gearlongan::key) == 8);
    static_assert(gearlongan::key().number() == 0);
    static_assert(!std::is_convertible_v<std::uint64_t, gearlongan::key>);
}

TEST(tags) {
    const gearlongan::key greatest_key((std::uint64_t{1} << 52) - 1), beyond(std::uint64_t{1} << 52);
    const std::uint64_t number = gearlongan::tag(greatest_key, 255);
    CHECK(number >> 56 == 255);
    CHECK(gearlongan::untag(number).key == greatest_key && gearlongan::untag(number).tag == 255);
    THROWS(gearlongan::tag(beyond, 1), bad_key);
    THROWS(gearlongan::untag(beyond.number()), bad_key);
    std::uint64_t same = 5;
    gearlongan::tagged_key both{gearlongan::key(6), 7};
    IS(gearlongan::try_tag(beyond, 1, same), bad_key);
    IS(gearlongan::try_untag(beyond.number(), both), bad_key);
    CHECK(same == 5 && both.key.number() == 6 && both.tag == 7);
}

TEST(errors_are_those_of_the_system) {
    const std::error_code code = errc::gone;
    CHECK(code == errc::gone && code != errc::full && code.value() == SHARDHEAP_GONE);
    CHECK(code.message() == "Gone" && std::string(code.category().name()) == "gearlongan");
    CHECK(!std::error_code(errc::ok));
    CHECK(std::error_code(errc::memory) == std::errc::not_enough_memory);
    CHECK(std::error_code(errc::waiting) == std::errc::resource_unavailable_try_again);
    CHECK(std::error_code(errc::too_long) == std::errc::message_size);
    CHECK(std::error_code(errc::bad_shape) == std::errc::invalid_argument);
    CHECK(std::error_code(errc::bad_layout) == std::errc::invalid_argument);
    CHECK(std::error_code(errc::bad_key) == std::errc::invalid_argument);
    CHECK(std::error_code(errc::gone) != std::errc::invalid_argument);
    CHECK(std::error_code(errc::wrong_size).message() == "WrongSize");
    try {
        throw gearlongan::error(errc::full);
    } catch (const std::system_error &thrown) {
        CHECK(thrown.code() == errc::full && std::string(thrown.what()) == "Full");
    }
}
