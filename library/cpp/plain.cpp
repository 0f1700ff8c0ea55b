// The calls of a program that is compiled without exceptions and without type information (-fno-exceptions -fno-rtti).
#include "shardheap.hpp"

#include <array>
#include <cstdio>
#include <cstdlib>
#include <thread>
#include <utility>

#ifdef __cpp_exceptions
#error "it is to be compiled with -fno-exceptions"
#endif

using gearlongan::errc;

namespace {

void check(bool what, int line) {
    if (what) return;
    std::fprintf(stderr, "plain.cpp:%d\n", line);
    std::abort();
}
#define IS_OK(call) check((call) == errc::ok, __LINE__)
#define CHECK(...) check((__VA_ARGS__), __LINE__)

void removes(gearlongan::pass pass, gearlongan::key key, gearlongan::receipt receipt) {
    gearlongan::guard guard;
    gearlongan::value value;
    IS_OK(pass.try_heed(receipt));
    CHECK(!receipt && pass.try_heed(receipt) == errc::empty);
    IS_OK(pass.try_get(key, guard));
    IS_OK(pass.try_remove(key));
    IS_OK(guard.try_read(value));
    CHECK(value.size() == 2 && value[1] == 8);
    guard.reset();
    CHECK(pass.try_load(key, value) == errc::gone);
    CHECK(pass.try_get(key, guard) == errc::gone && !guard);
    CHECK(pass.try_take(key, value) == errc::gone);
}

void one_round(gearlongan::heap &heap) {
    gearlongan::pass pass, other;
    gearlongan::shard shard;
    gearlongan::key key, record;
    IS_OK(heap.try_take(pass));
    IS_OK(heap.try_take(other));
    CHECK(heap.try_take(pass) == errc::occupied);
    CHECK(pass.try_adopt(9, shard) == errc::no_shard && pass && !shard);
    IS_OK(pass.try_adopt(0, shard));
    std::uint32_t page = 99;
    std::uint64_t pages = 99, slots = 99, removed = 99;
    CHECK(shard.try_prepare(17, page) == errc::too_long && page == 99);
    IS_OK(shard.try_insert({7, 8}, key));
    IS_OK(shard.try_insert_record(1.5, record));
    double read = 0;
    IS_OK(shard.try_load_record(record, read));
    CHECK(read > 1.4 && read < 1.6);
    IS_OK(shard.try_pages_left(pages));
    IS_OK(shard.try_slots_out(slots));
    CHECK(pages == 6 && slots == 2);
    gearlongan::live_key met;
    std::uint64_t from = 0;
    IS_OK(other.try_next_live(from, met));
    CHECK(met.key == key && met.value.size() == 2);
    IS_OK(other.try_remove_if([](gearlongan::key, const gearlongan::value &value) { return value.empty(); }, removed));
    CHECK(removed == 0);
    std::uint64_t place = 0;
    gearlongan::key first, second, none;
    IS_OK(shard.try_next_key(place, first));
    IS_OK(shard.try_next_key(place, second));
    CHECK(shard.try_next_key(place, none) == errc::no_key && first != second);
    CHECK((first == key || first == record) && (second == key || second == record));
    CHECK(shard.try_take_record(key, read) == errc::wrong_size);
    IS_OK(shard.try_take_record(record, read));
    CHECK(shard.try_take_record(record, read) == errc::gone);
    gearlongan::receipt receipt;
    IS_OK(shard.try_receipt(receipt));
    CHECK(shard.try_receipt(receipt) == errc::occupied);
    std::thread(removes, std::move(other), key, std::move(receipt)).join();
    IS_OK(shard.try_collect());
    IS_OK(shard.try_leave(pass));
    CHECK(pass && !shard);
}

} // namespace

int main() {
    gearlongan::heap heap;
    gearlongan::totals sums{};
    CHECK(heap.try_totals(sums) == errc::empty);
    IS_OK(heap.try_open(gearlongan::layout::tagged, {1, 1, 2}));
    for (int round = 0; round < 100; round++) one_round(heap); // both passes are at home again each time
    IS_OK(heap.try_gather());
    IS_OK(heap.try_totals(sums));
    CHECK(sums.live == 0 && heap.passes() == 2);
    std::uint64_t place = 0;
    gearlongan::key key;
    CHECK(heap.try_next_key(place, key) == errc::no_key && place == 0);
    std::error_code code = heap.try_gather();
    CHECK(!code && std::error_code(errc::full).message() == "Full");
    std::puts("plain: 100 rounds without exceptions");
}
