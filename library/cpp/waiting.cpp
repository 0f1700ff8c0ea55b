// What happens to a shard that cannot be left, to memory that is refused, and to a key that another pass removes in the
// middle of a call. The program is linked with --wrap for each call below that is named `__wrap_..`. These calls are
// refused as often as a test says; after a load another pass removes the key, if a test says so.
#include "check.hpp"

#include <utility>

using gearlongan::errc;
using gearlongan::layout;

namespace {

int leaves_refused, leaves, takes_refused, receipts_refused;
gearlongan::pass *removes_after_load;

} // namespace

extern "C" {
// NOLINTBEGIN(bugprone-reserved-identifier)
std::uint32_t __real_shardheap_raw_leave(shardheap_pass *pass);
std::uint32_t __real_shardheap_raw_take(shardheap *heap, shardheap_pass *pass);
std::uint32_t __real_shardheap_raw_receipt_make(shardheap_pass *pass, shardheap_receipt *receipt);
std::uint32_t __real_shardheap_raw_load(shardheap_pass *pass, std::uint64_t key, std::uint64_t *words, std::size_t room,
                                        std::uint64_t *length);
std::uint32_t __wrap_shardheap_raw_leave(shardheap_pass *pass);
std::uint32_t __wrap_shardheap_raw_take(shardheap *heap, shardheap_pass *pass);
std::uint32_t __wrap_shardheap_raw_receipt_make(shardheap_pass *pass, shardheap_receipt *receipt);
std::uint32_t __wrap_shardheap_raw_load(shardheap_pass *pass, std::uint64_t key, std::uint64_t *words, std::size_t room,
                                        std::uint64_t *length);

std::uint32_t __wrap_shardheap_raw_leave(shardheap_pass *pass) {
    leaves++;
    if (leaves_refused == 0) return __real_shardheap_raw_leave(pass);
    leaves_refused--;
    return SHARDHEAP_WAITING;
}

std::uint32_t __wrap_shardheap_raw_take(shardheap *heap, shardheap_pass *pass) {
    if (takes_refused == 0) return __real_shardheap_raw_take(heap, pass);
    takes_refused--;
    return SHARDHEAP_MEMORY;
}

std::uint32_t __wrap_shardheap_raw_receipt_make(shardheap_pass *pass, shardheap_receipt *receipt) {
    if (receipts_refused == 0) return __real_shardheap_raw_receipt_make(pass, receipt);
    receipts_refused--;
    return SHARDHEAP_MEMORY;
}

std::uint32_t __wrap_shardheap_raw_load(shardheap_pass *pass, std::uint64_t key, std::uint64_t *words, std::size_t room,
                                        std::uint64_t *length) {
    const std::uint32_t code = __real_shardheap_raw_load(pass, key, words, room, length);
    if (removes_after_load) CHECK(removes_after_load->remove(gearlongan::key(key)));
    return code;
}
// NOLINTEND(bugprone-reserved-identifier)
}

TEST(a_leave_is_refused_and_tried_again) {
    auto heap = gearlongan::heap::open(layout::wide, {1, 1, 1});
    auto shard = heap.take().adopt(0);
    const auto key = shard.insert({7});
    gearlongan::pass pass;
    leaves_refused = 2;
    IS(shard.try_leave(pass), waiting);
    CHECK(!pass && shard.load(key)); // it serves as before
    THROWS(std::move(shard).leave(), waiting);
    CHECK(shard.remove(key)); // NOLINT(bugprone-use-after-move)
    IS(shard.try_leave(pass), ok);
    CHECK(pass && !shard);
}

TEST(a_destructor_leaves_in_the_end) {
    auto heap = gearlongan::heap::open(layout::wide, {1, 1, 1});
    {
        auto shard = heap.take().adopt(0);
        leaves = 0;
        leaves_refused = 900;
    }
    CHECK(leaves == 901 && leaves_refused == 0);
    CHECK(heap.take().adopt(0).insert({7}) != gearlongan::key(7)); // the pass is at home, and the shard is left
}

TEST(a_destructor_gives_up) {
    auto heap = gearlongan::heap::open(layout::wide, {1, 1, 2});
    {
        auto shard = heap.take().adopt(0);
        leaves = 0;
        leaves_refused = 1 << 30;
    }
    CHECK(leaves == 1000);
    leaves_refused = 0;
    THROWS(heap.take().adopt(0), taken); // no other owns the shard again
    auto pass = heap.take();
    THROWS(heap.take(), no_pass); // and the heap has one pass less
    THROWS(heap.gather(), away);
}

TEST(an_assignment_closes_what_was_there) {
    auto heap = gearlongan::heap::open(layout::wide, {2, 1, 2});
    auto shard = heap.take().adopt(0), other = heap.take().adopt(1);
    leaves = 0;
    leaves_refused = 5;
    shard = std::move(other);
    CHECK(leaves == 6 && shard && !other); // NOLINT(bugprone-use-after-move)
    CHECK(heap.take().adopt(0).insert({7}) != gearlongan::key(7));
}

TEST(memory_that_is_refused) {
    auto heap = gearlongan::heap::open(layout::wide, {1, 1, 1});
    gearlongan::pass pass;
    takes_refused = 2;
    IS(heap.try_take(pass), memory);
    CHECK(!pass);
    THROWS(heap.take(), memory);
    IS(heap.try_take(pass), ok);
    gearlongan::receipt receipt;
    receipts_refused = 2;
    IS(pass.try_receipt(receipt), memory);
    CHECK(!receipt);
    THROWS(pass.receipt(), memory);
    IS(pass.try_receipt(receipt), ok);
}

TEST(a_record_that_another_has_meanwhile) {
    auto heap = gearlongan::heap::open(layout::wide, {1, 1, 2});
    auto shard = heap.take().adopt(0);
    auto pass = heap.take();
    const auto key = shard.insert_record(1.5), second = shard.insert_record(2.5);
    double read = 0;
    removes_after_load = &pass;
    IS(shard.try_take_record(key, read), gone);
    CHECK(!shard.take_record<double>(second) && read == 0);
    removes_after_load = nullptr;
}

int main(int argc, char **argv) { return run_tests(argc, argv); }
