// costs LOOP ROUNDS: a loop by the calls of shardheap.h (get_c), or the same by the C++ header (get_cpp). costs.py
// counts the instructions of both.
#include "shardheap.hpp"

#include <array>
#include <cstdio>
#include <cstdlib>
#include <cstring>

namespace {

struct both {
    gearlongan::heap heap;
    gearlongan::shard shard;
    gearlongan::pass pass;
    gearlongan::key key;
};

volatile std::uint64_t sum;

[[noreturn]] void fail() { std::abort(); }

void get_c(both &with, std::uint64_t rounds) {
    shardheap_pass *pass = with.pass.raw();
    const std::uint64_t key = with.key.number();
    for (std::uint64_t at = 0; at < rounds; at++) {
        if (shardheap_get(pass, key) != SHARDHEAP_OK) fail();
        if (shardheap_release(pass, key) != SHARDHEAP_OK) fail();
    }
}

void get_cpp(both &with, std::uint64_t rounds) {
    for (std::uint64_t at = 0; at < rounds; at++) (void)with.pass.get(with.key);
}

void try_get_cpp(both &with, std::uint64_t rounds) {
    for (std::uint64_t at = 0; at < rounds; at++) {
        gearlongan::guard guard;
        if (with.pass.try_get(with.key, guard) != gearlongan::errc::ok) fail();
    }
}

void load_c(both &with, std::uint64_t rounds) {
    for (std::uint64_t at = 0; at < rounds; at++) {
        std::uint64_t words[16], length = 0;
        if (shardheap_load(with.pass.raw(), with.key.number(), words, 16, &length) != SHARDHEAP_OK) fail();
        sum = words[0];
    }
}

void load_cpp(both &with, std::uint64_t rounds) {
    for (std::uint64_t at = 0; at < rounds; at++) sum = with.pass.load(with.key)->front();
}

void read_c(both &with, std::uint64_t rounds) {
    for (std::uint64_t at = 0; at < rounds; at++) {
        std::uint64_t words[16], length = 0;
        if (shardheap_get(with.pass.raw(), with.key.number()) != SHARDHEAP_OK) fail();
        if (shardheap_read(with.pass.raw(), with.key.number(), words, 16, &length) != SHARDHEAP_OK) fail();
        sum = words[0];
        if (shardheap_release(with.pass.raw(), with.key.number()) != SHARDHEAP_OK) fail();
    }
}

void read_cpp(both &with, std::uint64_t rounds) {
    for (std::uint64_t at = 0; at < rounds; at++) sum = with.pass.get(with.key).read().front();
}

void insert_c(both &with, std::uint64_t rounds) {
    for (std::uint64_t at = 0; at < rounds; at++) {
        const std::uint64_t words[2] = {at, 8};
        std::uint64_t key = 0;
        if (shardheap_insert(with.shard.raw(), words, 2, &key) != SHARDHEAP_OK) fail();
        if (shardheap_remove(with.shard.raw(), key) != SHARDHEAP_OK) fail();
    }
}

void insert_cpp(both &with, std::uint64_t rounds) {
    for (std::uint64_t at = 0; at < rounds; at++)
        if (!with.shard.remove(with.shard.insert({at, 8}))) fail();
}

struct loop {
    const char *name;
    void (*run)(both &, std::uint64_t);
};
const std::array<loop, 9> loops{{{"get_c", get_c},
                                 {"get_cpp", get_cpp},
                                 {"try_get_cpp", try_get_cpp},
                                 {"load_c", load_c},
                                 {"load_cpp", load_cpp},
                                 {"read_c", read_c},
                                 {"read_cpp", read_cpp},
                                 {"insert_c", insert_c},
                                 {"insert_cpp", insert_cpp}}};

} // namespace

int main(int argc, char **argv) {
    if (argc != 3) return 2;
    both with;
    with.heap = gearlongan::heap::open(gearlongan::layout::wide, {1, 8, 2});
    with.shard = with.heap.take().adopt(0);
    with.pass = with.heap.take();
    with.key = with.shard.insert({7, 8});
    for (const loop &it : loops)
        if (std::strcmp(it.name, argv[1]) == 0) return it.run(with, std::strtoull(argv[2], nullptr, 10)), 0;
    return 2;
}
