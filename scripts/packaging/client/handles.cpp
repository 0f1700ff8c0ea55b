// The example in the head of shardheap.hpp, as a program.
#include <cassert>
#include <cstdio>
#include <shardheap.hpp>

int main() {
    auto heap = gearlongan::heap::open_for(gearlongan::layout::wide, {1, 20000, 2, 8});
    auto shard = heap.take().adopt(0);
    auto pass = heap.take();
    gearlongan::key key = shard.insert({7, 8});
    gearlongan::guard guard = pass.get(key);
    shard.remove(key);
    if (guard.read()[1] != 8 || pass.load(key)) return 1;
    std::puts("handles: a guard keeps its value");
    return 0;
}
