/* library/src/memory.c as the library calls it: blocks of 0 bytes, blocks that grow and shrink, large ones, and refused
   requests, after which a block is as it was. It is linked with --wrap=madvise, so that the advice is seen, and refused
   or not. */
#include "check.h"
#include <string.h>
#include <sys/mman.h>

struct tried {
    bool ok;
    void *at;
};

struct tried rattle_alloc(size_t size, size_t alignment);
struct tried rattle_realloc(void *at, size_t kept, size_t size, size_t alignment);
void rattle_dealloc(void *at);

int __real_madvise(void *at, size_t size, int advice);
int __wrap_madvise(void *at, size_t size, int advice);

#define MORE_THAN_THERE_IS ((size_t)1 << 62)
#define MIB ((size_t)1 << 20)

/* The advice that was given, and whether the next is refused. */
static struct {
    int times, advice;
    void *at;
    size_t size;
} given;
static bool refuses_advice;

int __wrap_madvise(void *at, size_t size, int advice) {
    given.times++;
    given.at = at;
    given.size = size;
    given.advice = advice;
    return refuses_advice ? -1 : __real_madvise(at, size, advice);
}

static bool is_at_multiple(const void *at, size_t of) {
    return (uintptr_t)at % of == 0;
}

static bool is_aligned(const void *at) {
    return is_at_multiple(at, 16);
}

/* Two blocks of 0 bytes are two blocks, each of which takes as many bytes as its alignment. */
static void empty_blocks(void) {
    struct tried one = rattle_alloc(0, 16), two = rattle_alloc(0, 16);
    TRUE(one.ok && two.ok && one.at != two.at && is_aligned(one.at) && is_aligned(two.at));
    memset(one.at, 1, 16);
    memset(two.at, 2, 16);
    TRUE(*(unsigned char *)one.at == 1);
    rattle_dealloc(one.at);
    rattle_dealloc(two.at);
}

/* A block keeps its bytes while it grows, and is still a block when it has shrunk to 0 bytes. */
static void sizes(void) {
    struct tried block = rattle_alloc(8, 8);
    TRUE(block.ok);
    memcpy(block.at, "abcdefg", 8);
    block = rattle_realloc(block.at, 8, 100000, 8);
    TRUE(block.ok && is_aligned(block.at) && memcmp(block.at, "abcdefg", 8) == 0);
    block = rattle_realloc(block.at, 0, 0, 8);
    TRUE(block.ok && is_aligned(block.at));
    block = rattle_realloc(block.at, 0, 64, 8);
    TRUE(block.ok);
    memset(block.at, 3, 64);
    rattle_dealloc(block.at);
}

/* A block of so many bytes, all of which are the caller's. */
static void *of_size(size_t size) {
    struct tried block = rattle_alloc(size, 8);
    TRUE(block.ok && is_aligned(block.at));
    memset(block.at, 5, size);
    return block.at;
}

/* From 4,096 bytes on a block is at a multiple of 64. Two of each size are alive at once: one alone may be there by
   chance. */
static void at_lines(void) {
    const size_t sizes[] = {4096, 4097, 100000, 4 * MIB - 1};
    for (size_t n = 0; n < sizeof sizes / sizeof *sizes; n++) {
        void *one = of_size(sizes[n]), *two = of_size(sizes[n]);
        TRUE(is_at_multiple(one, 64) && is_at_multiple(two, 64));
        rattle_dealloc(one);
        rattle_dealloc(two);
    }
    rattle_dealloc(of_size(4095));
    TRUE(given.times == 0);
}

/* From 4 MiB on a block is at a multiple of 2 MiB, and the system is advised to map it by huge pages. A block is there
   as well if it takes no advice. */
static void at_huge_pages(bool is_refused) {
    const size_t sizes[] = {4 * MIB, 4 * MIB + 1, 6 * MIB, 9 * MIB - 8};
    refuses_advice = is_refused;
    for (size_t n = 0; n < sizeof sizes / sizeof *sizes; n++) {
        given.times = 0;
        void *one = of_size(sizes[n]);
        TRUE(is_at_multiple(one, 2 * MIB));
        TRUE(given.times == 1 && given.at == one && given.size == sizes[n] && given.advice == MADV_HUGEPAGE);
        void *two = of_size(sizes[n]);
        TRUE(is_at_multiple(two, 2 * MIB) && *((unsigned char *)one + sizes[n] - 1) == 5);
        rattle_dealloc(one);
        rattle_dealloc(two);
    }
    refuses_advice = false;
}

/* A large block keeps its bytes when it gets another size, which gives no advice. */
static void large_sizes(void) {
    const size_t sizes[] = {4096, 8 * MIB};
    for (size_t n = 0; n < sizeof sizes / sizeof *sizes; n++) {
        struct tried block = {true, of_size(sizes[n])};
        memcpy(block.at, "abcdefg", 8);
        given.times = 0;
        block = rattle_realloc(block.at, 8, 16 * MIB, 8);
        TRUE(block.ok && is_aligned(block.at) && memcmp(block.at, "abcdefg", 8) == 0);
        memset((char *)block.at + 8, 6, 16 * MIB - 8);
        block = rattle_realloc(block.at, 8, 64, 8);
        TRUE(block.ok && is_aligned(block.at) && memcmp(block.at, "abcdefg", 8) == 0 && given.times == 0);
        rattle_dealloc(block.at);
    }
}

/* A request whose size wraps when it is rounded up to a line or a huge page is refused as one that is too large. */
static void refused_large(void) {
    const size_t sizes[] = {SIZE_MAX, SIZE_MAX - 1, SIZE_MAX - 63, SIZE_MAX - 2 * MIB + 1, SIZE_MAX / 2 + 1,
                            SIZE_MAX / 2, SIZE_MAX / 2 - 63, MORE_THAN_THERE_IS};
    struct tried block = rattle_alloc(4 * MIB, 8);
    TRUE(block.ok);
    given.times = 0;
    for (size_t n = 0; n < sizeof sizes / sizeof *sizes; n++) {
        struct tried none = rattle_alloc(sizes[n], 8);
        TRUE(!none.ok && none.at && none.at != block.at);
    }
    TRUE(given.times == 0);
    rattle_dealloc(block.at);
}

/* A refused request returns a pointer that is not null and that no block has. */
static void refused(void) {
    struct tried none = rattle_alloc(MORE_THAN_THERE_IS, 8), block = rattle_alloc(8, 8);
    TRUE(!none.ok && none.at && block.ok && block.at != none.at);
    memcpy(block.at, "abcdefg", 8);
    none = rattle_realloc(block.at, 8, MORE_THAN_THERE_IS, 8);
    TRUE(!none.ok && none.at && none.at != block.at && memcmp(block.at, "abcdefg", 8) == 0);
    none = rattle_realloc(block.at, 8, SIZE_MAX / 2, 8);
    TRUE(!none.ok && none.at && none.at != block.at && memcmp(block.at, "abcdefg", 8) == 0);
    rattle_dealloc(block.at);
}

/* The library itself takes and returns its blocks by these functions. */
static void of_the_library(void) {
    shardheap heap = SHARDHEAP_INIT;
    IS(shardheap_open(&heap, SHARDHEAP_TINY, 1, 1, 1), SHARDHEAP_OK);
    shardheap_close(&heap);
}

int main(void) {
    of_the_library();
    empty_blocks();
    sizes();
    at_lines();
    at_huge_pages(false);
    at_huge_pages(true);
    large_sizes();
    refused();
    refused_large();
    puts("blocks: of 0 bytes, of several sizes, large ones, and refused ones");
    return 0;
}
