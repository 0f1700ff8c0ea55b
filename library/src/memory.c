/* The functions by which the library takes and returns memory, over the C library's malloc, aligned_alloc, realloc and
   free. A program that links libc_exports.a links this file too; libshardheap.a and libshardheap.so have it inside.

   The library calls them under these names, which are the toolchain's, and no other program calls them. Blocks have at
   most 2^63 - 1 bytes and an alignment that divides 16, as every block of malloc has. A large block is aligned to more,
   for speed alone: the words of a heap's table are one block, which is never made larger or smaller. */
#define _DEFAULT_SOURCE 1 /* for madvise */
#include <stdbool.h>
#include <stddef.h>
#include <stdint.h>
#include <stdlib.h>
#include <sys/mman.h>

/* What a request returns: whether there is memory, and its address. A refused one returns a pointer that is not null,
   to memory that nobody reads or writes. */
struct shardheap_tried {
    bool ok;
    void *at;
};

struct shardheap_tried rattle_alloc(size_t size, size_t alignment);
struct shardheap_tried rattle_realloc(void *at, size_t kept, size_t size, size_t alignment);
void rattle_dealloc(void *at);

/* The sizes of x86-64: of a line of the cache, and of what one entry of the TLB maps, which Linux calls a page and a
   huge page. */
enum { LINE = 64, PAGE = 4096, HUGE_PAGE = 2 << 20 };

static struct shardheap_tried tried(void *at) {
    static max_align_t nothing;
    return (struct shardheap_tried){at != NULL, at ? at : &nothing};
}

/* malloc may return null for 0 bytes, and realloc may free the block. So the least size is one alignment. */
static size_t at_least(size_t size, size_t alignment) {
    return size ? size : alignment;
}

/* A block at a multiple of this power of two, or null. aligned_alloc takes sizes that are a multiple of it. No block
   has more than PTRDIFF_MAX bytes, so the sum does not wrap. */
static void *aligned(size_t size, size_t unit) {
    if (size > PTRDIFF_MAX - unit) return NULL;
    return aligned_alloc(unit, (size + unit - 1) / unit * unit);
}

/* A block at a multiple of a huge page, or null. The system is asked to map the whole huge pages of these bytes as
   such, so that reads of many values need fewer entries of the TLB. The block is the same if it refuses. */
static void *in_huge_pages(size_t size) {
    void *at = aligned(size, HUGE_PAGE);
    if (at) (void)madvise(at, size, MADV_HUGEPAGE);
    return at;
}

/* A new block, or null. One of a page or more begins with a line, so that words which a call reads together lie in one
   line. From two huge pages on, what is lost before the block is less than the block has. */
static void *block(size_t size) {
    if (size < PAGE) return malloc(size);
    return size < 2 * HUGE_PAGE ? aligned(size, LINE) : in_huge_pages(size);
}

/* A new block. */
struct shardheap_tried rattle_alloc(size_t size, size_t alignment) {
    return tried(block(at_least(size, alignment)));
}

/* Another size for a block, whose first `kept` bytes stay as they are. A refused block stays whole. A block that moves
   is aligned as every block of malloc, and no more. */
struct shardheap_tried rattle_realloc(void *at, size_t kept, size_t size, size_t alignment) {
    (void)kept; /* realloc knows the size of the block */
    return tried(realloc(at, at_least(size, alignment)));
}

/* The end of a block. */
void rattle_dealloc(void *at) {
    free(at);
}
