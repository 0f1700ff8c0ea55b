/* Each allocation refused in turn: a call that takes memory answers MEMORY and leaves all as it was, so that it may be
   tried again, and in the end no block is left over. It is linked with --wrap=malloc, --wrap=aligned_alloc,
   --wrap=realloc and --wrap=free, so that what the library asks for is counted here. */
#include "check.h"
#include "wrapped.h"

static long budget = -1, blocks, granted; /* how many allocations are still granted; no bound below 0 */

static int refuses(void) {
    if (budget == 0) return 1;
    if (budget > 0) budget--;
    granted++;
    return 0;
}

void *__wrap_malloc(size_t size) {
    if (refuses()) return NULL;
    blocks++;
    return __real_malloc(size);
}

void *__wrap_aligned_alloc(size_t alignment, size_t size) {
    if (refuses()) return NULL;
    blocks++;
    return __real_aligned_alloc(alignment, size);
}

void *__wrap_realloc(void *at, size_t size) {
    if (refuses()) return NULL;
    blocks += at == NULL;
    return __real_realloc(at, size);
}

void __wrap_free(void *at) {
    blocks -= at != NULL;
    __real_free(at);
}

static uint64_t words[16] = {1, 2, 3};

/* A call that was refused memory, or not. A refused one is tried again with memory, and then it does what it does. */
static int refused;
#define TRY(call, stands)                                         \
    do {                                                          \
        uint32_t code = (call);                                   \
        if (code == SHARDHEAP_MEMORY) {                           \
            refused++;                                            \
            TRUE(stands);                                         \
            budget = -1;                                          \
            code = (call);                                        \
        }                                                         \
        same_code(code, SHARDHEAP_OK, #call, __FILE__, __LINE__); \
    } while (0)

/* An owner of a shard inserts, prepares a page in a further segment and leaves; another reads and removes. */
static void owns(shardheap_pass *one, shardheap_pass *two) {
    shardheap_receipt receipt = SHARDHEAP_INIT;
    uint64_t key = 77, room[16], length, other = 77;
    uint32_t page = 55;
    TRY(shardheap_adopt(one, 0), shardheap_leave(one) == SHARDHEAP_NO_SHARD);
    TRY(shardheap_insert(one, words, 3, &key), key == 77);
    TRY(shardheap_receipt_make(one, &receipt), !receipt.full);
    IS(shardheap_heed(two, &receipt), SHARDHEAP_OK);
    for (int n = 0; n < 7; n++) IS(shardheap_prepare(one, 16, &page), SHARDHEAP_OK);
    page = 55;
    TRY(shardheap_prepare(one, 16, &page), page == 55);
    TRY(shardheap_insert(one, words, 1, &other), other == 77);
    IS(shardheap_load(two, key, room, 16, &length), SHARDHEAP_OK);
    TRUE(length == 3 && room[2] == 3);
    IS(shardheap_remove(two, key), SHARDHEAP_OK);
    IS(shardheap_leave(one), SHARDHEAP_OK);
}

/* An owner of the other shard, whose first insert opens a segment. */
static void owns_another(shardheap_pass *one) {
    uint64_t key = 77;
    TRY(shardheap_adopt(one, 1), shardheap_leave(one) == SHARDHEAP_NO_SHARD);
    TRY(shardheap_insert_once(one, words, 16, &key), key == 77);
    IS(shardheap_remove(one, key), SHARDHEAP_OK);
    IS(shardheap_leave(one), SHARDHEAP_OK);
}

/* A heap that is opened for a number of values, and whose pass is lost: its block is freed too. */
static void opens_for(uint32_t layout) {
    shardheap heap = SHARDHEAP_INIT;
    shardheap_pass pass = SHARDHEAP_INIT;
    TRY(shardheap_open_for(&heap, layout, 2, 100, 2, 2), !heap.full);
    TRUE(shardheap_passes(&heap) == 2);
    TRY(shardheap_take(&heap, &pass), !pass.full && heap.full);
    shardheap_close(&heap);
    IS(shardheap_pass_lose(&pass), SHARDHEAP_OK);
    TRUE(blocks == 0);
}

/* A second handle of the heap keeps it, and a pass that is closed or lost frees its block. */
static void shares(uint32_t layout) {
    shardheap heap = SHARDHEAP_INIT, other = SHARDHEAP_INIT;
    shardheap_pass one = SHARDHEAP_INIT, two = SHARDHEAP_INIT;
    TRY(shardheap_open(&heap, layout, 1, 1, 2), !heap.full);
    TRY(shardheap_share(&heap, &other), !other.full && heap.full);
    shardheap_close(&heap);
    TRY(shardheap_take(&other, &one), !one.full && other.full);
    TRY(shardheap_take(&other, &two), !two.full && other.full);
    IS(shardheap_pass_close(&one), SHARDHEAP_OK);
    IS(shardheap_pass_lose(&two), SHARDHEAP_OK);
    shardheap_close(&other);
    TRUE(blocks == 0);
}

/* A growing heap: chunk 0 has 24 slots for 16 words, and the 25th value opens chunk 1. */
static void grows(void) {
    shardheap heap = SHARDHEAP_INIT, other = SHARDHEAP_INIT;
    shardheap_pass one = SHARDHEAP_INIT, two = SHARDHEAP_INIT;
    shardheap_receipt receipt = SHARDHEAP_INIT;
    uint64_t room[16], length;
    TRY(shardheap_open_growing(&heap, 1, 1, 16, 2, 3), !heap.full);
    TRY(shardheap_share(&heap, &other), !other.full && heap.full);
    shardheap_close(&heap);
    TRY(shardheap_take(&other, &one), !one.full && other.full);
    TRY(shardheap_take(&other, &two), !two.full && other.full);
    for (int n = 0; n < 25; n++) {
        uint64_t key = 77;
        TRY(shardheap_insert(&one, words, 16, &key), key == 77);
        IS(shardheap_load(&two, key, room, 16, &length), SHARDHEAP_OK);
        TRUE(length == 16 && room[2] == 3);
    }
    TRUE(shardheap_chunks(&other) == 2);
    TRY(shardheap_receipt_make(&one, &receipt), !receipt.full);
    IS(shardheap_heed(&two, &receipt), SHARDHEAP_OK);
    IS(shardheap_give(&one), SHARDHEAP_OK);
    IS(shardheap_pass_lose(&two), SHARDHEAP_OK);
    shardheap_close(&other);
    TRUE(blocks == 0);
}

/* A heap's whole life. */
static void lives(uint32_t layout) {
    shardheap heap = SHARDHEAP_INIT;
    shardheap_pass one = SHARDHEAP_INIT, two = SHARDHEAP_INIT;
    shardheap_sums sums = {9, 9, 9, 9, 9, 9};
    TRY(shardheap_open(&heap, layout, 2, 2, 2), !heap.full);
    TRY(shardheap_take(&heap, &one), !one.full && heap.full);
    TRY(shardheap_take(&heap, &two), !two.full && heap.full);
    owns(&one, &two);
    owns_another(&one);
    IS(shardheap_give(&one), SHARDHEAP_OK);
    IS(shardheap_give(&two), SHARDHEAP_OK);
    TRY(shardheap_gather(&heap), shardheap_totals(&heap, &sums) == SHARDHEAP_AWAY);
    IS(shardheap_totals(&heap, &sums), SHARDHEAP_OK);
    TRUE(sums.live == 1);
    shardheap_close(&heap);
    TRUE(blocks == 0);
    opens_for(layout);
    shares(layout);
    if (layout == SHARDHEAP_DEEP) grows();
}

/* How many allocations a life in this layout takes, each of which is refused in turn. */
static long refuses_each(uint32_t layout) {
    granted = 0;
    lives(layout);
    long all = granted;
    TRUE(refused == 0);
    for (long n = 0; n < all; n++) {
        budget = n;
        refused = 0;
        lives(layout);
        TRUE(refused == 1);
    }
    budget = -1;
    refused = 0;
    return all;
}

int main(void) {
    long all = 0;
    for (uint32_t layout = 0; layout < 4; layout++) all += refuses_each(layout);
    printf("memory: each of %ld allocations refused in turn, and no block is left over\n", all);
    return 0;
}
