/* A shard whose values another pass removed takes values of another length, once what was freed is collected. */
#include "check.h"

static uint64_t words[16] = {1, 2, 3, 4, 5, 6, 7, 8, 9, 10, 11, 12, 13, 14, 15, 16};

int main(void) {
    shardheap heap = SHARDHEAP_INIT;
    shardheap_pass owner = SHARDHEAP_INIT, other = SHARDHEAP_INIT;
    static uint64_t keys[384];
    uint64_t key, large = 0;
    IS(shardheap_open(&heap, SHARDHEAP_WIDE, 1, 1, 2), SHARDHEAP_OK);
    IS(shardheap_take(&heap, &owner), SHARDHEAP_OK);
    IS(shardheap_take(&heap, &other), SHARDHEAP_OK);
    IS(shardheap_adopt(&owner, 0), SHARDHEAP_OK);
    /* 8 pages of 48 slots */
    for (int i = 0; i < 384; i++) IS(shardheap_insert(&owner, words, 1, &keys[i]), SHARDHEAP_OK);
    IS(shardheap_insert(&owner, words, 1, &key), SHARDHEAP_FULL);
    for (int i = 0; i < 384; i++) IS(shardheap_remove(&other, keys[i]), SHARDHEAP_OK);
    IS(shardheap_insert_once(&owner, words, 16, &key), SHARDHEAP_FULL);
    IS(shardheap_insert(&owner, words, 16, &key), SHARDHEAP_OK);
    /* 8 pages of 3 slots, of which one is taken */
    while (shardheap_insert_once(&owner, words, 16, &key) == SHARDHEAP_OK) large++;
    TRUE(large == 23);
    IS(shardheap_leave(&owner), SHARDHEAP_OK);
    IS(shardheap_give(&owner), SHARDHEAP_OK);
    IS(shardheap_give(&other), SHARDHEAP_OK);
    shardheap_close(&heap);
    printf("reuse: %d checks passed\n", checks);
    return 0;
}
