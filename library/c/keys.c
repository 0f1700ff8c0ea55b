/* The keys of a heap whose passes were gathered, one after the other. */
#include "kept.h"

static void null_and_empty(void) {
    shardheap heap = SHARDHEAP_INIT;
    uint64_t place = 55, key = 77;
    IS(shardheap_next_key(0, &place, &key), SHARDHEAP_NULL);
    IS(shardheap_next_key(&heap, 0, &key), SHARDHEAP_NULL);
    IS(shardheap_next_key(&heap, &place, 0), SHARDHEAP_NULL);
    IS(shardheap_next_key(&heap, &place, &key), SHARDHEAP_EMPTY);
    TRUE(place == 55 && key == 77);
}

static void fills(shardheap_pass *owner, shardheap_pass *other, uint64_t shard) {
    IS(shardheap_adopt(owner, shard), SHARDHEAP_OK);
    keeps(owner, other, 20);
    IS(shardheap_leave(owner), SHARDHEAP_OK);
}

static uint32_t next_of_heap(void *heap, uint64_t *place, uint64_t *key) {
    return shardheap_next_key(heap, place, key);
}

static void keys_of(uint32_t layout) {
    shardheap heap = SHARDHEAP_INIT;
    shardheap_pass one = SHARDHEAP_INIT, two = SHARDHEAP_INIT;
    uint64_t place = 55, key = 77, room[16], length;
    count = 0;
    IS(shardheap_open(&heap, layout, 2, 2, 2), SHARDHEAP_OK);
    IS(shardheap_take(&heap, &one), SHARDHEAP_OK);
    IS(shardheap_take(&heap, &two), SHARDHEAP_OK);
    fills(&one, &two, 1);
    fills(&two, &one, 0);
    IS(shardheap_next_key(&heap, &place, &key), SHARDHEAP_AWAY);
    TRUE(place == 55 && key == 77);
    IS(shardheap_give(&one), SHARDHEAP_OK);
    IS(shardheap_give(&two), SHARDHEAP_OK);
    IS(shardheap_gather(&heap), SHARDHEAP_OK);
    each_once(next_of_heap, &heap);
    /* the pass that is left goes on, and then the keys are others */
    IS(shardheap_take(&heap, &one), SHARDHEAP_OK);
    IS(shardheap_take_value(&one, kept[--count], room, 16, &length), SHARDHEAP_OK);
    IS(shardheap_take_value(&one, kept[--count], room, 16, &length), SHARDHEAP_OK);
    IS(shardheap_give(&one), SHARDHEAP_OK);
    each_once(next_of_heap, &heap);
    shardheap_close(&heap);
}

static void of_no_keys(void) {
    shardheap heap = SHARDHEAP_INIT;
    uint64_t place = 0, key = 77;
    IS(shardheap_open(&heap, SHARDHEAP_WIDE, 2, 1, 1), SHARDHEAP_OK);
    IS(shardheap_next_key(&heap, &place, &key), SHARDHEAP_NO_KEY);
    TRUE(place == 0 && key == 77);
    shardheap_close(&heap);
}

int main(void) {
    null_and_empty();
    for (uint32_t layout = SHARDHEAP_WIDE; layout <= SHARDHEAP_TINY; layout++) keys_of(layout);
    of_no_keys();
    printf("keys: %d checks passed\n", checks);
    return 0;
}
