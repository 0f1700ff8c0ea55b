/* Values that are taken, by one thread alone; and what an owner knows of how full its shard is. */
#include "check.h"
#include <pthread.h>
#include <stdatomic.h>

#define THREADS 4
#define VALUES 5000

static uint64_t words[16] = {7, 8, 9};

static void null_and_empty(void) {
    shardheap_pass pass = SHARDHEAP_INIT;
    uint64_t room[16] = {0}, length = 99, count = 77;
    IS(shardheap_take_value(0, 1, room, 16, &length), SHARDHEAP_NULL);
    IS(shardheap_take_value(&pass, 1, 0, 16, &length), SHARDHEAP_NULL);
    IS(shardheap_take_value(&pass, 1, room, 16, 0), SHARDHEAP_NULL);
    IS(shardheap_pages_left(0, &count), SHARDHEAP_NULL);
    IS(shardheap_pages_left(&pass, 0), SHARDHEAP_NULL);
    IS(shardheap_slots_out(0, &count), SHARDHEAP_NULL);
    IS(shardheap_slots_out(&pass, 0), SHARDHEAP_NULL);
    IS(shardheap_take_value(&pass, 4096, room, 16, &length), SHARDHEAP_EMPTY);
    IS(shardheap_pages_left(&pass, &count), SHARDHEAP_EMPTY);
    IS(shardheap_slots_out(&pass, &count), SHARDHEAP_EMPTY);
    TRUE(room[0] == 0 && length == 99 && count == 77);
}

/* By a pass that owns the shard, or by another. In layout tiny a key may have 4 holds; elsewhere a pass has 16. */
static void takes(shardheap_pass *owner, shardheap_pass *p, uint32_t layout) {
    int most = layout == SHARDHEAP_TINY ? 4 : 16;
    uint32_t beyond = layout == SHARDHEAP_TINY ? SHARDHEAP_CROWDED : SHARDHEAP_HOLDS_FULL;
    uint64_t room[16] = {0}, length = 99, key, empty;
    IS(shardheap_insert(owner, words, 3, &key), SHARDHEAP_OK);
    IS(shardheap_insert(owner, 0, 0, &empty), SHARDHEAP_OK);
    IS(shardheap_take_value(p, (key & ~(UINT64_MAX >> 8)) | UINT64_MAX >> 8, room, 16, &length), SHARDHEAP_BAD_KEY);
    for (int n = 0; n < most; n++) IS(shardheap_get(p, key), SHARDHEAP_OK);
    IS(shardheap_take_value(p, key, room, 16, &length), beyond);
    TRUE(length == 99);
    for (int n = 1; n < most; n++) IS(shardheap_release(p, key), SHARDHEAP_OK);
    /* one that does not fit stays */
    IS(shardheap_take_value(p, key, room, 2, &length), SHARDHEAP_SHORT);
    TRUE(length == 3 && room[0] == 0);
    IS(shardheap_take_value(p, key, 0, 0, &length), SHARDHEAP_SHORT);
    IS(shardheap_load(p, key, room, 16, &length), SHARDHEAP_OK);
    room[0] = 0;
    IS(shardheap_take_value(p, key, room, 3, &length), SHARDHEAP_OK);
    TRUE(length == 3 && room[0] == 7 && room[1] == 8 && room[2] == 9 && room[3] == 0);
    length = 99;
    IS(shardheap_take_value(p, key, room, 16, &length), SHARDHEAP_GONE);
    IS(shardheap_load(p, key, room, 16, &length), SHARDHEAP_GONE);
    TRUE(length == 99);
    /* the hold from before is there, and its value */
    IS(shardheap_read(p, key, room, 16, &length), SHARDHEAP_OK);
    IS(shardheap_release(p, key), SHARDHEAP_OK);
    IS(shardheap_release(p, key), SHARDHEAP_NOT_HELD);
    IS(shardheap_take_value(p, empty, 0, 0, &length), SHARDHEAP_OK);
    TRUE(length == 0);
    IS(shardheap_take_value(p, empty, 0, 0, &length), SHARDHEAP_GONE);
}

/* Three values of a word in a shard of 8 pages: one page has a class. What another freed is out until a collect. */
static void counts(shardheap_pass *owner, shardheap_pass *p) {
    uint64_t pages = 99, slots = 99, keys[3], length, room[16];
    IS(shardheap_pages_left(p, &pages), SHARDHEAP_NO_SHARD);
    IS(shardheap_slots_out(p, &slots), SHARDHEAP_NO_SHARD);
    TRUE(pages == 99 && slots == 99);
    IS(shardheap_pages_left(owner, &pages), SHARDHEAP_OK);
    IS(shardheap_slots_out(owner, &slots), SHARDHEAP_OK);
    TRUE(pages == 8 && slots == 0);
    for (int n = 0; n < 3; n++) IS(shardheap_insert(owner, words, 1, &keys[n]), SHARDHEAP_OK);
    IS(shardheap_pages_left(owner, &pages), SHARDHEAP_OK);
    IS(shardheap_slots_out(owner, &slots), SHARDHEAP_OK);
    TRUE(pages == 7 && slots == 3);
    IS(shardheap_take_value(owner, keys[0], room, 16, &length), SHARDHEAP_OK);
    IS(shardheap_take_value(p, keys[1], room, 16, &length), SHARDHEAP_OK);
    IS(shardheap_slots_out(owner, &slots), SHARDHEAP_OK);
    TRUE(slots == 2);
    IS(shardheap_collect(owner), SHARDHEAP_OK);
    IS(shardheap_slots_out(owner, &slots), SHARDHEAP_OK);
    TRUE(slots == 1);
    IS(shardheap_remove(owner, keys[2]), SHARDHEAP_OK);
    IS(shardheap_slots_out(owner, &slots), SHARDHEAP_OK);
    TRUE(slots == 0);
}

static void each_of(uint32_t layout) {
    shardheap heap = SHARDHEAP_INIT;
    shardheap_pass one = SHARDHEAP_INIT, two = SHARDHEAP_INIT;
    IS(shardheap_open(&heap, layout, 1, 1, 2), SHARDHEAP_OK);
    IS(shardheap_take(&heap, &one), SHARDHEAP_OK);
    IS(shardheap_take(&heap, &two), SHARDHEAP_OK);
    IS(shardheap_adopt(&one, 0), SHARDHEAP_OK);
    counts(&one, &two);
    takes(&one, &one, layout);
    takes(&one, &two, layout);
    IS(shardheap_leave(&one), SHARDHEAP_OK);
    IS(shardheap_give(&one), SHARDHEAP_OK);
    IS(shardheap_give(&two), SHARDHEAP_OK);
    shardheap_close(&heap);
}

/* All threads take the same keys, in the same order: each value comes once. */
static uint64_t keys[VALUES];
static _Atomic int owners_of[VALUES], wrong;

static void *takes_all(void *arg) {
    shardheap_pass *pass = arg;
    uint64_t room[16], length;
    for (uint64_t n = 0; n < VALUES; n++) {
        uint32_t code = shardheap_take_value(pass, keys[n], room, 16, &length);
        if (code == SHARDHEAP_OK && length == 1 && room[0] == n) atomic_fetch_add(&owners_of[n], 1);
        else if (code != SHARDHEAP_GONE) atomic_fetch_add(&wrong, 1);
    }
    return NULL;
}

static void by_one_alone(void) {
    shardheap heap = SHARDHEAP_INIT;
    shardheap_pass owner = SHARDHEAP_INIT, passes[THREADS] = {SHARDHEAP_INIT, SHARDHEAP_INIT, SHARDHEAP_INIT};
    pthread_t threads[THREADS];
    IS(shardheap_open_for(&heap, SHARDHEAP_WIDE, 1, VALUES, 1, THREADS + 1), SHARDHEAP_OK);
    IS(shardheap_take(&heap, &owner), SHARDHEAP_OK);
    IS(shardheap_adopt(&owner, 0), SHARDHEAP_OK);
    for (uint64_t n = 0; n < VALUES; n++) IS(shardheap_insert(&owner, &n, 1, &keys[n]), SHARDHEAP_OK);
    for (int n = 0; n < THREADS; n++) IS(shardheap_take(&heap, &passes[n]), SHARDHEAP_OK);
    for (int n = 0; n < THREADS; n++) TRUE(pthread_create(&threads[n], NULL, takes_all, &passes[n]) == 0);
    for (int n = 0; n < THREADS; n++) TRUE(pthread_join(threads[n], NULL) == 0);
    TRUE(wrong == 0);
    for (int n = 0; n < VALUES; n++) TRUE(owners_of[n] == 1);
    for (int n = 0; n < THREADS; n++) IS(shardheap_give(&passes[n]), SHARDHEAP_OK);
    IS(shardheap_leave(&owner), SHARDHEAP_OK);
    IS(shardheap_give(&owner), SHARDHEAP_OK);
    shardheap_close(&heap);
}

int main(void) {
    null_and_empty();
    for (uint32_t layout = SHARDHEAP_WIDE; layout <= SHARDHEAP_TINY; layout++) each_of(layout);
    by_one_alone();
    printf("taking: %d checks passed\n", checks);
    return 0;
}
