/* Several keys that one call loads: each load has its own code, and none is stopped by another. */
#include "check.h"

#define KEYS 21

static uint64_t words[16] = {7, 8, 9};

static shardheap_loaded load_of(uint64_t key) {
    shardheap_loaded load = {key, 99, 66, {0}};
    return load;
}

static void null_and_empty(void) {
    shardheap_pass pass = SHARDHEAP_INIT;
    shardheap_loaded batch[1] = {load_of(4096)};
    IS(shardheap_load_each(0, batch, 1), SHARDHEAP_NULL);
    IS(shardheap_load_each(&pass, 0, 1), SHARDHEAP_NULL);
    IS(shardheap_load_each(&pass, batch, 1), SHARDHEAP_EMPTY);
    IS(shardheap_load_each(&pass, 0, 0), SHARDHEAP_EMPTY);
    TRUE(batch[0].key == 4096 && batch[0].length == 99 && batch[0].code == 66);
}

/* Values of 0 to 16 words and some more: three blocks of eight keys, of which the last is not full. Every third key was
   removed, and one number is no key. */
static void each_has_its_code(shardheap_pass *owner, shardheap_pass *p) {
    shardheap_loaded batch[KEYS];
    for (uint64_t n = 0; n < KEYS; n++) {
        uint64_t key, value[16] = {0};
        for (uint64_t k = 0; k < 16; k++) value[k] = 100 * n + k;
        IS(shardheap_insert(owner, value, n % 17, &key), SHARDHEAP_OK);
        if (n % 3 == 0) IS(shardheap_remove(owner, key), SHARDHEAP_OK);
        batch[n] = load_of(key);
    }
    uint64_t good = batch[10].key;
    batch[10].key = (good & ~(UINT64_MAX >> 8)) | UINT64_MAX >> 8;
    IS(shardheap_load_each(p, batch, KEYS), SHARDHEAP_OK);
    for (uint64_t n = 0; n < KEYS; n++) {
        if (n == 10 || n % 3 == 0) {
            IS(batch[n].code, n == 10 ? SHARDHEAP_BAD_KEY : SHARDHEAP_GONE);
            TRUE(batch[n].length == 99 && batch[n].words[0] == 0);
            continue;
        }
        IS(batch[n].code, SHARDHEAP_OK);
        TRUE(batch[n].length == n % 17);
        for (uint64_t k = 0; k < 16; k++) TRUE(batch[n].words[k] == (k < n % 17 ? 100 * n + k : 0));
    }
    batch[10].key = good;
    for (uint64_t n = 0; n < KEYS; n++)
        if (n % 3 != 0) IS(shardheap_remove(owner, batch[n].key), SHARDHEAP_OK);
}

/* With as many holds as a pass may have, each value is loaded, and the holds stay. A load of a key that was not issued
   goes on to a get. The slot after that of the last key is free. */
static void holds_stay(shardheap_pass *p, const uint64_t keys[4]) {
    shardheap_loaded batch[3] = {load_of(keys[0]), load_of(keys[3] + 1), load_of(keys[3])};
    for (int n = 0; n < 16; n++) IS(shardheap_get(p, keys[n / 4]), SHARDHEAP_OK);
    IS(shardheap_get(p, keys[0]), SHARDHEAP_HOLDS_FULL);
    IS(shardheap_load_each(p, batch, 3), SHARDHEAP_OK);
    for (int n = 0; n < 3; n += 2) {
        IS(batch[n].code, SHARDHEAP_OK);
        TRUE(batch[n].length == 3 && batch[n].words[0] == 7 && batch[n].words[2] == 9 && batch[n].words[3] == 0);
    }
    IS(batch[1].code, SHARDHEAP_HOLDS_FULL);
    IS(shardheap_release(p, keys[0]), SHARDHEAP_OK);
    IS(shardheap_load_each(p, &batch[1], 1), SHARDHEAP_OK);
    IS(batch[1].code, SHARDHEAP_GONE);
    TRUE(batch[1].length == 99 && batch[1].words[0] == 0);
    for (int n = 1; n < 16; n++) IS(shardheap_release(p, keys[n / 4]), SHARDHEAP_OK);
    for (int n = 0; n < 4; n++) IS(shardheap_release(p, keys[n]), SHARDHEAP_NOT_HELD);
}

static void each_of(uint32_t layout) {
    shardheap heap = SHARDHEAP_INIT;
    shardheap_pass one = SHARDHEAP_INIT, two = SHARDHEAP_INIT;
    uint64_t keys[4];
    IS(shardheap_open(&heap, layout, 1, 2, 2), SHARDHEAP_OK);
    IS(shardheap_take(&heap, &one), SHARDHEAP_OK);
    IS(shardheap_take(&heap, &two), SHARDHEAP_OK);
    IS(shardheap_adopt(&one, 0), SHARDHEAP_OK);
    for (int n = 0; n < 4; n++) IS(shardheap_insert(&one, words, 3, &keys[n]), SHARDHEAP_OK);
    holds_stay(&one, keys);
    holds_stay(&two, keys);
    each_has_its_code(&one, &one);
    each_has_its_code(&one, &two);
    IS(shardheap_load_each(&two, 0, 0), SHARDHEAP_OK);
    IS(shardheap_leave(&one), SHARDHEAP_OK);
    IS(shardheap_give(&one), SHARDHEAP_OK);
    IS(shardheap_give(&two), SHARDHEAP_OK);
    shardheap_close(&heap);
}

int main(void) {
    null_and_empty();
    for (uint32_t layout = SHARDHEAP_WIDE; layout <= SHARDHEAP_TINY; layout++) each_of(layout);
    printf("batches: %d checks passed\n", checks);
    return 0;
}
