/* The live keys of the shard that a pass owns, one after the other, beside the calls of other passes. */
#include "kept.h"
#include <pthread.h>
#include <stdatomic.h>

static void null_empty_and_no_shard(void) {
    shardheap heap = SHARDHEAP_INIT;
    shardheap_pass pass = SHARDHEAP_INIT;
    uint64_t place = 55, key = 77;
    IS(shardheap_next_own_key(0, &place, &key), SHARDHEAP_NULL);
    IS(shardheap_next_own_key(&pass, 0, &key), SHARDHEAP_NULL);
    IS(shardheap_next_own_key(&pass, &place, 0), SHARDHEAP_NULL);
    IS(shardheap_next_own_key(&pass, &place, &key), SHARDHEAP_EMPTY);
    IS(shardheap_open(&heap, SHARDHEAP_WIDE, 1, 1, 1), SHARDHEAP_OK);
    IS(shardheap_take(&heap, &pass), SHARDHEAP_OK);
    IS(shardheap_next_own_key(&pass, &place, &key), SHARDHEAP_NO_SHARD);
    TRUE(place == 55 && key == 77);
    IS(shardheap_adopt(&pass, 0), SHARDHEAP_OK);
    place = 0;
    IS(shardheap_next_own_key(&pass, &place, &key), SHARDHEAP_NO_KEY);
    TRUE(place == 0 && key == 77);
    IS(shardheap_leave(&pass), SHARDHEAP_OK);
    IS(shardheap_give(&pass), SHARDHEAP_OK);
    shardheap_close(&heap);
}

/* The next key of an owner. The call leaves no hold on it. */
static uint32_t next_of_owner(void *handle, uint64_t *place, uint64_t *key) {
    shardheap_pass *owner = handle;
    uint32_t code = shardheap_next_own_key(owner, place, key);
    if (code == SHARDHEAP_OK) IS(shardheap_release(owner, *key), SHARDHEAP_NOT_HELD);
    return code;
}

static void keys_of(uint32_t layout) {
    static const uint64_t words[1] = {7};
    shardheap heap = SHARDHEAP_INIT;
    shardheap_pass one = SHARDHEAP_INIT, two = SHARDHEAP_INIT;
    uint64_t key;
    IS(shardheap_open(&heap, layout, 2, 2, 2), SHARDHEAP_OK);
    IS(shardheap_take(&heap, &one), SHARDHEAP_OK);
    IS(shardheap_take(&heap, &two), SHARDHEAP_OK);
    /* another shard has keys, too, which are not the owner's */
    IS(shardheap_adopt(&two, 0), SHARDHEAP_OK);
    IS(shardheap_insert(&two, words, 1, &key), SHARDHEAP_OK);
    IS(shardheap_adopt(&one, 1), SHARDHEAP_OK);
    count = 0;
    keeps(&one, &two, 100);
    each_once(next_of_owner, &one);
    /* the next owner finds the same keys */
    IS(shardheap_leave(&one), SHARDHEAP_OK);
    IS(shardheap_leave(&two), SHARDHEAP_OK);
    IS(shardheap_adopt(&two, 1), SHARDHEAP_OK);
    each_once(next_of_owner, &two);
    IS(shardheap_leave(&two), SHARDHEAP_OK);
    IS(shardheap_give(&one), SHARDHEAP_OK);
    IS(shardheap_give(&two), SHARDHEAP_OK);
    shardheap_close(&heap);
}

/* A full page, from its first slot to its last. */
static void full_page(void) {
    static const uint64_t words[1] = {7};
    shardheap heap = SHARDHEAP_INIT;
    shardheap_pass pass = SHARDHEAP_INIT;
    uint64_t place = 0, key;
    IS(shardheap_open(&heap, SHARDHEAP_TINY, 1, 1, 1), SHARDHEAP_OK);
    IS(shardheap_take(&heap, &pass), SHARDHEAP_OK);
    IS(shardheap_adopt(&pass, 0), SHARDHEAP_OK);
    for (count = 0; shardheap_insert(&pass, words, 1, &kept[count]) == SHARDHEAP_OK;) count++;
    TRUE(count == 8 * 48);
    each_once(next_of_owner, &pass);
    for (uint64_t slot = 0; slot < 8 * 48; slot++) {
        IS(shardheap_next_own_key(&pass, &place, &key), SHARDHEAP_OK);
        TRUE(place == slot + 1);
    }
    IS(shardheap_next_own_key(&pass, &place, &key), SHARDHEAP_NO_KEY);
    IS(shardheap_leave(&pass), SHARDHEAP_OK);
    IS(shardheap_give(&pass), SHARDHEAP_OK);
    shardheap_close(&heap);
}

/* The same of an owner that may have holds. */
static uint32_t next_with_holds(void *owner, uint64_t *place, uint64_t *key) {
    return shardheap_next_own_key(owner, place, key);
}

/* A key of four holds, as many as one may have in this layout, is met, and an owner with 16 holds meets each key. */
static void holds(void) {
    static const uint64_t words[1] = {7};
    shardheap heap = SHARDHEAP_INIT;
    shardheap_pass owner = SHARDHEAP_INIT, other = SHARDHEAP_INIT;
    uint64_t place = 0, crowded, key, held[4];
    IS(shardheap_open(&heap, SHARDHEAP_TINY, 1, 1, 2), SHARDHEAP_OK);
    IS(shardheap_take(&heap, &owner), SHARDHEAP_OK);
    IS(shardheap_take(&heap, &other), SHARDHEAP_OK);
    IS(shardheap_adopt(&owner, 0), SHARDHEAP_OK);
    IS(shardheap_insert(&owner, words, 1, &crowded), SHARDHEAP_OK);
    for (int n = 0; n < 4; n++) IS(shardheap_get(&other, crowded), SHARDHEAP_OK);
    IS(shardheap_get(&owner, crowded), SHARDHEAP_CROWDED);
    IS(shardheap_next_own_key(&owner, &place, &key), SHARDHEAP_OK);
    TRUE(key == crowded);
    for (int n = 0; n < 4; n++) {
        IS(shardheap_insert(&owner, words, 1, &held[n]), SHARDHEAP_OK);
        for (int m = 0; m < 4; m++) IS(shardheap_get(&owner, held[n]), SHARDHEAP_OK);
    }
    IS(shardheap_insert(&owner, words, 1, &key), SHARDHEAP_OK);
    IS(shardheap_get(&owner, key), SHARDHEAP_HOLDS_FULL);
    kept[0] = crowded, kept[1] = key, count = 2;
    for (int n = 0; n < 4; n++) kept[count++] = held[n];
    each_once(next_with_holds, &owner);
    for (int n = 0; n < 4; n++)
        for (int m = 0; m < 4; m++) IS(shardheap_release(&owner, held[n]), SHARDHEAP_OK);
    for (int n = 0; n < 4; n++) IS(shardheap_release(&owner, held[n]), SHARDHEAP_NOT_HELD);
    IS(shardheap_leave(&owner), SHARDHEAP_OK);
    IS(shardheap_give(&owner), SHARDHEAP_OK);
    IS(shardheap_give(&other), SHARDHEAP_OK);
    shardheap_close(&heap);
}

/* What is removed or inserted between two calls. */
static void changes(void) {
    static const uint64_t words[1] = {7};
    shardheap heap = SHARDHEAP_INIT;
    shardheap_pass owner = SHARDHEAP_INIT, other = SHARDHEAP_INIT;
    uint64_t place = 0, key, keys[3], slots;
    IS(shardheap_open(&heap, SHARDHEAP_DEEP, 1, 1, 2), SHARDHEAP_OK);
    IS(shardheap_take(&heap, &owner), SHARDHEAP_OK);
    IS(shardheap_take(&heap, &other), SHARDHEAP_OK);
    IS(shardheap_adopt(&owner, 0), SHARDHEAP_OK);
    for (int n = 0; n < 3; n++) IS(shardheap_insert(&owner, words, 1, &keys[n]), SHARDHEAP_OK);
    count = 0;
    while (shardheap_next_own_key(&owner, &place, &key) == SHARDHEAP_OK) kept[count++] = key;
    TRUE(count == 3);
    place = 0;
    IS(shardheap_next_own_key(&owner, &place, &key), SHARDHEAP_OK);
    TRUE(key == kept[0]);
    IS(shardheap_remove(&other, kept[1]), SHARDHEAP_OK);
    IS(shardheap_next_own_key(&owner, &place, &key), SHARDHEAP_OK);
    TRUE(key == kept[2]);
    /* a key that is removed as it is found, and a value that comes into its slot */
    IS(shardheap_remove(&owner, key), SHARDHEAP_OK);
    IS(shardheap_slots_out(&owner, &slots), SHARDHEAP_OK);
    TRUE(slots == 2);
    IS(shardheap_insert(&owner, words, 1, &key), SHARDHEAP_OK);
    TRUE(key != kept[2]);
    kept[1] = key;
    count = 2;
    each_once(next_of_owner, &owner);
    IS(shardheap_leave(&owner), SHARDHEAP_OK);
    IS(shardheap_give(&owner), SHARDHEAP_OK);
    IS(shardheap_give(&other), SHARDHEAP_OK);
    shardheap_close(&heap);
}

/* ---- A walk while threads remove ---- */

enum { THREADS = 3, EACH = 60, LASTING = 100 };

static _Atomic int begun;

typedef struct removing {
    shardheap_pass pass;
    uint64_t keys[EACH];
    int refused;
} removing;

static void *removes(void *of) {
    removing *mine = of;
    atomic_fetch_add(&begun, 1);
    while (atomic_load(&begun) <= THREADS) continue;
    for (int n = 0; n < EACH; n++) mine->refused += shardheap_remove(&mine->pass, mine->keys[n]) != SHARDHEAP_OK;
    return NULL;
}

/* How many keys a walk finds: each lasting one once, and others, which are removed meanwhile, at most once. Or -1. */
static int walked(shardheap_pass *owner, removing *others) {
    int lasting[LASTING] = {0}, removed[THREADS][EACH] = {{0}}, found = 0;
    uint64_t place = 0, key;
    while (shardheap_next_own_key(owner, &place, &key) == SHARDHEAP_OK) {
        int known = 0;
        for (int n = 0; n < LASTING; n++)
            if (kept[n] == key) known += ++lasting[n];
        for (int t = 0; t < THREADS; t++)
            for (int n = 0; n < EACH; n++)
                if (others[t].keys[n] == key) known += ++removed[t][n];
        if (known != 1) return -1;
        found++;
    }
    for (int n = 0; n < LASTING; n++)
        if (lasting[n] != 1) return -1;
    return found;
}

static void beside_threads(void) {
    static removing others[THREADS];
    static const uint64_t words[1] = {7};
    shardheap heap = SHARDHEAP_INIT;
    shardheap_pass owner = SHARDHEAP_INIT;
    pthread_t threads[THREADS];
    IS(shardheap_open(&heap, SHARDHEAP_WIDE, 1, 1, THREADS + 1), SHARDHEAP_OK);
    IS(shardheap_take(&heap, &owner), SHARDHEAP_OK);
    IS(shardheap_adopt(&owner, 0), SHARDHEAP_OK);
    for (int n = 0; n < LASTING; n++) {
        IS(shardheap_insert(&owner, words, 1, &kept[n]), SHARDHEAP_OK);
        for (int t = 0; t < THREADS && n < EACH; t++)
            IS(shardheap_insert(&owner, words, 1, &others[t].keys[n]), SHARDHEAP_OK);
    }
    TRUE(walked(&owner, others) == LASTING + THREADS * EACH);
    for (int t = 0; t < THREADS; t++) {
        IS(shardheap_take(&heap, &others[t].pass), SHARDHEAP_OK);
        TRUE(pthread_create(&threads[t], NULL, removes, &others[t]) == 0);
    }
    while (atomic_load(&begun) < THREADS) continue;
    atomic_fetch_add(&begun, 1);
    int found = LASTING + THREADS * EACH;
    while (found > LASTING) {
        int next = walked(&owner, others);
        TRUE(next >= LASTING && next <= found);
        found = next;
    }
    for (int t = 0; t < THREADS; t++) {
        TRUE(pthread_join(threads[t], NULL) == 0 && others[t].refused == 0);
        IS(shardheap_give(&others[t].pass), SHARDHEAP_OK);
    }
    TRUE(walked(&owner, others) == LASTING);
    IS(shardheap_leave(&owner), SHARDHEAP_OK);
    IS(shardheap_give(&owner), SHARDHEAP_OK);
    shardheap_close(&heap);
}

int main(void) {
    null_empty_and_no_shard();
    for (uint32_t layout = SHARDHEAP_WIDE; layout <= SHARDHEAP_TINY; layout++) keys_of(layout);
    full_page();
    holds();
    changes();
    beside_threads();
    printf("own_keys: %d checks passed\n", checks);
    return 0;
}
