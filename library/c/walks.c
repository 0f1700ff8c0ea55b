/* Walks over the live keys of a heap by any of its passes, beside the calls of other passes. */
#include "kept.h"
#include <pthread.h>
#include <stdatomic.h>

static bool is_any(void *context, const shardheap_live_key *met) { return (void)context, (void)met, true; }

static void null_and_empty(void) {
    shardheap_pass pass = SHARDHEAP_INIT;
    shardheap_live_key live = {66, 55, 44, {0}};
    shardheap_held_key held = {66, 55, 44};
    uint64_t number = 77;
    IS(shardheap_next_live(0, 0, 1, &live), SHARDHEAP_NULL);
    IS(shardheap_next_live(&pass, 0, 1, 0), SHARDHEAP_NULL);
    IS(shardheap_next_live(&pass, 0, 1, &live), SHARDHEAP_EMPTY);
    IS(shardheap_next_held(0, 0, 1, &held), SHARDHEAP_NULL);
    IS(shardheap_next_held(&pass, 0, 1, 0), SHARDHEAP_NULL);
    IS(shardheap_next_held(&pass, 0, 1, &held), SHARDHEAP_EMPTY);
    IS(shardheap_remove_if(0, is_any, 0, &number), SHARDHEAP_NULL);
    IS(shardheap_remove_if(&pass, 0, 0, &number), SHARDHEAP_NULL);
    IS(shardheap_remove_if(&pass, is_any, 0, 0), SHARDHEAP_NULL);
    IS(shardheap_remove_if(&pass, is_any, 0, &number), SHARDHEAP_EMPTY);
    TRUE(live.key == 66 && live.behind == 55 && live.length == 44 && number == 77);
    TRUE(held.key == 66 && held.behind == 55 && held.held == 44);
}

/* ---- One thread ---- */

/* The next key, whose value is that of a load. */
static uint32_t next_with_value(void *handle, uint64_t *place, uint64_t *key) {
    shardheap_pass *pass = handle;
    shardheap_live_key next = {0, 0, 0, {0}};
    uint64_t words[16], length;
    uint32_t code = shardheap_next_live(pass, *place, UINT64_MAX, &next);
    if (code != SHARDHEAP_OK) return code;
    IS(shardheap_release(pass, next.key), SHARDHEAP_NOT_HELD);
    IS(shardheap_load(pass, next.key, words, 16, &length), SHARDHEAP_OK);
    TRUE(next.length == length);
    for (uint64_t n = 0; n < length; n++) TRUE(next.words[n] == words[n]);
    *place = next.behind;
    *key = next.key;
    return code;
}

/* The next key, which is held once. */
static uint32_t next_with_hold(void *handle, uint64_t *place, uint64_t *key) {
    shardheap_pass *pass = handle;
    shardheap_held_key next = {0, 0, 0};
    uint32_t code = shardheap_next_held(pass, *place, UINT64_MAX, &next);
    if (code != SHARDHEAP_OK) return code;
    TRUE(next.held == 1);
    IS(shardheap_release(pass, next.key), SHARDHEAP_OK);
    IS(shardheap_release(pass, next.key), SHARDHEAP_NOT_HELD);
    *place = next.behind;
    *key = next.key;
    return code;
}

/* The keys of both shards are met by the owner of one, and by a pass without a shard. */
static void keys_of(uint32_t layout) {
    shardheap heap = SHARDHEAP_INIT;
    shardheap_pass one = SHARDHEAP_INIT, two = SHARDHEAP_INIT;
    uint64_t removed = 77;
    IS(shardheap_open(&heap, layout, 2, 2, 2), SHARDHEAP_OK);
    IS(shardheap_take(&heap, &one), SHARDHEAP_OK);
    IS(shardheap_take(&heap, &two), SHARDHEAP_OK);
    count = 0;
    IS(shardheap_adopt(&one, 1), SHARDHEAP_OK);
    keeps(&one, &two, 100);
    IS(shardheap_adopt(&two, 0), SHARDHEAP_OK);
    keeps(&two, &one, 20);
    IS(shardheap_leave(&two), SHARDHEAP_OK);
    each_once(next_with_value, &one);
    each_once(next_with_value, &two);
    each_once(next_with_hold, &one);
    each_once(next_with_hold, &two);
    IS(shardheap_remove_if(&two, is_any, 0, &removed), SHARDHEAP_OK);
    TRUE(removed == (uint64_t)count);
    count = 0;
    each_once(next_with_value, &one);
    IS(shardheap_remove_if(&one, is_any, 0, &removed), SHARDHEAP_OK);
    TRUE(removed == 0);
    IS(shardheap_leave(&one), SHARDHEAP_OK);
    IS(shardheap_give(&one), SHARDHEAP_OK);
    IS(shardheap_give(&two), SHARDHEAP_OK);
    shardheap_close(&heap);
}

/* A full shard, from its first slot to its last, and parts of it. */
static void places(void) {
    static const uint64_t words[1] = {7};
    enum { SLOTS = 8 * 48 };
    shardheap heap = SHARDHEAP_INIT;
    shardheap_pass pass = SHARDHEAP_INIT;
    shardheap_live_key live = {0, 0, 0, {0}};
    shardheap_held_key held = {0, 0, 0};
    IS(shardheap_open(&heap, SHARDHEAP_TINY, 2, 1, 1), SHARDHEAP_OK);
    IS(shardheap_take(&heap, &pass), SHARDHEAP_OK);
    IS(shardheap_adopt(&pass, 1), SHARDHEAP_OK);
    for (count = 0; shardheap_insert(&pass, words, 1, &kept[count]) == SHARDHEAP_OK;) count++;
    TRUE(count == SLOTS);
    each_once(next_with_value, &pass);
    each_once(next_with_hold, &pass);
    /* the first shard has no key */
    IS(shardheap_next_live(&pass, 0, SLOTS, &live), SHARDHEAP_NO_KEY);
    IS(shardheap_next_held(&pass, 0, SLOTS, &held), SHARDHEAP_NO_KEY);
    TRUE(live.behind == 0 && held.behind == 0);
    for (uint64_t place = SLOTS; place < 2 * SLOTS; place++) {
        IS(shardheap_next_live(&pass, place, place, &live), SHARDHEAP_NO_KEY);
        IS(shardheap_next_live(&pass, place, place + 1, &live), SHARDHEAP_OK);
        IS(shardheap_next_held(&pass, place, place + 1, &held), SHARDHEAP_OK);
        TRUE(live.key == held.key && live.behind == place + 1 && held.behind == place + 1);
        IS(shardheap_release(&pass, held.key), SHARDHEAP_OK);
    }
    IS(shardheap_next_live(&pass, 2 * SLOTS, UINT64_MAX, &live), SHARDHEAP_NO_KEY);
    IS(shardheap_next_live(&pass, 2 * SLOTS, 0, &live), SHARDHEAP_NO_KEY);
    IS(shardheap_leave(&pass), SHARDHEAP_OK);
    IS(shardheap_give(&pass), SHARDHEAP_OK);
    shardheap_close(&heap);
}

/* A key of four holds, which is as many as one may have in this layout, is met without a hold; a full list of holds is
   told, and a release lets the walk go on. */
static void holds(void) {
    static const uint64_t words[1] = {7};
    shardheap heap = SHARDHEAP_INIT;
    shardheap_pass pass = SHARDHEAP_INIT, other = SHARDHEAP_INIT;
    shardheap_held_key next = {0, 0, 0};
    shardheap_live_key live = {0, 0, 0, {0}};
    uint64_t keys[6];
    IS(shardheap_open(&heap, SHARDHEAP_TINY, 1, 1, 2), SHARDHEAP_OK);
    IS(shardheap_take(&heap, &pass), SHARDHEAP_OK);
    IS(shardheap_take(&heap, &other), SHARDHEAP_OK);
    IS(shardheap_adopt(&other, 0), SHARDHEAP_OK);
    for (int n = 0; n < 6; n++) IS(shardheap_insert(&other, words, 1, &keys[n]), SHARDHEAP_OK);
    for (int n = 0; n < 6; n++) {
        IS(shardheap_next_live(&pass, live.behind, UINT64_MAX, &live), SHARDHEAP_OK);
        keys[n] = live.key;
    }
    for (int n = 0; n < 4; n++) IS(shardheap_get(&other, keys[0]), SHARDHEAP_OK);
    IS(shardheap_next_held(&pass, 0, UINT64_MAX, &next), SHARDHEAP_OK);
    TRUE(next.key == keys[0] && next.behind == 1 && next.held == 0);
    IS(shardheap_release(&pass, keys[0]), SHARDHEAP_NOT_HELD);
    for (int n = 0; n < 16; n++) IS(shardheap_get(&pass, keys[1 + n / 4]), SHARDHEAP_OK);
    next.key = 77;
    IS(shardheap_next_held(&pass, 0, UINT64_MAX, &next), SHARDHEAP_HOLDS_FULL);
    TRUE(next.key == 77 && next.behind == 1 && next.held == 0);
    IS(shardheap_next_held(&pass, 6, UINT64_MAX, &next), SHARDHEAP_NO_KEY);
    IS(shardheap_next_live(&pass, 0, UINT64_MAX, &live), SHARDHEAP_OK);
    TRUE(live.key == keys[0]);
    IS(shardheap_release(&pass, keys[4]), SHARDHEAP_OK);
    IS(shardheap_next_held(&pass, 5, UINT64_MAX, &next), SHARDHEAP_OK);
    TRUE(next.key == keys[5] && next.held == 1);
    /* what is removed stays readable by the hold */
    IS(shardheap_remove(&other, keys[5]), SHARDHEAP_OK);
    IS(shardheap_next_live(&pass, 5, UINT64_MAX, &live), SHARDHEAP_NO_KEY);
    IS(shardheap_read(&pass, keys[5], live.words, 16, &live.length), SHARDHEAP_OK);
    TRUE(live.length == 1 && live.words[0] == 7);
    IS(shardheap_release(&pass, keys[5]), SHARDHEAP_OK);
    IS(shardheap_leave(&other), SHARDHEAP_OK);
    IS(shardheap_give(&other), SHARDHEAP_OK);
    IS(shardheap_give(&pass), SHARDHEAP_OK);
    shardheap_close(&heap);
}

/* What is removed or inserted between two calls. */
static void changes(void) {
    static const uint64_t words[1] = {7};
    shardheap heap = SHARDHEAP_INIT;
    shardheap_pass owner = SHARDHEAP_INIT, pass = SHARDHEAP_INIT;
    shardheap_live_key next = {0, 0, 0, {0}};
    uint64_t keys[3], key;
    IS(shardheap_open(&heap, SHARDHEAP_DEEP, 1, 1, 2), SHARDHEAP_OK);
    IS(shardheap_take(&heap, &owner), SHARDHEAP_OK);
    IS(shardheap_take(&heap, &pass), SHARDHEAP_OK);
    IS(shardheap_adopt(&owner, 0), SHARDHEAP_OK);
    for (int n = 0; n < 3; n++) IS(shardheap_insert(&owner, words, 1, &key), SHARDHEAP_OK);
    for (int n = 0; n < 3; n++) {
        IS(shardheap_next_live(&pass, next.behind, UINT64_MAX, &next), SHARDHEAP_OK);
        keys[n] = next.key;
    }
    IS(shardheap_remove(&owner, keys[1]), SHARDHEAP_OK);
    IS(shardheap_next_live(&pass, 0, UINT64_MAX, &next), SHARDHEAP_OK);
    TRUE(next.key == keys[0]);
    IS(shardheap_next_live(&pass, next.behind, UINT64_MAX, &next), SHARDHEAP_OK);
    TRUE(next.key == keys[2]);
    /* another value comes into the slot of a removed one, and has another key */
    IS(shardheap_insert(&owner, words, 1, &key), SHARDHEAP_OK);
    TRUE(key != keys[1]);
    kept[0] = keys[0], kept[1] = key, kept[2] = keys[2];
    count = 3;
    each_once(next_with_value, &pass);
    IS(shardheap_leave(&owner), SHARDHEAP_OK);
    IS(shardheap_give(&owner), SHARDHEAP_OK);
    IS(shardheap_give(&pass), SHARDHEAP_OK);
    shardheap_close(&heap);
}

/* What a predicate of a removal knows: a pass that removes some keys before it, and how often it was called. */
typedef struct choosing {
    shardheap_pass *other;
    uint64_t called;
} choosing;

/* Values below 10 are to go, of which another pass removes those of a multiple of 3. */
static bool is_small(void *context, const shardheap_live_key *met) {
    choosing *mine = context;
    TRUE(met->length == 1);
    mine->called++;
    if (met->words[0] % 3 == 0) IS(shardheap_remove(mine->other, met->key), SHARDHEAP_OK);
    return met->words[0] < 10;
}

static void removals(void) {
    shardheap heap = SHARDHEAP_INIT;
    shardheap_pass owner = SHARDHEAP_INIT, pass = SHARDHEAP_INIT;
    uint64_t key, removed = 77;
    choosing mine = {&owner, 0};
    IS(shardheap_open(&heap, SHARDHEAP_WIDE, 1, 1, 2), SHARDHEAP_OK);
    IS(shardheap_take(&heap, &owner), SHARDHEAP_OK);
    IS(shardheap_take(&heap, &pass), SHARDHEAP_OK);
    IS(shardheap_adopt(&owner, 0), SHARDHEAP_OK);
    count = 0;
    for (uint64_t n = 0; n < 20; n++) {
        IS(shardheap_insert(&owner, &n, 1, &key), SHARDHEAP_OK);
        if (n >= 10 && n % 3 != 0) kept[count++] = key;
    }
    IS(shardheap_remove_if(&pass, is_small, &mine, &removed), SHARDHEAP_OK);
    /* of the ten small values the other pass removed those of 0, 3, 6 and 9 */
    TRUE(mine.called == 20 && removed == 6);
    each_once(next_with_value, &pass);
    IS(shardheap_leave(&owner), SHARDHEAP_OK);
    IS(shardheap_give(&owner), SHARDHEAP_OK);
    IS(shardheap_give(&pass), SHARDHEAP_OK);
    shardheap_close(&heap);
}

/* ---- A growing heap ---- */

enum { CHUNK = 384, MANY = 2 * CHUNK + 10 };

/* A walk over values 0 to MANY - 1 of a pass that used no chunk meets each, in the order of the chunks. */
static void meets_many(shardheap_pass *pass) {
    int met[MANY] = {0};
    shardheap_live_key next = {0, 0, 0, {0}};
    uint64_t from = 0;
    for (; shardheap_next_live(pass, from, UINT64_MAX, &next) == SHARDHEAP_OK; from = next.behind) {
        TRUE(next.behind > from && next.behind >> 56 == next.key >> 56);
        TRUE(next.length == 1 && next.words[0] < MANY && met[next.words[0]]++ == 0);
    }
    for (int n = 0; n < MANY; n++) TRUE(met[n] == 1);
    TRUE(from >> 56 == 2);
}

/* A pass has 16 holds in each chunk. */
static void holds_in_chunks(shardheap_pass *pass) {
    const uint64_t second = UINT64_C(1) << 56;
    shardheap_held_key next = {0, 0, 0};
    uint64_t keys[16];
    for (int n = 0; n < 16; n++) {
        IS(shardheap_next_held(pass, next.behind, second, &next), SHARDHEAP_OK);
        TRUE(next.held == 1);
        keys[n] = next.key;
    }
    IS(shardheap_next_held(pass, next.behind, UINT64_MAX, &next), SHARDHEAP_HOLDS_FULL);
    IS(shardheap_next_held(pass, second, UINT64_MAX, &next), SHARDHEAP_OK);
    TRUE(next.held == 1 && next.key >> 56 == 1 && next.behind == second + 1);
    IS(shardheap_release(pass, next.key), SHARDHEAP_OK);
    for (int n = 0; n < 16; n++) IS(shardheap_release(pass, keys[n]), SHARDHEAP_OK);
}

/* It can be drained. */
static void chunks(void) {
    shardheap heap = SHARDHEAP_INIT;
    shardheap_pass pass = SHARDHEAP_INIT, other = SHARDHEAP_INIT;
    shardheap_live_key live = {0, 0, 0, {0}};
    uint64_t key, removed = 77;
    IS(shardheap_open_growing(&heap, 1, CHUNK, 1, 2, 4), SHARDHEAP_OK);
    IS(shardheap_take(&heap, &pass), SHARDHEAP_OK);
    IS(shardheap_take(&heap, &other), SHARDHEAP_OK);
    IS(shardheap_next_live(&other, 0, UINT64_MAX, &live), SHARDHEAP_NO_KEY);
    for (uint64_t n = 0; n < MANY; n++) IS(shardheap_insert(&pass, &n, 1, &key), SHARDHEAP_OK);
    TRUE(shardheap_chunks(&heap) == 3);
    meets_many(&other);
    holds_in_chunks(&other);
    IS(shardheap_next_live(&other, UINT64_C(3) << 56, UINT64_MAX, &live), SHARDHEAP_NO_KEY);
    IS(shardheap_remove_if(&other, is_any, 0, &removed), SHARDHEAP_OK);
    TRUE(removed == MANY);
    IS(shardheap_next_live(&pass, 0, UINT64_MAX, &live), SHARDHEAP_NO_KEY);
    IS(shardheap_give(&pass), SHARDHEAP_OK);
    IS(shardheap_give(&other), SHARDHEAP_OK);
    shardheap_close(&heap);
}

/* ---- Beside threads ---- */

#ifdef FEWER_ROUNDS
enum { OWNERS = 2, LASTING = 100, ROUNDS = 300 };
#else
enum { OWNERS = 2, LASTING = 100, ROUNDS = 20000 };
#endif

/* An owner keeps some values, which have the word 0. It inserts others that are over, which have the word 1, and
   removes some of them itself. */
typedef struct owning {
    shardheap_pass pass;
    uint64_t lasting[LASTING];
    uint64_t removed;
} owning;

static owning owners[OWNERS];
static _Atomic int working;

static void *inserts(void *of) {
    static const uint64_t over = 1;
    owning *mine = of;
    uint64_t key;
    for (int n = 0; n < ROUNDS; n++) {
        /* (without room it waits for the janitor) */
        while (shardheap_insert(&mine->pass, &over, 1, &key) != SHARDHEAP_OK) continue;
        if (n % 3 != 0) continue;
        uint32_t code = shardheap_remove(&mine->pass, key);
        TRUE(code == SHARDHEAP_OK || code == SHARDHEAP_GONE);
        if (code == SHARDHEAP_OK) mine->removed++;
    }
    atomic_fetch_sub(&working, 1);
    return NULL;
}

static bool is_over(void *context, const shardheap_live_key *met) {
    TRUE(met->length == 1 && met->words[0] < 2);
    return (void)context, met->words[0] == 1;
}

/* A janitor, which removes what is over until there is no owner at work, and once more. */
static void *sweeps(void *of) {
    owning *mine = of;
    uint64_t removed;
    bool last;
    do {
        last = atomic_load(&working) == 0;
        IS(shardheap_remove_if(&mine->pass, is_over, 0, &removed), SHARDHEAP_OK);
        mine->removed += removed;
    } while (!last);
    return NULL;
}

/* How many keys a walk meets of those that last: each once, in the order of their places. */
static void meets_what_lasts(shardheap_pass *pass) {
    int met[OWNERS][LASTING] = {{0}};
    shardheap_live_key next = {0, 0, 0, {0}};
    uint64_t from = 0;
    for (; shardheap_next_live(pass, from, UINT64_MAX, &next) == SHARDHEAP_OK; from = next.behind) {
        TRUE(next.behind > from && next.length == 1);
        if (next.words[0] != 0) continue;
        for (int t = 0; t < OWNERS; t++)
            for (int n = 0; n < LASTING; n++) met[t][n] += owners[t].lasting[n] == next.key;
    }
    for (int t = 0; t < OWNERS; t++)
        for (int n = 0; n < LASTING; n++) TRUE(met[t][n] == 1);
}

/* The same with holds: a value stays while it is held. */
static void holds_what_lasts(shardheap_pass *pass) {
    shardheap_held_key next = {0, 0, 0};
    uint64_t words[1], length, lasting = 0;
    while (shardheap_next_held(pass, next.behind, UINT64_MAX, &next) == SHARDHEAP_OK) {
        TRUE(next.held == 1);
        IS(shardheap_read(pass, next.key, words, 1, &length), SHARDHEAP_OK);
        if (words[0] == 0) lasting++;
        IS(shardheap_release(pass, next.key), SHARDHEAP_OK);
    }
    TRUE(lasting == OWNERS * LASTING);
}

static void begins(shardheap *heap, bool grows, uint64_t n) {
    static const uint64_t lasts = 0;
    owning *mine = &owners[n];
    mine->removed = 0;
    IS(shardheap_take(heap, &mine->pass), SHARDHEAP_OK);
    if (!grows) IS(shardheap_adopt(&mine->pass, n), SHARDHEAP_OK);
    for (int k = 0; k < LASTING; k++) IS(shardheap_insert(&mine->pass, &lasts, 1, &mine->lasting[k]), SHARDHEAP_OK);
}

static void beside_threads(bool grows) {
    static owning janitor;
    shardheap heap = SHARDHEAP_INIT;
    shardheap_pass pass = SHARDHEAP_INIT;
    pthread_t threads[OWNERS + 1];
    uint64_t removed = 0;
    if (grows) IS(shardheap_open_growing(&heap, OWNERS, CHUNK, 1, OWNERS + 2, 4), SHARDHEAP_OK);
    else IS(shardheap_open(&heap, SHARDHEAP_WIDE, OWNERS, 2, OWNERS + 2), SHARDHEAP_OK);
    for (uint64_t n = 0; n < OWNERS; n++) begins(&heap, grows, n);
    IS(shardheap_take(&heap, &janitor.pass), SHARDHEAP_OK);
    janitor.removed = 0;
    IS(shardheap_take(&heap, &pass), SHARDHEAP_OK);
    working = OWNERS;
    TRUE(pthread_create(&threads[OWNERS], NULL, sweeps, &janitor) == 0);
    for (int n = 0; n < OWNERS; n++) TRUE(pthread_create(&threads[n], NULL, inserts, &owners[n]) == 0);
    do {
        meets_what_lasts(&pass);
        holds_what_lasts(&pass);
    } while (atomic_load(&working) > 0);
    for (int n = 0; n <= OWNERS; n++) TRUE(pthread_join(threads[n], NULL) == 0);
    for (int n = 0; n < OWNERS; n++) {
        removed += owners[n].removed;
        IS(shardheap_leave(&owners[n].pass), SHARDHEAP_OK);
        IS(shardheap_give(&owners[n].pass), SHARDHEAP_OK);
    }
    /* each key that was over was removed by one call, and all are gone */
    TRUE(removed + janitor.removed == (uint64_t)OWNERS * ROUNDS);
    IS(shardheap_remove_if(&pass, is_any, 0, &removed), SHARDHEAP_OK);
    TRUE(removed == OWNERS * LASTING);
    IS(shardheap_give(&janitor.pass), SHARDHEAP_OK);
    IS(shardheap_give(&pass), SHARDHEAP_OK);
    shardheap_close(&heap);
}

int main(void) {
    null_and_empty();
    for (uint32_t layout = SHARDHEAP_WIDE; layout <= SHARDHEAP_TINY; layout++) keys_of(layout);
    places();
    holds();
    changes();
    removals();
    chunks();
    beside_threads(false);
#ifndef ONE_THREAD_GROWS /* see growing_sanitized in scripts/library-checks */
    beside_threads(true);
#endif
    printf("walks: %d checks passed\n", checks);
    return 0;
}
