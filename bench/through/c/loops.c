/* The loops of the workloads, in C. A call that is refused ends the program: none should be. */
#include "shardheap.h"
#include <stdio.h>
#include <stdlib.h>
#include <string.h>

#define WORDS 16
#define SAMPLES 16
#define EIGHT 8
#define MOST_USERS 16

/* A pass, in a line of the cache of its own. */
typedef struct user {
    _Alignas(64) shardheap_pass pass;
} user;

typedef struct loops {
    shardheap heap;
    uint32_t count;                /* of users */
    user owner, users[MOST_USERS]; /* one that inserts, and those that do not */
} loops;

/* Sixteen values, each of `words` words. */
typedef struct samples {
    uint64_t words[SAMPLES][WORDS];
    size_t length;
} samples;

loops *loops_open(uint64_t values, uint32_t words, uint32_t chunks, uint32_t users);
void loops_close(loops *all);
shardheap_pass *loops_owner(loops *all);
shardheap_pass *loops_user(loops *all, uint32_t number);

/* The loops of a pass. It is not null, which a compiler sees of a pass that is a variable. */
#define LOOP __attribute__((nonnull))
LOOP uint64_t loops_get(shardheap_pass *pass, const uint64_t *keys, size_t count);
LOOP uint64_t loops_read(shardheap_pass *pass, const uint64_t *keys, size_t count);
LOOP uint64_t loops_load(shardheap_pass *pass, const uint64_t *keys, size_t count);
LOOP uint64_t loops_load_in_eights(shardheap_pass *pass, const uint64_t *keys, size_t count);
LOOP uint64_t loops_walk(shardheap_pass *pass, size_t walks);
LOOP uint64_t loops_own_keys(shardheap_pass *owner, size_t count);
LOOP uint64_t loops_insert(shardheap_pass *owner, const samples *samples, uint64_t *keys, size_t count);
LOOP void loops_remove(shardheap_pass *owner, const uint64_t *keys, size_t count);

static void must(uint32_t code) {
    if (code == SHARDHEAP_OK) return;
    fprintf(stderr, "a call is refused: %s\n", shardheap_name(code));
    exit(3);
}

/* Opens a heap with room for this many values. Its layout is wide if that has the room, and deep if not. A heap that
   may have chunks grows, and has the room in the first one. */
static void open_heap(shardheap *heap, uint64_t values, uint32_t words, uint32_t chunks, uint32_t passes) {
    if (chunks != 0) must(shardheap_open_growing(heap, 1, values, words, passes, chunks));
    else if (shardheap_open_for(heap, SHARDHEAP_WIDE, 1, values, words, passes) != SHARDHEAP_OK)
        must(shardheap_open_for(heap, SHARDHEAP_DEEP, 1, values, words, passes));
}

/* Such a heap, an owner of its shard, and so many other passes. In a heap that grows an insert adopts. */
loops *loops_open(uint64_t values, uint32_t words, uint32_t chunks, uint32_t users) {
    loops *all = aligned_alloc(_Alignof(loops), sizeof *all);
    if (!all || users > MOST_USERS) must(SHARDHEAP_MEMORY);
    memset(all, 0, sizeof *all);
    all->count = users;
    open_heap(&all->heap, values, words, chunks, users + 1);
    must(shardheap_take(&all->heap, &all->owner.pass));
    for (uint32_t n = 0; n < users; n++) must(shardheap_take(&all->heap, &all->users[n].pass));
    if (chunks == 0) must(shardheap_adopt(&all->owner.pass, 0));
    return all;
}

void loops_close(loops *all) {
    must(shardheap_leave(&all->owner.pass));
    must(shardheap_give(&all->owner.pass));
    for (uint32_t n = 0; n < all->count; n++) must(shardheap_give(&all->users[n].pass));
    shardheap_close(&all->heap);
    free(all);
}

shardheap_pass *loops_owner(loops *all) {
    return &all->owner.pass;
}

shardheap_pass *loops_user(loops *all, uint32_t number) {
    return &all->users[number].pass;
}

/* Takes a hold on each key and gives it back. Returns the sum of the keys. */
uint64_t loops_get(shardheap_pass *pass, const uint64_t *keys, size_t count) {
    uint64_t sum = 0;
    for (size_t n = 0; n < count; n++) {
        must(shardheap_get(pass, keys[n]));
        sum += keys[n];
        must(shardheap_release(pass, keys[n]));
    }
    return sum;
}

static uint64_t sum_of(const uint64_t *words, uint64_t length) {
    uint64_t sum = 0;
    for (uint64_t n = 0; n < length; n++) sum += words[n];
    return sum;
}

/* Reads the value of each key under a hold. Returns the sum of the words. */
uint64_t loops_read(shardheap_pass *pass, const uint64_t *keys, size_t count) {
    uint64_t words[WORDS], length, sum = 0;
    for (size_t n = 0; n < count; n++) {
        must(shardheap_get(pass, keys[n]));
        must(shardheap_read(pass, keys[n], words, WORDS, &length));
        must(shardheap_release(pass, keys[n]));
        sum += sum_of(words, length);
    }
    return sum;
}

/* Reads the value of each key by one call, which keeps no hold. Returns the sum of the words. */
uint64_t loops_load(shardheap_pass *pass, const uint64_t *keys, size_t count) {
    uint64_t words[WORDS], length, sum = 0;
    for (size_t n = 0; n < count; n++) {
        must(shardheap_load(pass, keys[n], words, WORDS, &length));
        sum += sum_of(words, length);
    }
    return sum;
}

/* The same by one call for each eight keys. */
uint64_t loops_load_in_eights(shardheap_pass *pass, const uint64_t *keys, size_t count) {
    shardheap_loaded batch[EIGHT];
    uint64_t sum = 0;
    for (size_t first = 0; first + EIGHT <= count; first += EIGHT) {
        for (size_t n = 0; n < EIGHT; n++) batch[n].key = keys[first + n];
        must(shardheap_load_each(pass, batch, EIGHT));
        for (size_t n = 0; n < EIGHT; n++) {
            must(batch[n].code);
            sum += sum_of(batch[n].words, batch[n].length);
        }
    }
    return sum;
}

/* Walks over all live keys with their values, this many times. Returns the sum of the words. */
uint64_t loops_walk(shardheap_pass *pass, size_t walks) {
    uint64_t sum = 0;
    for (size_t n = 0; n < walks; n++) {
        shardheap_live_key met = {0, 0, 0, {0}};
        uint32_t code;
        while ((code = shardheap_next_live(pass, met.behind, UINT64_MAX, &met)) == SHARDHEAP_OK)
            sum += sum_of(met.words, met.length);
        if (code != SHARDHEAP_NO_KEY) must(code);
    }
    return sum;
}

/* Goes through the keys of the owner's shard until it was given `count` of them, from the first key again after the
   last. Returns the sum of the keys. The shard has a key. */
uint64_t loops_own_keys(shardheap_pass *owner, size_t count) {
    uint64_t sum = 0, place = 0, key;
    for (size_t given = 0; given < count;) {
        uint32_t code = shardheap_next_own_key(owner, &place, &key);
        if (code == SHARDHEAP_NO_KEY) {
            place = 0;
            continue;
        }
        must(code);
        sum += key;
        given++;
    }
    return sum;
}

/* Inserts a value for each key, which it writes. Returns the sum of the keys. */
uint64_t loops_insert(shardheap_pass *owner, const samples *samples, uint64_t *keys, size_t count) {
    uint64_t sum = 0;
    for (size_t n = 0; n < count; n++) {
        must(shardheap_insert(owner, samples->words[n % SAMPLES], samples->length, &keys[n]));
        sum += keys[n];
    }
    return sum;
}

void loops_remove(shardheap_pass *owner, const uint64_t *keys, size_t count) {
    for (size_t n = 0; n < count; n++) must(shardheap_remove(owner, keys[n]));
}
