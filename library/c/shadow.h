/* What a heap has, by the calls that were made and by nothing that it says itself: the values in its slots, the holds
   on them, and where its passes are. */
#ifndef SHADOW_H
#define SHADOW_H

#include "check.h"
#include <string.h>

enum { PASSES = 4, HOLDS = 16, WORDS = 16, CHUNKS = 4, SHARDS = 2, PAGES = 8, SLOTS = 48, CLASSES = 8 };

/* The words of a slot, and the slots of a page, by the class. */
static const uint64_t widths[CLASSES] = {1, 2, 3, 4, 6, 8, 12, 16};
static const int per_page[CLASSES] = {48, 24, 16, 12, 8, 6, 4, 3};

/* The shards of each chunk: a heap of a fixed shape is one chunk. Each shard has 8 pages. */
static const int shards_of[CHUNKS] = {SHARDS, 1, 1, SHARDS};

/* The bits of a key that say its page and its shard, by the layout. */
static const uint64_t page_bits[] = {10, 8, 20, 4, 12}, shard_bits[] = {8, 6, 6, 2, 6};

/* The last value of a slot: it is empty if that is not live and nobody holds it. */
typedef struct slot {
    uint64_t key, length, number;
    bool live;
    int holds[PASSES];
} slot;

/* A pass. In a growing heap it may own shards in each chunk, since it inserted and did not leave them. */
typedef struct user {
    shardheap_pass pass;
    bool away, owns;
    uint64_t shard;
} user;

static shardheap heap = SHARDHEAP_INIT;
static uint32_t layout;
static user users[PASSES];
static slot slots[CHUNKS][SHARDS][PAGES][SLOTS];

static bool grows(void) { return layout == SHARDHEAP_GROWING; }

static int class_of(uint64_t length) {
    int class = 0;
    while (widths[class] < length) class++;
    return class;
}

static uint64_t bits(uint64_t key, uint64_t from, uint64_t count) { return key >> from & ((UINT64_C(1) << count) - 1); }

static uint64_t chunk_of(uint64_t key) { return grows() ? key >> 56 : 0; }
static uint64_t shard_of(uint64_t key) { return bits(key, 6 + page_bits[layout], shard_bits[layout]); }

static slot (*page_of(uint64_t key))[SLOTS] {
    uint64_t chunk = chunk_of(key), shard = shard_of(key), page = bits(key, 6, page_bits[layout]);
    TRUE(chunk < CHUNKS && shard < (uint64_t)shards_of[chunk] && page < PAGES);
    return &slots[chunk][shard][page];
}

static slot *slot_of(uint64_t key) {
    TRUE(bits(key, 0, 6) < SLOTS);
    return &(*page_of(key))[bits(key, 0, 6)];
}

/* ---- Holds ---- */

static int holds_on(const slot *of) {
    int holds = 0;
    for (int n = 0; n < PASSES; n++) holds += of->holds[n];
    return holds;
}

static bool is_live(uint64_t key) { return slot_of(key)->key == key && slot_of(key)->live; }
static bool is_empty(const slot *of) { return !of->live && holds_on(of) == 0; }

/* The holds of a pass on this key. */
static int *holds_by(const user *of, uint64_t key) {
    static int none;
    return slot_of(key)->key == key ? &slot_of(key)->holds[of - users] : &none;
}

/* A pass has room for 16 holds, and that of a growing heap in each chunk. */
static int holds_in(const user *of, uint64_t chunk) {
    const slot *all = &slots[chunk][0][0][0];
    int holds = 0;
    for (int n = 0; n < SHARDS * PAGES * SLOTS; n++) holds += all[n].holds[of - users];
    return holds;
}

/* What a get of the key returns. */
static uint32_t code_of_get(const user *by, uint64_t key) {
    if (holds_in(by, chunk_of(key)) == HOLDS) return SHARDHEAP_HOLDS_FULL;
    if (!is_live(key)) return SHARDHEAP_GONE;
    return layout == SHARDHEAP_TINY && holds_on(slot_of(key)) == 4 ? SHARDHEAP_CROWDED : SHARDHEAP_OK;
}

/* ---- Room ---- */

/* Whether each value of a page is of this class, and how many slots they leave. */
static int slots_left(slot (*page)[SLOTS], int class) {
    int left = per_page[class];
    for (int n = 0; n < SLOTS; n++) {
        if (is_empty(&(*page)[n])) continue;
        if (class_of((*page)[n].length) != class) return 0;
        left--;
    }
    return left;
}

static bool shard_has_room(uint64_t chunk, uint64_t shard, int class) {
    int left = 0;
    for (int page = 0; page < PAGES; page++) left += slots_left(&slots[chunk][shard][page], class);
    return left > 0;
}

/* How many other passes may own a shard. */
static int other_owners(const user *of) {
    int count = 0;
    for (int n = 0; n < PASSES; n++) count += &users[n] != of && users[n].away && users[n].owns;
    return count;
}

/* Whether a pass must find room for a value. In a growing heap each other owner keeps one shard of a chunk from it. */
static bool has_room(const user *of, int class, uint64_t chunks) {
    if (!grows()) return shard_has_room(0, of->shard, class);
    for (uint64_t chunk = 0; chunk < chunks; chunk++) {
        int with_room = 0;
        for (int n = 0; n < shards_of[chunk]; n++) with_room += shard_has_room(chunk, (uint64_t)n, class);
        if (with_room > other_owners(of)) return true;
    }
    return false;
}

/* Whether a pass may find another owner in each shard of a growing heap. */
static bool finds_owners(const user *of) {
    for (int chunk = 0; chunk < CHUNKS; chunk++)
        if (shards_of[chunk] > other_owners(of)) return false;
    return grows();
}

/* ---- Values ---- */

static uint64_t word_of(uint64_t number, uint64_t at) { return (number * WORDS + at) * UINT64_C(0x9e3779b97f4a7c15); }

static void same_value(const slot *of, const uint64_t *words, uint64_t length) {
    TRUE(length == of->length);
    for (uint64_t at = 0; at < length; at++) TRUE(words[at] == word_of(of->number, at));
}

/* A value comes into an empty slot of a page of its class, and no value of that slot had its key or a later one. */
static void stored(uint64_t key, uint64_t length, uint64_t number) {
    slot *at = slot_of(key);
    TRUE(is_empty(at) && key > at->key && bits(key, 0, 6) < (uint64_t)per_page[class_of(length)]);
    TRUE(slots_left(page_of(key), class_of(length)) > 0);
    *at = (slot){key, length, number, true, {0}};
}

static uint64_t live_keys(void) {
    const slot *all = &slots[0][0][0][0];
    uint64_t count = 0;
    for (int n = 0; n < CHUNKS * SHARDS * PAGES * SLOTS; n++) count += all[n].live;
    return count;
}

#endif
