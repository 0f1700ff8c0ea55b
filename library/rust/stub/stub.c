/* A stand-in for libc_exports.a, over which the slab of the Rust crate is tried. For `stub.py`.

   It has the calls that the slab makes, for heaps of layout Tagged and values of no words. All calls on a heap are one
   after the other, by a lock. There are two things that no proved heap does:

   - `stub_issue(key)`: the next insert of this thread returns that key, whatever is in its place.
   - With -DSPIN the lock is one that no sanitizer sees, since this file is compiled without instrumentation. Then the
     heap orders nothing for the slab. */
#include <stdatomic.h>
#include <stdlib.h>
#include "shardheap.h"

#ifdef SPIN
#include <sched.h>
typedef atomic_flag lock;
static void lock_open(lock *it) { atomic_flag_clear(it); }
static void lock_take(lock *it) { while (atomic_flag_test_and_set(it)) sched_yield(); }
static void lock_give(lock *it) { atomic_flag_clear(it); }
static void lock_close(lock *it) { (void)it; }
#else
#include <pthread.h>
typedef pthread_mutex_t lock;
static void lock_open(lock *it) { pthread_mutex_init(it, NULL); }
static void lock_take(lock *it) { pthread_mutex_lock(it); }
static void lock_give(lock *it) { pthread_mutex_unlock(it); }
static void lock_close(lock *it) { pthread_mutex_destroy(it); }
#endif

/* A key of layout Tagged: a generation of 32 bits, 6 bits of the shard, 8 of the page and 6 of the slot. */
enum { SLOTS = 48, PAGES = 8, MOST_SHARDS = 64, MOST_SEGMENTS = 32, MOST_PASSES = 64, NO_SHARD = -1 };

typedef struct slot {
    uint32_t generation; /* how many values the place had */
    bool issued;
} slot;

typedef struct shard {
    slot *slots;
    uint32_t *given_back; /* the numbers of slots whose keys were removed: the last one is issued first */
    uint32_t waiting;     /* how many these are */
    uint32_t begun;       /* how many slots were ever issued */
    bool owned;
} shard;

typedef struct heap {
    lock lock;
    uint32_t shares; /* handles that have it */
    uint32_t home;   /* passes that may be taken */
    uint32_t shards;
    uint32_t room; /* slots of each shard */
    shard all[MOST_SHARDS];
} heap;

typedef struct pass {
    heap *heap;
    int owns;
} pass;

static _Thread_local uint64_t to_issue;
static _Thread_local bool is_forced;

void stub_issue(uint64_t key);
void stub_issue(uint64_t key) {
    to_issue = key;
    is_forced = true;
}

static void freed(heap *it) {
    for (uint32_t number = 0; number < it->shards; number++) {
        free(it->all[number].slots);
        free(it->all[number].given_back);
    }
    lock_close(&it->lock);
    free(it);
}

/* Ends a handle's share of a heap that is locked. */
static void let_go(heap *it) {
    uint32_t left = --it->shares;
    lock_give(&it->lock);
    if (left == 0) freed(it);
}

/* The memory of all shards: whether it was granted. */
static bool filled(heap *it) {
    for (uint32_t number = 0; number < it->shards; number++) {
        it->all[number].slots = calloc(it->room, sizeof(slot));
        it->all[number].given_back = calloc(it->room, sizeof(uint32_t));
        if (!it->all[number].slots || !it->all[number].given_back) return false;
    }
    return true;
}

uint32_t shardheap_raw_open(shardheap *at, uint32_t layout, uint32_t shards, uint32_t segments, uint32_t passes) {
    if (layout != SHARDHEAP_TAGGED) return SHARDHEAP_BAD_LAYOUT;
    if (shards - 1 >= MOST_SHARDS || segments - 1 >= MOST_SEGMENTS || passes - 1 >= MOST_PASSES)
        return SHARDHEAP_BAD_SHAPE;
    heap *it = calloc(1, sizeof *it);
    if (!it) return SHARDHEAP_MEMORY;
    lock_open(&it->lock);
    it->shares = 1;
    it->home = passes;
    it->shards = shards;
    it->room = segments * PAGES * SLOTS;
    if (!filled(it)) {
        freed(it);
        return SHARDHEAP_MEMORY;
    }
    at->at = it;
    at->full = true;
    return SHARDHEAP_OK;
}

void shardheap_raw_close(shardheap *at) {
    if (!at->full) return;
    heap *it = at->at;
    /* (The rest of a handle is the header's. Rust's handles end here.) */
    at->at = NULL;
    at->full = false;
    lock_take(&it->lock);
    let_go(it);
}

uint32_t shardheap_raw_take(shardheap *at, shardheap_pass *to) {
    heap *it = at->at;
    pass *taken = malloc(sizeof *taken);
    if (!taken) return SHARDHEAP_MEMORY;
    lock_take(&it->lock);
    bool is_home = it->home > 0;
    it->home -= is_home;
    it->shares += is_home;
    lock_give(&it->lock);
    if (!is_home) {
        free(taken);
        return SHARDHEAP_NO_PASS;
    }
    *taken = (pass){it, NO_SHARD};
    to->at = taken;
    to->full = true;
    return SHARDHEAP_OK;
}

/* Ends a pass, which is at home again or not. */
static uint32_t ended(shardheap_pass *at, bool is_home) {
    if (!at->full) return SHARDHEAP_EMPTY;
    pass *it = at->at;
    heap *of = it->heap;
    if (is_home && it->owns != NO_SHARD) return SHARDHEAP_OWNS;
    at->at = NULL;
    at->full = false;
    free(it);
    lock_take(&of->lock);
    of->home += is_home;
    let_go(of);
    return SHARDHEAP_OK;
}

uint32_t shardheap_raw_give(shardheap_pass *at) { return ended(at, true); }

uint32_t shardheap_raw_pass_lose(shardheap_pass *at) { return ended(at, false); }

uint32_t shardheap_raw_adopt(shardheap_pass *at, uint64_t number) {
    pass *it = at->at;
    if (number >= it->heap->shards) return SHARDHEAP_NO_SHARD;
    shard *of = &it->heap->all[number];
    lock_take(&it->heap->lock);
    bool is_free = it->owns == NO_SHARD && !of->owned;
    if (is_free) of->owned = true;
    lock_give(&it->heap->lock);
    if (!is_free) return SHARDHEAP_TAKEN;
    it->owns = (int)number;
    return SHARDHEAP_OK;
}

uint32_t shardheap_raw_leave(shardheap_pass *at) {
    pass *it = at->at;
    if (it->owns == NO_SHARD) return SHARDHEAP_NO_SHARD;
    lock_take(&it->heap->lock);
    it->heap->all[it->owns].owned = false;
    lock_give(&it->heap->lock);
    it->owns = NO_SHARD;
    return SHARDHEAP_OK;
}

/* Issues a free slot of a shard of a locked heap: false if there is none. */
static bool issued(shard *of, uint32_t room, uint32_t *number) {
    if (of->waiting > 0)
        *number = of->given_back[--of->waiting];
    else if (of->begun < room)
        *number = of->begun++;
    else
        return false;
    of->slots[*number].generation++;
    of->slots[*number].issued = true;
    return true;
}

static uint64_t key_of(uint32_t generation, uint32_t shard, uint32_t slot) {
    return (((uint64_t)generation << 6 | shard) << 8 | slot / SLOTS) << 6 | slot % SLOTS;
}

uint32_t shardheap_raw_insert(shardheap_pass *at, const uint64_t *words, size_t count, uint64_t *key) {
    pass *it = at->at;
    (void)words;
    if (count > 0) return SHARDHEAP_TOO_LONG;
    if (it->owns == NO_SHARD) return SHARDHEAP_NO_SHARD;
    if (is_forced) {
        is_forced = false;
        *key = to_issue;
        return SHARDHEAP_OK;
    }
    shard *of = &it->heap->all[it->owns];
    uint32_t number = 0, generation = 0;
    lock_take(&it->heap->lock);
    bool is_issued = issued(of, it->heap->room, &number);
    if (is_issued) generation = of->slots[number].generation;
    lock_give(&it->heap->lock);
    if (!is_issued) return SHARDHEAP_FULL;
    *key = key_of(generation, (uint32_t)it->owns, number);
    return SHARDHEAP_OK;
}

/* Removes a key of a locked heap. One that `stub_issue` named is passed over. */
static void removed(heap *it, uint64_t key) {
    uint64_t slot_number = (key >> 6) % 256 * SLOTS + key % 64, shard_number = (key >> 14) % 64;
    if (key % 64 >= SLOTS || shard_number >= it->shards || slot_number >= it->room) return;
    shard *of = &it->all[shard_number];
    slot *at = &of->slots[slot_number];
    if (!at->issued || at->generation != key >> 20) return;
    at->issued = false;
    of->given_back[of->waiting++] = (uint32_t)slot_number;
}

uint32_t shardheap_raw_remove(shardheap_pass *at, uint64_t key) {
    heap *it = ((pass *)at->at)->heap;
    lock_take(&it->lock);
    removed(it, key);
    lock_give(&it->lock);
    return SHARDHEAP_OK;
}

/* What is removed can be issued at once. */
uint32_t shardheap_raw_collect(shardheap_pass *pass) {
    (void)pass;
    return SHARDHEAP_OK;
}

/* No slab makes the calls below. They are here for the linker. */
uint32_t shardheap_raw_open_for(shardheap *heap, uint32_t layout, uint32_t owners, uint64_t values, uint32_t words,
                                uint32_t passes) {
    (void)heap, (void)layout, (void)owners, (void)values, (void)words, (void)passes;
    abort();
}

uint32_t shardheap_raw_open_growing(shardheap *heap, uint32_t owners, uint64_t values, uint32_t words, uint32_t passes,
                                    uint32_t chunks) {
    (void)heap, (void)owners, (void)values, (void)words, (void)passes, (void)chunks;
    abort();
}

uint32_t shardheap_raw_share(shardheap *heap, shardheap *other) {
    (void)heap, (void)other;
    abort();
}

uint64_t shardheap_raw_chunks(shardheap *heap) {
    (void)heap;
    abort();
}

uint64_t shardheap_raw_passes(shardheap *heap) {
    (void)heap;
    abort();
}

uint64_t shardheap_raw_capacity(shardheap *heap, uint32_t words) {
    (void)heap, (void)words;
    abort();
}

uint64_t shardheap_raw_bytes(shardheap *heap) {
    (void)heap;
    abort();
}

uint32_t shardheap_raw_layout_of(shardheap *heap, uint32_t *layout) {
    (void)heap, (void)layout;
    abort();
}

uint32_t shardheap_raw_leave_idle(shardheap_pass *pass) {
    (void)pass;
    abort();
}

uint32_t shardheap_raw_gather(shardheap *heap) {
    (void)heap;
    abort();
}

uint32_t shardheap_raw_accounts(shardheap *heap, uint32_t shard, uint32_t page, shardheap_page *told) {
    (void)heap, (void)shard, (void)page, (void)told;
    abort();
}

uint32_t shardheap_raw_totals(shardheap *heap, shardheap_sums *told) {
    (void)heap, (void)told;
    abort();
}

uint32_t shardheap_raw_prepare(shardheap_pass *pass, uint32_t words, uint32_t *page) {
    (void)pass, (void)words, (void)page;
    abort();
}

uint32_t shardheap_raw_get(shardheap_pass *pass, uint64_t key) {
    (void)pass, (void)key;
    abort();
}

uint32_t shardheap_raw_release(shardheap_pass *pass, uint64_t key) {
    (void)pass, (void)key;
    abort();
}

uint32_t shardheap_raw_read(shardheap_pass *pass, uint64_t key, uint64_t *words, size_t room, uint64_t *length) {
    (void)pass, (void)key, (void)words, (void)room, (void)length;
    abort();
}

uint32_t shardheap_raw_load(shardheap_pass *pass, uint64_t key, uint64_t *words, size_t room, uint64_t *length) {
    (void)pass, (void)key, (void)words, (void)room, (void)length;
    abort();
}

uint32_t shardheap_raw_load_each(shardheap_pass *pass, shardheap_loaded *loads, size_t count) {
    (void)pass, (void)loads, (void)count;
    abort();
}

uint32_t shardheap_raw_take_value(shardheap_pass *pass, uint64_t key, uint64_t *words, size_t room, uint64_t *length) {
    (void)pass, (void)key, (void)words, (void)room, (void)length;
    abort();
}

uint32_t shardheap_raw_get_ended(shardheap_pass *pass, uint64_t key, shardheap_ended *ended) {
    (void)pass, (void)key, (void)ended;
    abort();
}

uint32_t shardheap_raw_release_ended(shardheap_pass *pass, uint64_t key, shardheap_ended *ended) {
    (void)pass, (void)key, (void)ended;
    abort();
}

uint32_t shardheap_raw_remove_ended(shardheap_pass *pass, uint64_t key, shardheap_ended *ended) {
    (void)pass, (void)key, (void)ended;
    abort();
}

uint32_t shardheap_raw_pages_left(shardheap_pass *pass, uint64_t *pages) {
    (void)pass, (void)pages;
    abort();
}

uint32_t shardheap_raw_slots_out(shardheap_pass *pass, uint64_t *slots) {
    (void)pass, (void)slots;
    abort();
}

uint32_t shardheap_raw_next_own_key(shardheap_pass *pass, uint64_t *place, uint64_t *key) {
    (void)pass, (void)place, (void)key;
    abort();
}

uint32_t shardheap_raw_receipt_make(shardheap_pass *pass, shardheap_receipt *receipt) {
    (void)pass, (void)receipt;
    abort();
}

uint32_t shardheap_raw_heed(shardheap_pass *pass, shardheap_receipt *receipt) {
    (void)pass, (void)receipt;
    abort();
}

void shardheap_raw_receipt_close(shardheap_receipt *receipt) {
    (void)receipt;
    abort();
}

uint32_t shardheap_raw_next_key(shardheap *heap, uint64_t *place, uint64_t *key) {
    (void)heap, (void)place, (void)key;
    abort();
}

uint32_t shardheap_raw_next_live(shardheap_pass *pass, uint64_t from, uint64_t before, shardheap_live_key *next) {
    (void)pass, (void)from, (void)before, (void)next;
    abort();
}

uint32_t shardheap_raw_next_held(shardheap_pass *pass, uint64_t from, uint64_t before, shardheap_held_key *next) {
    (void)pass, (void)from, (void)before, (void)next;
    abort();
}
