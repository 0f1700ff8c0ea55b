/* The tables of shardheap_table.h: their calls, each by a place of places.h over a heap that grows. A program that
   links libc_exports.a and uses a table compiles this file, with places.h beside it. libshardheap.a and libshardheap.so
   have both inside. They are tested, and not proved. */
#define _DEFAULT_SOURCE 1
#include "places.h"

/* ---- Calls by a place ---- */

/* Only the thread that has the place writes its count. */
static inline void add(place *of, int64_t change) {
    atomic_store_explicit(&of->count, atomic_load_explicit(&of->count, memory_order_relaxed) + change,
                          memory_order_relaxed);
}

/* FULL as well if other places have all shards, since a table has none in its interface. */
static inline uint32_t insert_once_by(place *it, const uint64_t *words, size_t count, uint64_t *into) {
    it->busy = true;
    mine.within++;
    uint32_t code = shardheap_raw_insert(&it->pass, words, count, into);
    mine.within--;
    it->busy = false;
    if (code == SHARDHEAP_OK) add(it, 1);
    return code == SHARDHEAP_NO_SHARD ? SHARDHEAP_FULL : code;
}

/* The same; if there is no room it collects once, and tries again. */
static uint32_t insert_by(place *it, const uint64_t *words, size_t count, uint64_t *into) {
    uint32_t code = insert_once_by(it, words, count, into);
    if (code != SHARDHEAP_FULL || shardheap_raw_collect(&it->pass) != SHARDHEAP_OK) return code;
    return insert_once_by(it, words, count, into);
}

static inline uint32_t remove_by(place *it, uint64_t of) {
    uint32_t code = shardheap_raw_remove(&it->pass, of);
    if (code == SHARDHEAP_OK) add(it, -1);
    return code;
}

static inline uint32_t take_by(place *it, uint64_t of, uint64_t *words, size_t room, uint64_t *length) {
    uint32_t code = shardheap_raw_take_value(&it->pass, of, words, room, length);
    if (code == SHARDHEAP_OK) add(it, -1);
    return code;
}

/* ---- Calls by a place that write which key they ended ----

   A get is one by a hold: a load of a number that was never issued goes on as a get, which may end a key without a
   word. */

typedef uint32_t told_call(place *it, uint64_t at, uint64_t *words, size_t room, uint64_t *length,
                           shardheap_ended *ended);

static uint32_t get_told(place *it, uint64_t at, uint64_t *words, size_t room, uint64_t *length,
                         shardheap_ended *ended) {
    uint32_t code = shardheap_raw_get_ended(&it->pass, at, ended);
    if (code != SHARDHEAP_OK) return code;
    code = shardheap_raw_read(&it->pass, at, words, room, length);
    (void)shardheap_raw_release_ended(&it->pass, at, ended);
    return code;
}

static uint32_t remove_told(place *it, uint64_t at, uint64_t *words, size_t room, uint64_t *length,
                            shardheap_ended *ended) {
    (void)words, (void)room, (void)length;
    uint32_t code = shardheap_raw_remove_ended(&it->pass, at, ended);
    if (code == SHARDHEAP_OK) add(it, -1);
    return code;
}

/* (The removal ends no key, since the pass has a hold on it.) */
static uint32_t take_told(place *it, uint64_t at, uint64_t *words, size_t room, uint64_t *length,
                          shardheap_ended *ended) {
    uint64_t value[16], count = 0;
    uint32_t code = shardheap_raw_get_ended(&it->pass, at, ended);
    if (code != SHARDHEAP_OK) return code;
    (void)shardheap_raw_read(&it->pass, at, value, 16, &count);
    code = count > room ? (uint32_t)SHARDHEAP_SHORT : shardheap_raw_remove_ended(&it->pass, at, ended);
    (void)shardheap_raw_release_ended(&it->pass, at, ended);
    if (code == SHARDHEAP_OK) {
        memcpy(words, value, count * sizeof *words);
        add(it, -1);
    }
    if (code == SHARDHEAP_OK || code == SHARDHEAP_SHORT) *length = count;
    return code;
}

/* Makes such a call, and tells the hook. The thread has no place and no lock of the table then, so that the hook may
   call it. */
static uint32_t tell(shardheap_places *of, told_call *call, uint64_t at, uint64_t *words, size_t room,
                     uint64_t *length) {
    turn it;
    shardheap_ended ended;
    uint32_t code = begin_turn(of, &it);
    if (code != SHARDHEAP_OK) return code;
    code = call(it.place, at, words, room, length, &ended);
    end_turn(of, &it);
    if (ended.key != 0) of->on_end(of->context, &ended);
    return code;
}

/* Inserts by the resting and the shared places, after that of a call was refused for want of room or memory. The code
   is that one if all of them refuse. */
static uint32_t insert_by_others(shardheap_places *of, const uint64_t *words, size_t count, uint64_t *into,
                                 uint32_t refused) {
    turn it;
    for (int n = 0; n < PLACES; n++) {
        if (n < OWN ? !by_rest(of, n, &it) : !by_lock(of, n - OWN, mine.within == 0, &it)) continue;
        uint32_t code = insert_by(it.place, words, count, into);
        end_turn(of, &it);
        if (code == SHARDHEAP_OK) return code;
    }
    return refused;
}

/* The calls below, if the thread has no place that it used lately, or its place is busy, or there is a hook. */

static __attribute__((noinline)) uint32_t insert_slowly(shardheap_places *of, const uint64_t *words, size_t count,
                                                        uint64_t *into) {
    turn it;
    uint32_t code = begin_turn(of, &it);
    if (code != SHARDHEAP_OK) return code;
    code = insert_by(it.place, words, count, into);
    end_turn(of, &it);
    if (code != SHARDHEAP_FULL && code != SHARDHEAP_MEMORY) return code;
    return insert_by_others(of, words, count, into, code);
}

static __attribute__((noinline)) uint32_t get_slowly(shardheap_places *of, uint64_t at, uint64_t *words, size_t room,
                                                     uint64_t *length) {
    if (of->on_end) return tell(of, get_told, at, words, room, length);
    turn it;
    uint32_t code = begin_turn(of, &it);
    if (code != SHARDHEAP_OK) return code;
    code = shardheap_raw_load(&it.place->pass, at, words, room, length);
    end_turn(of, &it);
    return code;
}

static __attribute__((noinline)) uint32_t remove_slowly(shardheap_places *of, uint64_t at) {
    if (of->on_end) return tell(of, remove_told, at, NULL, 0, NULL);
    turn it;
    uint32_t code = begin_turn(of, &it);
    if (code != SHARDHEAP_OK) return code;
    code = remove_by(it.place, at);
    end_turn(of, &it);
    return code;
}

static __attribute__((noinline)) uint32_t take_slowly(shardheap_places *of, uint64_t at, uint64_t *words, size_t room,
                                                      uint64_t *length) {
    if (of->on_end) return tell(of, take_told, at, words, room, length);
    turn it;
    uint32_t code = begin_turn(of, &it);
    if (code != SHARDHEAP_OK) return code;
    code = take_by(it.place, at, words, room, length);
    end_turn(of, &it);
    return code;
}

/* ---- The calls of the header, on a table that is open ---- */

uint32_t shardheap_table_raw_insert(shardheap_places *of, const uint64_t *words, size_t count, uint64_t *into) {
    place *it = recent_idle(of);
    if (!it) return insert_slowly(of, words, count, into);
    uint32_t code = insert_once_by(it, words, count, into);
    /* (whatever refused it refuses it again, or another place has room) */
    return code == SHARDHEAP_OK ? code : insert_slowly(it->of, words, count, into);
}

uint32_t shardheap_table_raw_get(shardheap_places *of, uint64_t at, uint64_t *words, size_t room, uint64_t *length) {
    place *it = of->on_end ? NULL : recent_idle(of);
    if (!it) return get_slowly(of, at, words, room, length);
    return shardheap_raw_load(&it->pass, at, words, room, length);
}

uint32_t shardheap_table_raw_contains(shardheap_places *of, uint64_t at) {
    uint64_t none, length;
    uint32_t code = shardheap_table_raw_get(of, at, &none, 0, &length);
    return code == SHARDHEAP_SHORT ? (uint32_t)SHARDHEAP_OK : code;
}

uint32_t shardheap_table_raw_remove(shardheap_places *of, uint64_t at) {
    place *it = of->on_end ? NULL : recent_idle(of);
    return it ? remove_by(it, at) : remove_slowly(of, at);
}

uint32_t shardheap_table_raw_take(shardheap_places *of, uint64_t at, uint64_t *words, size_t room, uint64_t *length) {
    place *it = of->on_end ? NULL : recent_idle(of);
    return it ? take_by(it, at, words, room, length) : take_slowly(of, at, words, room, length);
}

uint32_t shardheap_table_raw_next(shardheap_places *of, uint64_t from, shardheap_live_key *next) {
    turn it;
    uint32_t code = begin_turn(of, &it);
    if (code != SHARDHEAP_OK) return code;
    code = shardheap_raw_next_live(&it.place->pass, from, UINT64_MAX, next);
    end_turn(of, &it);
    return code;
}

uint64_t shardheap_table_raw_length(shardheap_places *of) {
    int64_t sum = 0;
    for (int n = 0; n < PLACES; n++) sum += atomic_load_explicit(&of->all[n].count, memory_order_relaxed);
    return sum > 0 ? (uint64_t)sum : 0;
}

uint64_t shardheap_table_raw_capacity(shardheap_places *of, uint32_t words) {
    pthread_mutex_lock(&of->asks);
    uint64_t count = shardheap_raw_capacity(&of->heap, words);
    pthread_mutex_unlock(&of->asks);
    return count;
}

uint64_t shardheap_table_raw_bytes(shardheap_places *of) {
    pthread_mutex_lock(&of->asks);
    uint64_t bytes = shardheap_raw_bytes(&of->heap);
    pthread_mutex_unlock(&of->asks);
    return bytes;
}

uint32_t shardheap_table_raw_enter(shardheap_places *of) {
    if (own(of)) return SHARDHEAP_OK;
    return mine.within == 0 ? enter(of) : (uint32_t)SHARDHEAP_NO_PLACE;
}

uint32_t shardheap_table_raw_rest(shardheap_places *of) {
    if (mine.within > 0) return SHARDHEAP_NO_PLACE;
    place **link = link_of(of);
    if (*link) rest(link);
    return SHARDHEAP_OK;
}

/* ---- Opening and closing ---- */

/* A handle of the heap for each place, and the passes of the shared ones. */
static uint32_t fill_places(shardheap_places *of, uint32_t owners, uint64_t values, uint32_t words, uint32_t chunks) {
    uint32_t code = shardheap_raw_open_growing(&of->heap, owners, values, words, PLACES, chunks);
    for (int n = 0; n < PLACES && code == SHARDHEAP_OK; n++) code = shardheap_raw_share(&of->heap, &of->all[n].heap);
    for (int n = OWN; n < PLACES && code == SHARDHEAP_OK; n++)
        code = shardheap_raw_take(&of->all[n].heap, &of->all[n].pass);
    return code;
}

void shardheap_table_raw_on_end(shardheap_places *of, shardheap_end_hook *hook, void *context) {
    of->on_end = hook;
    of->context = context;
}

/* Tells the hook all keys that have a value, as the table ends. */
static void end_all(shardheap_places *of) {
    shardheap_live_key met = {0, 0, 0, {0}};
    while (shardheap_table_raw_next(of, met.behind, &met) == SHARDHEAP_OK) {
        shardheap_ended ended = {met.key, met.length, {0}};
        memcpy(ended.words, met.words, met.length * sizeof met.words[0]);
        of->on_end(of->context, &ended);
    }
}

void shardheap_table_raw_close(shardheap_places *of) {
    if (of->on_end) end_all(of);
    place **link = link_of(of);
    if (*link) rest(link);
    for (int n = 0; n < PLACES; n++) {
        /* (no other call than a lose empties a pass whatever it owns; the heap goes with the last handle) */
        if (of->all[n].pass.full) (void)shardheap_raw_pass_lose(&of->all[n].pass);
        if (of->all[n].heap.full) shardheap_raw_close(&of->all[n].heap);
    }
    if (of->heap.full) shardheap_raw_close(&of->heap);
    for (int n = 0; n < SHARED; n++) pthread_mutex_destroy(&of->locks[n]);
    pthread_mutex_destroy(&of->asks);
    atomic_store_explicit(&of->closed, true, memory_order_release);
    let_go(of);
}

uint32_t shardheap_table_raw_open(shardheap_places **into, uint32_t owners, uint64_t values, uint32_t words,
                                  uint32_t chunks) {
    shardheap_places *made = makes_key() ? new_places() : NULL;
    if (!made) return SHARDHEAP_MEMORY;
    uint32_t code = fill_places(made, owners, values, words, chunks);
    if (code == SHARDHEAP_OK) *into = made;
    else shardheap_table_raw_close(made);
    return code;
}
