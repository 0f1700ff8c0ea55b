/* Which call ends a key, and what it tells: by one thread, and by four, in which each value names a counter that has to
   be 1 at the end. */
#include "check.h"
#include <pthread.h>
#include <stdatomic.h>
#include <string.h>

#define THREADS 4
#ifdef FEWER_ROUNDS
#define STEPS 1000
#else
#define STEPS 20000
#endif
#define VALUES (THREADS * STEPS)
#define PLACES 16
#define HELD 8
#define CHUNK 384

static const uint64_t words[16] = {7, 8, 9, 10, 11, 12, 13, 14, 15, 16, 17, 18, 19, 20, 21, 22};
static shardheap_ended told;
static uint64_t over;

static void blank(void) {
    memset(&told, 0x55, sizeof told);
    over = 77;
}

/* Whether the call before wrote this key, in one form or in the other, and the words of its value. */
static int wrote(uint64_t key, uint64_t count) {
    if (over != 77) return over == key && told.key >> 60 == 5;
    return told.key == key && told.length == count && memcmp(told.words, words, count * sizeof *words) == 0;
}

/* A call that ends no key. */
#define NONE_IS(call, code) (blank(), IS(call, code), TRUE(wrote(0, 0)))
/* A call that is done and ends this key. */
#define ENDS(call, key, count) (blank(), IS(call, SHARDHEAP_OK), TRUE(wrote(key, count)))

static void null_and_empty(void) {
    shardheap_pass pass = SHARDHEAP_INIT;
    NONE_IS(shardheap_get_ended(0, 4096, &told), SHARDHEAP_NULL);
    NONE_IS(shardheap_release_ended(0, 4096, &told), SHARDHEAP_NULL);
    NONE_IS(shardheap_remove_ended(0, 4096, &told), SHARDHEAP_NULL);
    NONE_IS(shardheap_get_ended_key(0, 4096, &over), SHARDHEAP_NULL);
    NONE_IS(shardheap_release_ended_key(0, 4096, &over), SHARDHEAP_NULL);
    NONE_IS(shardheap_remove_ended_key(0, 4096, &over), SHARDHEAP_NULL);
    IS(shardheap_get_ended(&pass, 4096, 0), SHARDHEAP_NULL);
    IS(shardheap_release_ended(&pass, 4096, 0), SHARDHEAP_NULL);
    IS(shardheap_remove_ended(&pass, 4096, 0), SHARDHEAP_NULL);
    IS(shardheap_get_ended_key(&pass, 4096, 0), SHARDHEAP_NULL);
    IS(shardheap_release_ended_key(&pass, 4096, 0), SHARDHEAP_NULL);
    IS(shardheap_remove_ended_key(&pass, 4096, 0), SHARDHEAP_NULL);
    NONE_IS(shardheap_get_ended(&pass, 4096, &told), SHARDHEAP_EMPTY);
    NONE_IS(shardheap_release_ended(&pass, 4096, &told), SHARDHEAP_EMPTY);
    NONE_IS(shardheap_remove_ended(&pass, 4096, &told), SHARDHEAP_EMPTY);
    NONE_IS(shardheap_get_ended_key(&pass, 4096, &over), SHARDHEAP_EMPTY);
    NONE_IS(shardheap_release_ended_key(&pass, 4096, &over), SHARDHEAP_EMPTY);
    NONE_IS(shardheap_remove_ended_key(&pass, 4096, &over), SHARDHEAP_EMPTY);
}

/* The key is not there any more, so that no call on it ends a key. */
static void is_gone(shardheap_pass *p, uint64_t key) {
    NONE_IS(shardheap_get_ended(p, key, &told), SHARDHEAP_GONE);
    NONE_IS(shardheap_remove_ended(p, key, &told), SHARDHEAP_GONE);
    NONE_IS(shardheap_release_ended(p, key, &told), SHARDHEAP_NOT_HELD);
    NONE_IS(shardheap_get_ended_key(p, key, &over), SHARDHEAP_GONE);
    NONE_IS(shardheap_remove_ended_key(p, key, &over), SHARDHEAP_GONE);
    NONE_IS(shardheap_release_ended_key(p, key, &over), SHARDHEAP_NOT_HELD);
}

static uint64_t stored(shardheap_pass *owner, uint64_t count) {
    uint64_t key;
    IS(shardheap_insert(owner, words, count, &key), SHARDHEAP_OK);
    return key;
}

/* A value of so many words: the last of those that use it ends its key, in either form. */
static void ends_once(shardheap_pass *one, shardheap_pass *two, uint64_t count) {
    uint64_t key = stored(one, count);
    ENDS(shardheap_remove_ended(two, key, &told), key, count);
    is_gone(one, key);
    key = stored(one, count);
    ENDS(shardheap_remove_ended_key(one, key, &over), key, count);
    key = stored(one, count);
    NONE_IS(shardheap_get_ended(two, key, &told), SHARDHEAP_OK);
    NONE_IS(shardheap_release_ended(two, key, &told), SHARDHEAP_OK);
    NONE_IS(shardheap_get_ended_key(two, key, &over), SHARDHEAP_OK);
    NONE_IS(shardheap_release_ended_key(two, key, &over), SHARDHEAP_OK);
    NONE_IS(shardheap_get_ended(one, key, &told), SHARDHEAP_OK);
    NONE_IS(shardheap_get_ended(two, key, &told), SHARDHEAP_OK);
    NONE_IS(shardheap_get_ended(two, key, &told), SHARDHEAP_OK);
    NONE_IS(shardheap_remove_ended(two, key, &told), SHARDHEAP_OK);
    NONE_IS(shardheap_get_ended(one, key, &told), SHARDHEAP_GONE);
    NONE_IS(shardheap_remove_ended(one, key, &told), SHARDHEAP_GONE);
    NONE_IS(shardheap_release_ended(two, key, &told), SHARDHEAP_OK);
    NONE_IS(shardheap_release_ended(one, key, &told), SHARDHEAP_OK);
    ENDS(shardheap_release_ended(two, key, &told), key, count);
    is_gone(two, key);
    uint64_t next = stored(one, count);
    is_gone(two, key); /* a stale key, also if the next value has its slot */
    NONE_IS(shardheap_get_ended_key(two, next, &over), SHARDHEAP_OK);
    NONE_IS(shardheap_remove_ended_key(one, next, &over), SHARDHEAP_OK);
    ENDS(shardheap_release_ended_key(two, next, &over), next, count);
}

/* As many holds as there may be. In layout tiny a key may have 4; elsewhere a pass has 16. */
static void beyond_the_holds(shardheap_pass *one, shardheap_pass *two, uint32_t layout) {
    int most = layout == SHARDHEAP_TINY ? 4 : 16;
    uint32_t beyond = layout == SHARDHEAP_TINY ? SHARDHEAP_CROWDED : SHARDHEAP_HOLDS_FULL;
    uint64_t key = stored(one, 3);
    for (int n = 0; n < most; n++) NONE_IS(shardheap_get_ended(two, key, &told), SHARDHEAP_OK);
    NONE_IS(shardheap_get_ended(two, key, &told), beyond);
    NONE_IS(shardheap_get_ended_key(two, key, &over), beyond);
    NONE_IS(shardheap_remove_ended(one, key, &told), SHARDHEAP_OK);
    for (int n = 1; n < most; n++) NONE_IS(shardheap_release_ended(two, key, &told), SHARDHEAP_OK);
    ENDS(shardheap_release_ended(two, key, &told), key, 3);
}

static void bad_keys(shardheap_pass *p, uint64_t bad) {
    NONE_IS(shardheap_get_ended(p, bad, &told), SHARDHEAP_BAD_KEY);
    NONE_IS(shardheap_remove_ended(p, bad, &told), SHARDHEAP_BAD_KEY);
    NONE_IS(shardheap_get_ended_key(p, bad, &over), SHARDHEAP_BAD_KEY);
    NONE_IS(shardheap_remove_ended_key(p, bad, &over), SHARDHEAP_BAD_KEY);
}

/* What leads into the handle is refused, and is not written. */
static void overlaps(shardheap_pass *p, uint64_t key) {
    void *bytes = p, *last = (char *)bytes + sizeof *p - 8;
    shardheap_pass was = *p;
    IS(shardheap_get_ended(p, key, bytes), SHARDHEAP_OVERLAP);
    IS(shardheap_release_ended(p, key, last), SHARDHEAP_OVERLAP);
    IS(shardheap_remove_ended(p, key, bytes), SHARDHEAP_OVERLAP);
    IS(shardheap_get_ended_key(p, key, last), SHARDHEAP_OVERLAP);
    IS(shardheap_release_ended_key(p, key, bytes), SHARDHEAP_OVERLAP);
    IS(shardheap_remove_ended_key(p, key, last), SHARDHEAP_OVERLAP);
    TRUE(memcmp(p, &was, sizeof was) == 0);
}

/* The last key of a slot ends as the others do: in layout tiny the 24 slots of 8 pages serve three each. */
static void last_generations(void) {
    shardheap heap = SHARDHEAP_INIT;
    shardheap_pass one = SHARDHEAP_INIT;
    uint64_t key, count = 0;
    IS(shardheap_open(&heap, SHARDHEAP_TINY, 1, 1, 1), SHARDHEAP_OK);
    IS(shardheap_take(&heap, &one), SHARDHEAP_OK);
    IS(shardheap_adopt(&one, 0), SHARDHEAP_OK);
    for (; shardheap_insert(&one, words, 16, &key) == SHARDHEAP_OK; count++)
        ENDS(shardheap_remove_ended(&one, key, &told), key, 16);
    TRUE(count == 3 * 24);
    IS(shardheap_leave(&one), SHARDHEAP_OK);
    IS(shardheap_give(&one), SHARDHEAP_OK);
    shardheap_close(&heap);
}

static void each_of(uint32_t layout) {
    static const uint64_t lengths[] = {0, 1, 2, 5, 16};
    shardheap heap = SHARDHEAP_INIT;
    shardheap_pass one = SHARDHEAP_INIT, two = SHARDHEAP_INIT;
    if (layout == SHARDHEAP_GROWING) IS(shardheap_open_growing(&heap, 1, 1, 1, 2, 1), SHARDHEAP_OK);
    else IS(shardheap_open(&heap, layout, 1, 2, 2), SHARDHEAP_OK);
    IS(shardheap_take(&heap, &one), SHARDHEAP_OK);
    IS(shardheap_take(&heap, &two), SHARDHEAP_OK);
    if (layout != SHARDHEAP_GROWING) IS(shardheap_adopt(&one, 0), SHARDHEAP_OK);
    for (size_t n = 0; n < sizeof lengths / sizeof *lengths; n++) ends_once(&one, &two, lengths[n]);
    beyond_the_holds(&one, &two, layout);
    uint64_t key = stored(&one, 1);
    bad_keys(&two, (key & ~(UINT64_MAX >> 8)) | UINT64_MAX >> 8);
    overlaps(&one, key);
    ENDS(shardheap_remove_ended(&one, key, &told), key, 1);
    IS(shardheap_leave(&one), SHARDHEAP_OK);
    IS(shardheap_give(&one), SHARDHEAP_OK);
    IS(shardheap_give(&two), SHARDHEAP_OK);
    shardheap_close(&heap);
}

/* A key of a further chunk is told with the number of its chunk, also to a pass that has not used the chunk before. */
static void further_chunk(void) {
    shardheap heap = SHARDHEAP_INIT;
    shardheap_pass one = SHARDHEAP_INIT, two = SHARDHEAP_INIT;
    IS(shardheap_open_growing(&heap, 1, CHUNK, 1, 2, 3), SHARDHEAP_OK);
    IS(shardheap_take(&heap, &one), SHARDHEAP_OK);
    IS(shardheap_take(&heap, &two), SHARDHEAP_OK);
    uint64_t first = stored(&one, 1), unopened = (UINT64_C(1) << 56) | first;
    bad_keys(&two, unopened);
    NONE_IS(shardheap_release_ended(&two, unopened, &told), SHARDHEAP_BAD_KEY);
    NONE_IS(shardheap_release_ended_key(&two, unopened, &over), SHARDHEAP_BAD_KEY);
    for (int n = 1; n < CHUNK; n++) stored(&one, 1);
    uint64_t key = stored(&one, 1);
    TRUE(key == unopened);
    ENDS(shardheap_remove_ended(&two, key, &told), key, 1);
    ends_once(&one, &two, 1);
    ENDS(shardheap_remove_ended(&two, first, &told), first, 1);
    IS(shardheap_give(&one), SHARDHEAP_OK);
    IS(shardheap_give(&two), SHARDHEAP_OK);
    shardheap_close(&heap);
}

/* ---- By threads ---- */

/* Words 0 and 1 of a value are its number and the complement of that. Its length is 2 to 16. */
static _Atomic uint32_t counters[VALUES];
static _Atomic uint64_t key_of[VALUES], tells[VALUES], places[PLACES], values, ends;
static _Atomic int wrong;

typedef struct {
    shardheap_pass pass;
    uint64_t seed, held[HELD], old[PLACES], ended_by[3];
    int in_words;
} job;

static void count_end(job *j, int call, const shardheap_ended *end) {
    if (end->key == 0) return;
    j->ended_by[call]++;
    uint64_t at = atomic_fetch_add(&ends, 1);
    if (at < VALUES) atomic_store(&tells[at], end->key);
    if (!j->in_words) return;
    uint64_t number = end->words[0];
    if (number >= VALUES || end->length != 2 + number % 15 || end->words[1] != ~number ||
        atomic_load(&key_of[number]) != end->key)
        atomic_fetch_add(&wrong, 1);
    else atomic_fetch_add(&counters[number], 1);
}

static uint32_t gets(job *j, uint64_t key) {
    shardheap_ended end = {0, 0, {0}};
    uint32_t code = j->in_words ? shardheap_get_ended(&j->pass, key, &end)
                                : shardheap_get_ended_key(&j->pass, key, &end.key);
    if (code == SHARDHEAP_OK && end.key != 0) atomic_fetch_add(&wrong, 1);
    return count_end(j, 0, &end), code;
}

static uint32_t removes(job *j, uint64_t key) {
    shardheap_ended end = {0, 0, {0}};
    uint32_t code = j->in_words ? shardheap_remove_ended(&j->pass, key, &end)
                                : shardheap_remove_ended_key(&j->pass, key, &end.key);
    return count_end(j, 1, &end), code;
}

static void releases(job *j, uint64_t key) {
    shardheap_ended end = {0, 0, {0}};
    uint32_t code = j->in_words ? shardheap_release_ended(&j->pass, key, &end)
                                : shardheap_release_ended_key(&j->pass, key, &end.key);
    if (code != SHARDHEAP_OK || (end.key != 0 && end.key != key)) atomic_fetch_add(&wrong, 1);
    count_end(j, 2, &end);
}

static void stores(job *j, uint64_t place) {
    uint64_t value[16] = {0}, key, number = atomic_fetch_add(&values, 1);
    value[0] = number;
    value[1] = ~number;
    while (shardheap_insert(&j->pass, value, 2 + number % 15, &key) != SHARDHEAP_OK) {
        if (atomic_load(&wrong)) return;
    }
    atomic_store(&key_of[number], key);
    uint64_t before = atomic_exchange(&places[place], key);
    if (before == 0) return;
    uint32_t code = removes(j, before);
    if (code != SHARDHEAP_OK && code != SHARDHEAP_GONE) atomic_fetch_add(&wrong, 1);
}

/* Holds a key for a while, in place of one that it held before. */
static void holds(job *j, uint64_t key, uint64_t at) {
    uint64_t room[16], length;
    uint32_t code = gets(j, key);
    if (code != SHARDHEAP_OK) {
        if (code != SHARDHEAP_GONE) atomic_fetch_add(&wrong, 1);
        return;
    }
    if (shardheap_read(&j->pass, key, room, 16, &length) != SHARDHEAP_OK || atomic_load(&key_of[room[0]]) != key)
        atomic_fetch_add(&wrong, 1);
    if (j->held[at] != 0) releases(j, j->held[at]);
    j->held[at] = key;
}

static void *steps(void *arg) {
    job *j = arg;
    for (int n = 0; n < STEPS && !atomic_load(&wrong); n++) {
        j->seed = j->seed * 6364136223846793005u + 1442695040888963407u;
        uint64_t chance = j->seed >> 32, place = chance % PLACES, key = atomic_load(&places[place]);
        /* every other key is one from before, which another value may have followed in its slot */
        if (chance / PLACES % 2 && j->old[place] != 0) key = j->old[place];
        if (chance % 3) j->old[place] = key;
        if (key == 0 || chance / 128 % 4 == 0) stores(j, place);
        else if (chance / 128 % 4 == 1) (void)removes(j, key);
        else holds(j, key, chance / 512 % HELD);
    }
    for (int n = 0; n < HELD; n++)
        if (j->held[n] != 0) releases(j, j->held[n]);
    return NULL;
}

static int in_order(const void *a, const void *b) {
    uint64_t one = *(const uint64_t *)a, two = *(const uint64_t *)b;
    return one < two ? -1 : one > two;
}

/* The keys that were stored and those that were told are the same, each once. */
static void each_once(int in_words) {
    static uint64_t one[VALUES], two[VALUES];
    uint64_t count = atomic_load(&values);
    TRUE(atomic_load(&wrong) == 0);
    TRUE(count == atomic_load(&ends));
    for (uint64_t n = 0; n < count; n++) {
        one[n] = atomic_load(&key_of[n]);
        two[n] = atomic_load(&tells[n]);
        TRUE(!in_words || atomic_load(&counters[n]) == 1);
    }
    qsort(one, count, sizeof *one, in_order);
    qsort(two, count, sizeof *two, in_order);
    TRUE(memcmp(one, two, count * sizeof *one) == 0);
}

static void by_threads(int grows, int in_words) {
    static job jobs[THREADS];
    shardheap heap = SHARDHEAP_INIT;
    pthread_t threads[THREADS];
    uint64_t by[3] = {0};
    memset(jobs, 0, sizeof jobs);
    atomic_store(&values, 0);
    atomic_store(&ends, 0);
    for (int n = 0; n < VALUES; n++) atomic_store(&counters[n], 0);
    for (int n = 0; n < PLACES; n++) atomic_store(&places[n], 0);
    if (grows) IS(shardheap_open_growing(&heap, THREADS, 1, 1, THREADS, 256), SHARDHEAP_OK);
    else IS(shardheap_open_for(&heap, SHARDHEAP_WIDE, THREADS, 1000, 16, THREADS), SHARDHEAP_OK);
    for (int n = 0; n < THREADS; n++) {
        jobs[n].seed = (uint64_t)n + 1;
        jobs[n].in_words = in_words;
        IS(shardheap_take(&heap, &jobs[n].pass), SHARDHEAP_OK);
        if (!grows) IS(shardheap_adopt(&jobs[n].pass, (uint64_t)n), SHARDHEAP_OK);
    }
    for (int n = 0; n < THREADS; n++) TRUE(pthread_create(&threads[n], NULL, steps, &jobs[n]) == 0);
    for (int n = 0; n < THREADS; n++) TRUE(pthread_join(threads[n], NULL) == 0);
    for (int n = 0; n < PLACES; n++)
        if (atomic_load(&places[n]) != 0) (void)removes(&jobs[0], atomic_load(&places[n]));
    each_once(in_words);
    for (int n = 0; n < THREADS; n++) {
        for (int call = 0; call < 3; call++) by[call] += jobs[n].ended_by[call];
        IS(shardheap_leave(&jobs[n].pass), SHARDHEAP_OK);
        IS(shardheap_give(&jobs[n].pass), SHARDHEAP_OK);
    }
    shardheap_close(&heap);
    printf("ends: %d keys ended once each, %d by gets, %d by removes, %d by releases\n", (int)atomic_load(&values),
           (int)by[0], (int)by[1], (int)by[2]);
}

int main(void) {
    null_and_empty();
    for (uint32_t layout = SHARDHEAP_WIDE; layout <= SHARDHEAP_GROWING; layout++) each_of(layout);
    last_generations();
    further_chunk();
    for (int form = 0; form < 4; form++) by_threads(form % 2, form / 2);
    printf("ends: %d checks passed\n", checks);
    return 0;
}
