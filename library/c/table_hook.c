/* What a table calls as its keys end: each call that removes a key, the close, a hook that calls the table, and
   threads, of which some ask for numbers that are no keys. Each value is a number whose end is told once. */
#include "shardheap_table.h"
#include "check.h"
#include <pthread.h>
#include <stdatomic.h>

#ifdef FEWER_ROUNDS
enum { COUNT = 2000, ROUNDS = 1 };
#else
enum { COUNT = 20000, ROUNDS = 5 };
#endif

/* Added to a key: a number of a later generation than any place comes to here. */
#define LATER (UINT64_C(1) << 50)

static shardheap_table table = SHARDHEAP_INIT;
static atomic_uint told[COUNT];

/* Value n has n % 16 + 1 words, each of which is n. */
static uint64_t stored(uint64_t n) {
    uint64_t words[16], key;
    for (int at = 0; at < 16; at++) words[at] = n;
    IS(shardheap_table_insert(&table, words, n % 16 + 1, &key), SHARDHEAP_OK);
    return key;
}

static void counts(void *context, const shardheap_ended *ended) {
    uint64_t n = ended->words[0];
    TRUE(context == told && ended->key != 0 && ended->length == n % 16 + 1 && ended->words[n % 16] == n);
    told[n]++;
}

static void opens(void) {
    IS(shardheap_table_open_for(&table, 1, 1, 1, 256), SHARDHEAP_OK);
    IS(shardheap_table_on_end(&table, counts, told), SHARDHEAP_OK);
    for (int n = 0; n < COUNT; n++) told[n] = 0;
}

static void each_is_told_once(int count) {
    for (int n = 0; n < COUNT; n++) TRUE(told[n] == (n < count));
}

static bool is_seven(void *none, const shardheap_live_key *met) {
    return !none && met->words[0] == 7;
}

static void tells_each_removal(void) {
    uint64_t keys[1000], room[16], length = 77, count;
    opens();
    for (uint64_t n = 0; n < 1000; n++) keys[n] = stored(n);
    IS(shardheap_table_remove(&table, keys[0]), SHARDHEAP_OK);
    IS(shardheap_table_remove(&table, keys[0]), SHARDHEAP_GONE);
    IS(shardheap_table_take(&table, keys[3], room, 3, &length), SHARDHEAP_SHORT);
    TRUE(told[0] == 1 && told[3] == 0 && length == 4);
    IS(shardheap_table_get(&table, keys[3], room, 3, &length), SHARDHEAP_SHORT);
    IS(shardheap_table_contains(&table, keys[3]), SHARDHEAP_OK);
    IS(shardheap_table_take(&table, keys[3], room, 4, &length), SHARDHEAP_OK);
    TRUE(told[3] == 1 && length == 4 && room[3] == 3);
    length = 77;
    IS(shardheap_table_take(&table, keys[3], room, 4, &length), SHARDHEAP_GONE);
    IS(shardheap_table_get(&table, keys[3], room, 4, &length), SHARDHEAP_GONE);
    IS(shardheap_table_contains(&table, keys[3]), SHARDHEAP_GONE);
    IS(shardheap_table_take(&table, UINT64_MAX, room, 4, &length), SHARDHEAP_BAD_KEY);
    TRUE(length == 77);
    IS(shardheap_table_get(&table, keys[15], room, 16, &length), SHARDHEAP_OK);
    TRUE(length == 16 && room[15] == 15 && told[15] == 0);
    IS(shardheap_table_remove_if(&table, is_seven, NULL, &count), SHARDHEAP_OK);
    TRUE(count == 1 && told[7] == 1 && shardheap_table_length(&table) == 997);
    shardheap_table_close(&table);
    each_is_told_once(1000);
}

/* A hook that is null calls nothing. */
static void forgets_its_hook(void) {
    opens();
    uint64_t key = stored(0);
    IS(shardheap_table_on_end(&table, NULL, NULL), SHARDHEAP_OK);
    IS(shardheap_table_remove(&table, key), SHARDHEAP_OK);
    (void)stored(1);
    shardheap_table_close(&table);
    each_is_told_once(0);
}

/* The end of a key removes the next one. */
static void removes_next(void *keys, const shardheap_ended *ended) {
    uint64_t n = ended->words[0];
    counts(told, ended);
    IS(shardheap_table_contains(&table, ended->key), SHARDHEAP_GONE);
    IS(shardheap_table_rest(&table), SHARDHEAP_OK);
    if (n + 1 < 100) IS(shardheap_table_remove(&table, ((uint64_t *)keys)[n + 1]), SHARDHEAP_OK);
}

static void may_be_called(void) {
    uint64_t keys[100];
    opens();
    IS(shardheap_table_on_end(&table, removes_next, keys), SHARDHEAP_OK);
    for (uint64_t n = 0; n < 100; n++) keys[n] = stored(n);
    IS(shardheap_table_remove(&table, keys[0]), SHARDHEAP_OK);
    each_is_told_once(100);
    TRUE(shardheap_table_length(&table) == 0);
    shardheap_table_close(&table);
}

/* ---- Threads ---- */

static _Atomic uint64_t keys[COUNT];
static _Atomic uint64_t now; /* the key that one thread removes, or UINT64_MAX at the end */
static _Thread_local unsigned told_here;
static atomic_uint by_others;

static void counts_here(void *context, const shardheap_ended *ended) {
    counts(context, ended);
    told_here++;
}

/* Asks for numbers that are no keys. They find nothing, and may be the last to leave the key that is removed. */
static void *asks(void *how) {
    uint64_t key, room[16], length;
    while ((key = now) != UINT64_MAX) {
        switch (*(int *)how) {
        case 0: IS(shardheap_table_get(&table, key + LATER, room, 16, &length), SHARDHEAP_GONE); break;
        case 1: IS(shardheap_table_contains(&table, key + LATER), SHARDHEAP_GONE); break;
        case 2: IS(shardheap_table_remove(&table, key + LATER), SHARDHEAP_GONE); break;
        default: IS(shardheap_table_take(&table, key + LATER, room, 16, &length), SHARDHEAP_GONE);
        }
    }
    by_others += told_here;
    return NULL;
}

static void tells_refused_calls(int how) {
    pthread_t others[2];
    opens();
    IS(shardheap_table_on_end(&table, counts_here, told), SHARDHEAP_OK);
    now = 0;
    for (int n = 0; n < 2; n++) TRUE(pthread_create(&others[n], NULL, asks, &how) == 0);
    for (uint64_t n = 0; n < COUNT; n++) {
        uint64_t key = stored(n);
        now = key;
        IS(shardheap_table_remove(&table, key), SHARDHEAP_OK);
    }
    now = UINT64_MAX;
    for (int n = 0; n < 2; n++) TRUE(pthread_join(others[n], NULL) == 0);
    each_is_told_once(COUNT);
    shardheap_table_close(&table);
}

enum { THREADS = 80 };

static void *works(void *key) {
    uint64_t me = (uint64_t)((_Atomic uint64_t *)key - keys), room[16], length;
    for (uint64_t n = 0; n < COUNT; n++) {
        if (n % THREADS == me) keys[n] = stored(n);
        uint64_t at = n - (n * me % 40 < n ? n * me % 40 : 0), key = keys[at];
        if (key == 0) continue;
        uint32_t code = (n + me) % 8 == 0   ? shardheap_table_remove(&table, key)
                        : (n + me) % 8 == 1 ? shardheap_table_take(&table, key, room, 16, &length)
                                            : shardheap_table_get(&table, key, room, 16, &length);
        TRUE(code == SHARDHEAP_OK || code == SHARDHEAP_GONE);
        if (code == SHARDHEAP_OK && (n + me) % 8 != 0) TRUE(length == at % 16 + 1 && room[0] == at);
    }
    return NULL;
}

/* More threads than places. */
static void serves_threads(void) {
    static pthread_t threads[THREADS];
    pthread_attr_t small;
    pthread_attr_init(&small);
    pthread_attr_setstacksize(&small, 256 << 10);
    opens();
    for (int n = 0; n < THREADS; n++) TRUE(pthread_create(&threads[n], &small, works, &keys[n]) == 0);
    for (int n = 0; n < THREADS; n++) TRUE(pthread_join(threads[n], NULL) == 0);
    TRUE(shardheap_table_length(&table) < COUNT);
    shardheap_table_close(&table);
    each_is_told_once(COUNT);
}

int main(void) {
    tells_each_removal();
    forgets_its_hook();
    may_be_called();
    for (int n = 0; n < ROUNDS; n++)
        for (int how = 0; how < 4; how++) tells_refused_calls(how);
    serves_threads();
    printf("table_hook: %d keys, of which %u ended in a call that found nothing\n", 4 * ROUNDS * COUNT, by_others);
    return 0;
}
