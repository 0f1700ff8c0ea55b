/* What a table's calls return, from one thread and from many: places that threads have, that rest as a thread ends, and
   that others share. */
#include "shardheap_table.h"
#include "check.h"
#include <pthread.h>
#include <stdatomic.h>

/* The values of a word of one shard of the least table, and the places of threads. */
enum { WHOLE = 384, ALL_OWN = 60 };

static const uint64_t words[17] = {7, 8, 9};

/* Whether the first word of a value is odd. */
static bool is_odd(void *none, const shardheap_live_key *met) {
    return none == NULL && met->words[0] % 2 == 1;
}

static void ends(void *none, const shardheap_ended *ended) {
    (void)none, (void)ended;
}

/* Calls that do nothing: pointers that are null or overlap, and a handle that is empty, full or none. */
static void refuses(void) {
    static union {
        shardheap_table table;
        uint64_t words[8];
        shardheap_live_key next;
    } it;
    shardheap_table *table = &it.table, none = SHARDHEAP_INIT;
    uint64_t room[16], key = 77, length = 77;
    shardheap_live_key next = {0, 0, 0, {0}};
    memset(&it, 1, sizeof it);
    const uint32_t refused = SHARDHEAP_NO_HANDLE;
    IS(shardheap_table_open(table), refused);
    IS(shardheap_table_open_for(table, 1, 1, 1, 1), refused);
    IS(shardheap_table_insert(table, words, 1, &key), refused);
    IS(shardheap_table_get(table, 1, room, 16, &length), refused);
    IS(shardheap_table_contains(table, 1), refused);
    IS(shardheap_table_remove(table, 1), refused);
    IS(shardheap_table_take(table, 1, room, 16, &length), refused);
    IS(shardheap_table_next(table, 0, &next), refused);
    IS(shardheap_table_remove_if(table, is_odd, NULL, &key), refused);
    IS(shardheap_table_on_end(table, ends, NULL), refused);
    IS(shardheap_table_enter(table), refused);
    IS(shardheap_table_rest(table), refused);
    TRUE(shardheap_table_length(table) == 0);
    TRUE(shardheap_table_capacity(table, 1) == 0 && shardheap_table_bytes(table) == 0);
    shardheap_table_close(table);
    IS(shardheap_table_open(NULL), SHARDHEAP_NULL);
    IS(shardheap_table_open_for(NULL, 1, 1, 1, 1), SHARDHEAP_NULL);
    IS(shardheap_table_insert(NULL, words, 1, &key), SHARDHEAP_NULL);
    IS(shardheap_table_insert(&none, NULL, 1, &key), SHARDHEAP_NULL);
    IS(shardheap_table_insert(&none, words, 1, NULL), SHARDHEAP_NULL);
    IS(shardheap_table_get(NULL, 1, room, 16, &length), SHARDHEAP_NULL);
    IS(shardheap_table_get(&none, 1, NULL, 1, &length), SHARDHEAP_NULL);
    IS(shardheap_table_get(&none, 1, room, 16, NULL), SHARDHEAP_NULL);
    IS(shardheap_table_contains(NULL, 1), SHARDHEAP_NULL);
    IS(shardheap_table_remove(NULL, 1), SHARDHEAP_NULL);
    IS(shardheap_table_take(NULL, 1, room, 16, &length), SHARDHEAP_NULL);
    IS(shardheap_table_next(NULL, 0, &next), SHARDHEAP_NULL);
    IS(shardheap_table_next(&none, 0, NULL), SHARDHEAP_NULL);
    IS(shardheap_table_remove_if(NULL, is_odd, NULL, &key), SHARDHEAP_NULL);
    IS(shardheap_table_remove_if(&none, NULL, NULL, &key), SHARDHEAP_NULL);
    IS(shardheap_table_remove_if(&none, is_odd, NULL, NULL), SHARDHEAP_NULL);
    IS(shardheap_table_on_end(NULL, ends, NULL), SHARDHEAP_NULL);
    IS(shardheap_table_enter(NULL), SHARDHEAP_NULL);
    IS(shardheap_table_rest(NULL), SHARDHEAP_NULL);
    TRUE(shardheap_table_length(NULL) == 0);
    TRUE(shardheap_table_capacity(NULL, 1) == 0 && shardheap_table_bytes(NULL) == 0);
    shardheap_table_close(NULL);
    memset(&it, 0, sizeof it);
    IS(shardheap_table_insert(table, words, 1, &key), SHARDHEAP_EMPTY);
    IS(shardheap_table_get(table, 1, room, 16, &length), SHARDHEAP_EMPTY);
    IS(shardheap_table_contains(table, 1), SHARDHEAP_EMPTY);
    IS(shardheap_table_remove(table, 1), SHARDHEAP_EMPTY);
    IS(shardheap_table_take(table, 1, room, 16, &length), SHARDHEAP_EMPTY);
    IS(shardheap_table_next(table, 0, &next), SHARDHEAP_EMPTY);
    IS(shardheap_table_remove_if(table, is_odd, NULL, &key), SHARDHEAP_EMPTY);
    IS(shardheap_table_on_end(table, ends, NULL), SHARDHEAP_EMPTY);
    IS(shardheap_table_enter(table), SHARDHEAP_EMPTY);
    IS(shardheap_table_rest(table), SHARDHEAP_EMPTY);
    shardheap_table_close(table);
    IS(shardheap_table_insert(table, words, 1, it.words), SHARDHEAP_OVERLAP);
    IS(shardheap_table_insert(table, it.words, 1, &key), SHARDHEAP_OVERLAP);
    IS(shardheap_table_insert(table, room, 2, room + 1), SHARDHEAP_OVERLAP);
    IS(shardheap_table_get(table, 1, it.words, 1, &length), SHARDHEAP_OVERLAP);
    IS(shardheap_table_get(table, 1, room, 16, it.words + 3), SHARDHEAP_OVERLAP);
    IS(shardheap_table_take(table, 1, room, 16, room + 15), SHARDHEAP_OVERLAP);
    IS(shardheap_table_next(table, 0, &it.next), SHARDHEAP_OVERLAP);
    IS(shardheap_table_remove_if(table, is_odd, NULL, it.words + 3), SHARDHEAP_OVERLAP);
    IS(shardheap_table_open_for(table, 0, 1, 1, 1), SHARDHEAP_BAD_SHAPE);
    IS(shardheap_table_open_for(table, 65, 1, 1, 1), SHARDHEAP_BAD_SHAPE);
    IS(shardheap_table_open_for(table, 1, 1, 17, 1), SHARDHEAP_BAD_SHAPE);
    IS(shardheap_table_open_for(table, 1, 1, 1, 257), SHARDHEAP_BAD_SHAPE);
    TRUE(!table->full && key == 77 && length == 77 && next.behind == 0);
}

/* One thread. The handle begins as zeroed bytes. */
static void serves_one(void) {
    static shardheap_table table;
    uint64_t room[16], key, other, length;
    IS(shardheap_table_open(&table), SHARDHEAP_OK);
    IS(shardheap_table_open(&table), SHARDHEAP_OCCUPIED);
    IS(shardheap_table_open_for(&table, 1, 1, 1, 1), SHARDHEAP_OCCUPIED);
    TRUE(shardheap_table_capacity(&table, 1) == 768 && shardheap_table_capacity(&table, 16) == 48);
    TRUE(shardheap_table_capacity(&table, 17) == 0 && shardheap_table_bytes(&table) == 24992);
    IS(shardheap_table_insert(&table, words, 17, &key), SHARDHEAP_TOO_LONG);
    IS(shardheap_table_insert(&table, words, 3, &key), SHARDHEAP_OK);
    IS(shardheap_table_insert(&table, NULL, 0, &other), SHARDHEAP_OK);
    TRUE(key != other && shardheap_table_length(&table) == 2);
    IS(shardheap_table_contains(&table, key), SHARDHEAP_OK);
    IS(shardheap_table_contains(&table, other), SHARDHEAP_OK);
    IS(shardheap_table_get(&table, other, NULL, 0, &length), SHARDHEAP_OK);
    TRUE(length == 0);
    IS(shardheap_table_get(&table, key, room, 2, &length), SHARDHEAP_SHORT);
    TRUE(length == 3);
    IS(shardheap_table_take(&table, key, room, 2, &length), SHARDHEAP_SHORT);
    IS(shardheap_table_get(&table, key, room, 3, &length), SHARDHEAP_OK);
    TRUE(length == 3 && memcmp(room, words, 24) == 0);
    IS(shardheap_table_take(&table, key, room, 3, &length), SHARDHEAP_OK);
    IS(shardheap_table_take(&table, key, room, 3, &length), SHARDHEAP_GONE);
    IS(shardheap_table_get(&table, key, room, 3, &length), SHARDHEAP_GONE);
    IS(shardheap_table_remove(&table, other), SHARDHEAP_OK);
    IS(shardheap_table_remove(&table, other), SHARDHEAP_GONE);
    IS(shardheap_table_contains(&table, other), SHARDHEAP_GONE);
    IS(shardheap_table_get(&table, UINT64_MAX, room, 3, &length), SHARDHEAP_BAD_KEY);
    IS(shardheap_table_contains(&table, UINT64_MAX), SHARDHEAP_BAD_KEY);
    IS(shardheap_table_remove(&table, UINT64_MAX), SHARDHEAP_BAD_KEY);
    IS(shardheap_table_take(&table, UINT64_MAX, room, 3, &length), SHARDHEAP_BAD_KEY);
    IS(shardheap_table_rest(&table), SHARDHEAP_OK);
    IS(shardheap_table_rest(&table), SHARDHEAP_OK);
    IS(shardheap_table_enter(&table), SHARDHEAP_OK);
    IS(shardheap_table_enter(&table), SHARDHEAP_OK);
    TRUE(shardheap_table_length(&table) == 0);
#ifdef SHARDHEAP_CHECKED
    shardheap_table copy = table;
    const uint32_t refused = SHARDHEAP_MOVED;
    IS(shardheap_table_open(&copy), refused);
    IS(shardheap_table_open_for(&copy, 1, 1, 1, 1), refused);
    IS(shardheap_table_insert(&copy, words, 1, &key), refused);
    IS(shardheap_table_get(&copy, 1, room, 16, &length), refused);
    IS(shardheap_table_contains(&copy, 1), refused);
    IS(shardheap_table_remove(&copy, 1), refused);
    IS(shardheap_table_take(&copy, 1, room, 16, &length), refused);
    shardheap_live_key next;
    IS(shardheap_table_next(&copy, 0, &next), refused);
    IS(shardheap_table_remove_if(&copy, is_odd, NULL, &key), refused);
    IS(shardheap_table_on_end(&copy, ends, NULL), refused);
    IS(shardheap_table_enter(&copy), refused);
    IS(shardheap_table_rest(&copy), refused);
#endif
    shardheap_table_close(&table);
    IS(shardheap_table_contains(&table, key), SHARDHEAP_EMPTY);
    TRUE(shardheap_table_capacity(&table, 1) == 0 && shardheap_table_bytes(&table) == 0);
}

/* One thread uses more tables than it remembers the last of, and another opens and closes some of them. */
static void serves_many_tables(void) {
    enum { TABLES = 20 };
    static shardheap_table tables[TABLES];
    uint64_t keys[TABLES], room[1], length;
    for (int n = 0; n < TABLES; n++) {
        uint64_t value = (uint64_t)n;
        IS(shardheap_table_open(&tables[n]), SHARDHEAP_OK);
        IS(shardheap_table_insert(&tables[n], &value, 1, &keys[n]), SHARDHEAP_OK);
    }
    for (int n = 0; n < 5 * TABLES; n++) {
        int at = n * 7 % TABLES;
        IS(shardheap_table_get(&tables[at], keys[at], room, 1, &length), SHARDHEAP_OK);
        TRUE(room[0] == (uint64_t)at && shardheap_table_length(&tables[at]) == 1);
    }
    for (int n = 0; n < TABLES; n += 2) shardheap_table_close(&tables[n]);
    for (int n = 1; n < TABLES; n += 2) {
        IS(shardheap_table_take(&tables[n], keys[n], room, 1, &length), SHARDHEAP_OK);
        shardheap_table_close(&tables[n]);
    }
}

/* ---- Threads ---- */

static shardheap_table table = SHARDHEAP_INIT;

static void joined(void *(*runs)(void *), void *with) {
    pthread_t thread;
    TRUE(pthread_create(&thread, NULL, runs, with) == 0);
    TRUE(pthread_join(thread, NULL) == 0);
}

/* Fills the table by a place of its own, and makes room for one value again. */
static void *fills(void *last) {
    uint64_t key;
    for (int n = 0; n < WHOLE; n++) IS(shardheap_table_insert(&table, words, 1, &key), SHARDHEAP_OK);
    IS(shardheap_table_insert(&table, words, 1, last), SHARDHEAP_FULL);
    IS(shardheap_table_remove(&table, key), SHARDHEAP_OK);
    *(uint64_t *)last = key;
    return NULL;
}

static void *inserts_one(void *key) {
    IS(shardheap_table_insert(&table, words, 1, key), SHARDHEAP_OK);
    return NULL;
}

/* A table of one shard: a place that rests keeps it, with its room. */
static void takes_over(void) {
    uint64_t key = 77, other;
    IS(shardheap_table_open_for(&table, 1, WHOLE, 1, 1), SHARDHEAP_OK);
    IS(shardheap_table_enter(&table), SHARDHEAP_OK);
    joined(fills, &key);
    /* the place of this thread has no shard, so that it inserts by the place that rests */
    IS(shardheap_table_insert(&table, words, 1, &other), SHARDHEAP_OK);
    IS(shardheap_table_insert(&table, words, 1, &key), SHARDHEAP_FULL);
    TRUE(shardheap_table_length(&table) == WHOLE && shardheap_table_capacity(&table, 1) == WHOLE);
    IS(shardheap_table_remove(&table, other), SHARDHEAP_OK);
    joined(inserts_one, &other); /* a new thread has that place for its own */
    TRUE(shardheap_table_length(&table) == WHOLE);
    IS(shardheap_table_remove(&table, other), SHARDHEAP_OK);
    IS(shardheap_table_rest(&table), SHARDHEAP_OK);
    IS(shardheap_table_insert(&table, words, 1, &other), SHARDHEAP_OK);
    shardheap_table_close(&table);
}

static pthread_barrier_t begins, over;

static void *enters(void *none) {
    uint64_t key;
    IS(shardheap_table_enter(&table), SHARDHEAP_OK);
    pthread_barrier_wait(&begins);
    IS(shardheap_table_insert(&table, words, 1, &key), SHARDHEAP_OK);
    IS(shardheap_table_remove(&table, key), SHARDHEAP_OK);
    pthread_barrier_wait(&over);
    return none;
}

/* 60 threads have a place, and another one uses a shared one. Once they have ended it has one of its own. */
static void shares(void) {
    static pthread_t threads[ALL_OWN];
    uint64_t key;
    IS(shardheap_table_open(&table), SHARDHEAP_OK);
    for (int twice = 0; twice < 2; twice++) {
        pthread_barrier_init(&begins, NULL, ALL_OWN + 1);
        pthread_barrier_init(&over, NULL, ALL_OWN + 1);
        for (int n = 0; n < ALL_OWN; n++) TRUE(pthread_create(&threads[n], NULL, enters, NULL) == 0);
        pthread_barrier_wait(&begins);
        IS(shardheap_table_enter(&table), SHARDHEAP_NO_PLACE);
        IS(shardheap_table_insert(&table, words, 1, &key), SHARDHEAP_OK);
        IS(shardheap_table_contains(&table, key), SHARDHEAP_OK);
        IS(shardheap_table_remove(&table, key), SHARDHEAP_OK);
        pthread_barrier_wait(&over);
        for (int n = 0; n < ALL_OWN; n++) TRUE(pthread_join(threads[n], NULL) == 0);
        IS(shardheap_table_enter(&table), SHARDHEAP_OK);
        IS(shardheap_table_rest(&table), SHARDHEAP_OK);
        TRUE(shardheap_table_length(&table) == 0);
    }
    shardheap_table_close(&table);
}

/* ---- Many threads at once ---- */

#ifdef FEWER_ROUNDS
enum { THREADS = 200, ROUNDS = 5 };
#else
enum { THREADS = 1000, ROUNDS = 20 };
#endif
static uint64_t keys[THREADS];
static atomic_uint removed;

/* Inserts, gets, takes and removes its own; and removes a key that each other thread removes too. */
static void *works(void *number) {
    uint64_t me = (uint64_t)((uint64_t *)number - keys), room[16], length;
    pthread_barrier_wait(&begins);
    for (uint64_t n = 0; n < ROUNDS; n++) {
        uint64_t value[16] = {me, n}, key, other;
        IS(shardheap_table_insert(&table, value, n % 15 + 2, &key), SHARDHEAP_OK);
        IS(shardheap_table_insert(&table, value, 2, &other), SHARDHEAP_OK);
        IS(shardheap_table_get(&table, key, room, 16, &length), SHARDHEAP_OK);
        TRUE(length == n % 15 + 2 && room[0] == me && room[1] == n);
        IS(shardheap_table_remove(&table, key), SHARDHEAP_OK);
        IS(shardheap_table_take(&table, other, room, 16, &length), SHARDHEAP_OK);
        TRUE(length == 2 && room[0] == me && room[1] == n);
        IS(shardheap_table_contains(&table, other), SHARDHEAP_GONE);
        uint32_t code = n % 2 ? shardheap_table_remove(&table, keys[n])
                              : shardheap_table_take(&table, keys[n], room, 16, &length);
        TRUE(code == SHARDHEAP_OK || code == SHARDHEAP_GONE);
        removed += code == SHARDHEAP_OK;
    }
    return NULL;
}

/* More threads than places, all at once: no call fails, and of all that remove a key one does. */
static void serves_threads(void) {
    static pthread_t threads[THREADS];
    pthread_attr_t small;
    pthread_attr_init(&small);
    pthread_attr_setstacksize(&small, 256 << 10);
    IS(shardheap_table_open(&table), SHARDHEAP_OK);
    for (int n = 0; n < THREADS; n++) IS(shardheap_table_insert(&table, words, 3, &keys[n]), SHARDHEAP_OK);
    pthread_barrier_init(&begins, NULL, THREADS);
    for (int n = 0; n < THREADS; n++) TRUE(pthread_create(&threads[n], &small, works, &keys[n]) == 0);
    for (int n = 0; n < THREADS; n++) TRUE(pthread_join(threads[n], NULL) == 0);
    TRUE(removed == ROUNDS && shardheap_table_length(&table) == THREADS - ROUNDS);
    for (int n = 0; n < THREADS; n++) {
        uint32_t code = shardheap_table_remove(&table, keys[n]);
        TRUE(code == (n < ROUNDS ? SHARDHEAP_GONE : SHARDHEAP_OK));
    }
    TRUE(shardheap_table_length(&table) == 0);
    shardheap_table_close(&table);
}

int main(void) {
    refuses();
    serves_one();
    serves_many_tables();
    takes_over();
    shares();
    serves_threads();
    printf("table: %d threads at once, and all codes\n", THREADS);
    return 0;
}
