/* Walks over a table: what they meet, what a predicate may do, and threads that insert and remove beside them. */
#include "shardheap_table.h"
#include "check.h"
#include <pthread.h>
#include <stdatomic.h>
#include <unistd.h>

/* The values of a word of one shard of the least table, and those of several. */
#ifdef FEWER_ROUNDS
enum { WHOLE = 384, COUNT = 480 };
#else
enum { WHOLE = 384, COUNT = 1000 };
#endif

static shardheap_table table = SHARDHEAP_INIT;

/* Whether the word of a value is odd. */
static bool is_odd(void *none, const shardheap_live_key *met) {
    return none == NULL && met->words[0] % 2 == 1;
}

/* Counts the keys that were there before; for each it inserts another, and walks from there to the end. */
static bool calls_the_table(void *count, const shardheap_live_key *met) {
    shardheap_live_key next = *met;
    uint64_t key, word = met->words[0] + COUNT;
    while (shardheap_table_next(&table, next.behind, &next) == SHARDHEAP_OK) TRUE(next.key != met->key);
    IS(shardheap_table_contains(&table, met->key), SHARDHEAP_OK);
    if (met->words[0] >= COUNT) return false;
    ++*(uint64_t *)count;
    IS(shardheap_table_insert(&table, &word, 1, &key), SHARDHEAP_OK);
    return word % 4 == 0;
}

/* Walks over a table of several chunks. */
static void walks(void) {
    static uint64_t keys[COUNT], seen[COUNT];
    uint64_t count = 77, met = 0;
    shardheap_live_key next = {0, 0, 0, {0}};
    IS(shardheap_table_open_for(&table, 1, WHOLE, 1, 64), SHARDHEAP_OK);
    IS(shardheap_table_next(&table, 0, &next), SHARDHEAP_NO_KEY);
    TRUE(next.behind == 0);
    for (uint64_t n = 0; n < COUNT; n++) IS(shardheap_table_insert(&table, &n, 1, &keys[n]), SHARDHEAP_OK);
    uint64_t before = 0;
    for (int n = 0; n < COUNT; n++) {
        IS(shardheap_table_next(&table, next.behind, &next), SHARDHEAP_OK);
        TRUE(next.length == 1 && next.words[0] < COUNT && keys[next.words[0]] == next.key);
        TRUE(next.behind > before && seen[next.words[0]]++ == 0);
        before = next.behind;
    }
    IS(shardheap_table_next(&table, next.behind, &next), SHARDHEAP_NO_KEY);
    IS(shardheap_table_next(&table, UINT64_MAX, &next), SHARDHEAP_NO_KEY);
    TRUE(next.behind == before);
    IS(shardheap_table_remove_if(&table, is_odd, NULL, &count), SHARDHEAP_OK);
    TRUE(count == COUNT / 2 && shardheap_table_length(&table) == COUNT / 2);
    IS(shardheap_table_remove_if(&table, calls_the_table, &met, &count), SHARDHEAP_OK);
    TRUE(met == COUNT / 2 && count == COUNT / 4 && shardheap_table_length(&table) == 3 * COUNT / 4);
    shardheap_table_close(&table);
}

/* ---- Beside threads ---- */

#ifdef FEWER_ROUNDS
enum { ROUNDS = 3, STAY = 5, PAUSE = 100000 };
#else
enum { ROUNDS = 50, STAY = 20, PAUSE = 10000 };
#endif
enum { BESIDE = 70, STAYS = 7, GOES = 8 };
static uint64_t staying[BESIDE][STAY];
static _Atomic bool over;
static useconds_t pause_each; /* so that many threads leave some time to others */
static pthread_barrier_t begins;
static atomic_uint inserted, gone;

/* Inserts values that stay and others, on the same pages, which it removes again. */
static void *comes_and_goes(void *of) {
    uint64_t *stay = of, key[STAY], value;
    for (int n = 0; n < STAY; n++) {
        value = STAYS, IS(shardheap_table_insert(&table, &value, 1, &stay[n]), SHARDHEAP_OK);
        value = GOES, IS(shardheap_table_insert(&table, &value, 1, &key[n]), SHARDHEAP_OK);
    }
    pthread_barrier_wait(&begins);
    while (!over) {
        inserted += STAY;
        for (int n = 0; n < STAY; n++) {
            gone += shardheap_table_remove(&table, key[n]) == SHARDHEAP_OK;
            IS(shardheap_table_insert(&table, &value, 1, &key[n]), SHARDHEAP_OK);
        }
        if (pause_each) usleep(pause_each);
    }
    inserted += STAY;
    return NULL;
}

static bool goes(void *stay, const shardheap_live_key *met) {
    TRUE(met->length == 1 && (met->words[0] == STAYS || met->words[0] == GOES));
    *(uint64_t *)stay += met->words[0] == STAYS;
    return met->words[0] == GOES;
}

/* How many keys that stay a walk meets, each at most once. */
static uint64_t met_once(void) {
    static uint64_t last[BESIDE][STAY], walk;
    uint64_t stay = 0;
    shardheap_live_key next = {0, 0, 0, {0}};
    walk++;
    while (shardheap_table_next(&table, next.behind, &next) == SHARDHEAP_OK) {
        if (next.words[0] != STAYS) continue;
        for (int t = 0; t < BESIDE; t++)
            for (int n = 0; n < STAY; n++)
                if (staying[t][n] == next.key) {
                    TRUE(last[t][n] != walk);
                    last[t][n] = walk, stay++;
                }
    }
    return stay;
}

/* Each key that stays is met once by each walk, and each other one is removed by one call. */
static void walks_beside(int threads, int rounds, useconds_t pause) {
    static pthread_t thread[BESIDE];
    uint64_t stay, count;
    over = false;
    pause_each = pause;
    inserted = gone = 0;
    IS(shardheap_table_open(&table), SHARDHEAP_OK);
    pthread_barrier_init(&begins, NULL, (unsigned)threads + 1);
    for (int n = 0; n < threads; n++) TRUE(pthread_create(&thread[n], NULL, comes_and_goes, staying[n]) == 0);
    pthread_barrier_wait(&begins);
    for (int n = 0; n < rounds; n++) {
        TRUE(met_once() == (uint64_t)threads * STAY);
        stay = 0;
        IS(shardheap_table_remove_if(&table, goes, &stay, &count), SHARDHEAP_OK);
        TRUE(stay == (uint64_t)threads * STAY);
        gone += (unsigned)count;
    }
    over = true;
    for (int n = 0; n < threads; n++) TRUE(pthread_join(thread[n], NULL) == 0);
    IS(shardheap_table_remove_if(&table, goes, &stay, &count), SHARDHEAP_OK);
    TRUE(gone + count == inserted && shardheap_table_length(&table) == (uint64_t)threads * STAY);
    shardheap_table_close(&table);
}

int main(void) {
    walks();
    walks_beside(3, ROUNDS, 0);
    walks_beside(BESIDE, 3, PAUSE);
    printf("table_walks: %d checks passed\n", checks);
    return 0;
}
