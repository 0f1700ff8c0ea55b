/* Threads that end: destructors that call a table before and after its own, a table that is closed before the threads
   that used it end, and one that is closed while they end. */
#include "shardheap_table.h"
#include "check.h"
#include <pthread.h>
#include <semaphore.h>
#include <stdatomic.h>

static const uint64_t words[2] = {7, 8};
static shardheap_table table = SHARDHEAP_INIT;
static pthread_key_t before, after;
static atomic_int called;

/* Each call that a destructor may make. */
static void uses(void) {
    uint64_t key, room[2], length;
    IS(shardheap_table_insert(&table, words, 2, &key), SHARDHEAP_OK);
    IS(shardheap_table_get(&table, key, room, 2, &length), SHARDHEAP_OK);
    TRUE(length == 2 && room[1] == 8);
    IS(shardheap_table_contains(&table, key), SHARDHEAP_OK);
    IS(shardheap_table_remove(&table, key), SHARDHEAP_OK);
    IS(shardheap_table_insert(&table, words, 2, &key), SHARDHEAP_OK);
    IS(shardheap_table_take(&table, key, room, 2, &length), SHARDHEAP_OK);
    IS(shardheap_table_rest(&table), SHARDHEAP_OK);
    called++;
}

/* A destructor that runs while the thread may have a place, and one that runs later. (glibc runs them in the order of
   their keys.) */
static void is_before(void *value) {
    (void)value;
    uses();
    IS(shardheap_table_enter(&table), SHARDHEAP_OK);
}

static void is_after(void *value) {
    (void)value;
    IS(shardheap_table_enter(&table), SHARDHEAP_NO_PLACE);
    uses();
}

static void *has_destructors(void *value) {
    TRUE(pthread_setspecific(before, value) == 0 && pthread_setspecific(after, value) == 0);
    if (*(int *)value) uses();
    return NULL;
}

static void joined(void *(*runs)(void *), void *with) {
    pthread_t thread;
    TRUE(pthread_create(&thread, NULL, runs, with) == 0);
    TRUE(pthread_join(thread, NULL) == 0);
}

/* More threads than places, one after the other: each gives its place back. */
static void destructors(void) {
    int uses_it = 1, uses_nothing = 0;
    TRUE(pthread_key_create(&before, is_before) == 0);
    IS(shardheap_table_open(&table), SHARDHEAP_OK); /* the first table of the process makes its key */
    TRUE(pthread_key_create(&after, is_after) == 0);
    for (int n = 0; n < 100; n++) {
        joined(has_destructors, &uses_it);
        joined(has_destructors, &uses_nothing);
    }
    TRUE(called == 500 && shardheap_table_length(&table) == 0);
    shardheap_table_close(&table);
}

/* ---- A table that is closed before its threads end ---- */

static sem_t used, closed;

static void *outlives(void *other) {
    uint64_t key;
    IS(shardheap_table_insert(&table, words, 2, &key), SHARDHEAP_OK);
    sem_post(&used);
    sem_wait(&closed);
    /* its place in the closed table is forgotten at its first call on another */
    if (other) IS(shardheap_table_insert(other, words, 2, &key), SHARDHEAP_OK);
    return NULL;
}

#ifdef FEWER_ROUNDS
enum { THREADS = 8, ROUNDS = 10 };
#else
enum { THREADS = 8, ROUNDS = 100 };
#endif

static void closes(shardheap_table *other, int rounds, int waits) {
    pthread_t threads[THREADS];
    for (int round = 0; round < rounds; round++) {
        IS(shardheap_table_open(&table), SHARDHEAP_OK);
        if (other) IS(shardheap_table_open(other), SHARDHEAP_OK);
        for (int n = 0; n < THREADS; n++) TRUE(pthread_create(&threads[n], NULL, outlives, other) == 0);
        for (int n = 0; n < THREADS; n++) sem_wait(&used);
        if (!waits) /* the threads end meanwhile: to end is no call */
            for (int n = 0; n < THREADS; n++) sem_post(&closed);
        TRUE(shardheap_table_length(&table) == THREADS);
        shardheap_table_close(&table);
        if (waits)
            for (int n = 0; n < THREADS; n++) sem_post(&closed);
        for (int n = 0; n < THREADS; n++) TRUE(pthread_join(threads[n], NULL) == 0);
        if (!other) continue;
        TRUE(shardheap_table_length(other) == THREADS);
        shardheap_table_close(other);
    }
}

int main(void) {
    static shardheap_table other = SHARDHEAP_INIT;
    destructors();
    sem_init(&used, 0, 0);
    sem_init(&closed, 0, 0);
    closes(NULL, 5, 1);
    closes(&other, 5, 1);
    closes(NULL, ROUNDS, 0);
    puts("table_ends: destructors before and after the table's own, and tables that end before their threads");
    return 0;
}
