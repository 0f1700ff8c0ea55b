/* table_turns FIRST LAST: threads of a table take turns at marked points, one of them at a time, under the seeds from
   FIRST to LAST. They take places, rest, end, and share. table_turns.py runs it, also over a places.h with a planted
   fault. It is linked with --wrap=shardheap_raw_insert and others, so that it sees which thread uses which pass. */
#include <stdbool.h>
#include <stdint.h>

static void turn_over(void);
#define SHARDHEAP_MARK() turn_over()
#define SHARDHEAP_WAIT(lock)                             \
    do turn_over();                                      \
    while (pthread_mutex_trylock(lock) != 0)
enum { OWN = 3, SHARED = 1 };
#include TABLE
#include "check.h"
#include <semaphore.h>

enum { THREADS = 6, GENERATIONS = 4, CALLS = 6 };

/* ---- Turns ---- */

/* A thread that has its turn is the only one that runs. */
static struct worker {
    sem_t turn;
    pthread_t thread;
    bool lives;
} workers[THREADS + 1]; /* the last one is the main thread */
static int running;
static uint64_t state;
static _Thread_local int me;
static pthread_key_t last_key;

static uint64_t any(void) { /* xorshift64* */
    state ^= state >> 12;
    state ^= state << 25;
    state ^= state >> 27;
    return state * UINT64_C(2685821657736338717) >> 33;
}

static void give_turn(void) {
    do running = (int)(any() % (THREADS + 1));
    while (!workers[running].lives);
    sem_post(&workers[running].turn);
}

static void turn_over(void) {
    give_turn();
    sem_wait(&workers[me].turn);
}

/* The end of a thread, after the table's own destructor. (glibc runs them in the order of their keys.) */
static void ends_turns(void *of) {
    (void)of;
    workers[me].lives = false;
    give_turn();
}

/* ---- Whether two threads use one pass ---- */

static const shardheap_pass *used[THREADS + 1];

static void begins_use(const shardheap_pass *pass) {
    for (int n = 0; n <= THREADS; n++) {
        if (used[n] != pass) continue;
        fputs("two threads use one place\n", stderr);
        _Exit(3);
    }
    used[me] = pass;
    turn_over();
}

#define USE(pass, call)          \
    begins_use(pass);            \
    uint32_t code = (call);      \
    used[me] = NULL;             \
    return code

uint32_t __real_shardheap_raw_insert(shardheap_pass *pass, const uint64_t *words, size_t count, uint64_t *into);
uint32_t __wrap_shardheap_raw_insert(shardheap_pass *pass, const uint64_t *words, size_t count, uint64_t *into);
uint32_t __wrap_shardheap_raw_insert(shardheap_pass *pass, const uint64_t *words, size_t count, uint64_t *into) {
    USE(pass, __real_shardheap_raw_insert(pass, words, count, into));
}

uint32_t __real_shardheap_raw_remove(shardheap_pass *pass, uint64_t of);
uint32_t __wrap_shardheap_raw_remove(shardheap_pass *pass, uint64_t of);
uint32_t __wrap_shardheap_raw_remove(shardheap_pass *pass, uint64_t of) {
    USE(pass, __real_shardheap_raw_remove(pass, of));
}

uint32_t __real_shardheap_raw_load(shardheap_pass *pass, uint64_t of, uint64_t *words, size_t room, uint64_t *length);
uint32_t __wrap_shardheap_raw_load(shardheap_pass *pass, uint64_t of, uint64_t *words, size_t room, uint64_t *length);
uint32_t __wrap_shardheap_raw_load(shardheap_pass *pass, uint64_t of, uint64_t *words, size_t room, uint64_t *length) {
    USE(pass, __real_shardheap_raw_load(pass, of, words, room, length));
}

uint32_t __real_shardheap_raw_next_live(shardheap_pass *pass, uint64_t from, uint64_t end, shardheap_live_key *next);
uint32_t __wrap_shardheap_raw_next_live(shardheap_pass *pass, uint64_t from, uint64_t end, shardheap_live_key *next);
uint32_t __wrap_shardheap_raw_next_live(shardheap_pass *pass, uint64_t from, uint64_t end, shardheap_live_key *next) {
    USE(pass, __real_shardheap_raw_next_live(pass, from, end, next));
}

/* ---- What the threads do ---- */

static shardheap_table table = SHARDHEAP_INIT;
static uint64_t common;
static int removed;

static void calls(void) {
    uint64_t value = (uint64_t)me, key, room[1], length;
    IS(shardheap_table_insert(&table, &value, 1, &key), SHARDHEAP_OK);
    IS(shardheap_table_get(&table, key, room, 1, &length), SHARDHEAP_OK);
    TRUE(length == 1 && room[0] == value);
    shardheap_live_key met = {0, 0, 0, {0}};
    while (met.key != key) IS(shardheap_table_next(&table, met.behind, &met), SHARDHEAP_OK);
    if (any() % 3 == 0) IS(shardheap_table_rest(&table), SHARDHEAP_OK);
    IS(shardheap_table_remove(&table, key), SHARDHEAP_OK);
}

static void *works(void *number) {
    me = (int)((struct worker *)number - workers);
    pthread_setspecific(last_key, workers);
    sem_wait(&workers[me].turn);
    for (uint64_t n = any() % CALLS; n < CALLS; n++) calls();
    removed += shardheap_table_remove(&table, common) == SHARDHEAP_OK;
    return NULL;
}

/* Threads that begin one after the other, and end in whatever order. The next ones take what rests. */
static void generation(void) {
    uint64_t one = 1;
    removed = 0;
    IS(shardheap_table_insert(&table, &one, 1, &common), SHARDHEAP_OK);
    if (any() % 2) IS(shardheap_table_rest(&table), SHARDHEAP_OK);
    for (int n = 0; n < THREADS; n++) {
        workers[n].lives = true;
        TRUE(pthread_create(&workers[n].thread, NULL, works, &workers[n]) == 0);
        turn_over();
    }
    for (int n = 0; n < THREADS; n++) {
        while (workers[n].lives) turn_over();
        TRUE(pthread_join(workers[n].thread, NULL) == 0);
    }
    TRUE(removed == 1 && shardheap_table_length(&table) == 0);
    IS(shardheap_table_rest(&table), SHARDHEAP_OK);
    if ((table.at->fresh | table.at->resting) == ALL_OWN) return;
    fputs("a resting place is lost\n", stderr);
    _Exit(4);
}

static void run(uint64_t seed) {
    state = seed * UINT64_C(0x9e3779b97f4a7c15) + 1;
    IS(shardheap_table_open_for(&table, 1, 1, 1, 8), SHARDHEAP_OK);
    for (int n = 0; n < GENERATIONS; n++) generation();
    shardheap_table_close(&table);
}

int main(int count, char **arguments) {
    if (count != 3) return 2;
    me = running = THREADS;
    workers[THREADS].lives = true;
    for (int n = 0; n <= THREADS; n++) sem_init(&workers[n].turn, 0, 0);
    TRUE(makes_key());
    TRUE(pthread_key_create(&last_key, ends_turns) == 0);
    uint64_t first = strtoull(arguments[1], NULL, 10), last = strtoull(arguments[2], NULL, 10);
    for (uint64_t seed = first; seed <= last; seed++) run(seed);
    printf("table_turns: nothing is found under the seeds from %s to %s\n", arguments[1], arguments[2]);
    return 0;
}
