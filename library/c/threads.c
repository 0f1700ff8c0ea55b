/* Owners and remote freers in threads, and owners that change.

   threads PAIRS ROUNDS: each pair has a producer, which owns a shard, inserts and hands keys over a ring, and a
   consumer in another thread, which holds, reads, checks and removes them. Every 4,096 rounds the producer leaves its
   shard, brings its pass home, takes one that is at home and adopts the shard again. At the end each value that was
   inserted was read with the right words and removed once, and all passes are at home. A thread that finds a fault ends
   all of them. */
#include "check.h"
#include <pthread.h>
#include <sched.h>
#include <stdatomic.h>

#define RING 1024
#define MOST_PAIRS 32

typedef struct {
    _Atomic uint64_t put, taken;
    uint64_t keys[RING];
} ring;

typedef struct {
    shardheap *heap;
    shardheap_pass pass;
    ring *ring;
    uint64_t shard, rounds;
    const char *fault;
} job;

static shardheap heap = SHARDHEAP_INIT;
static pthread_mutex_t heap_lock = PTHREAD_MUTEX_INITIALIZER;
static ring rings[MOST_PAIRS];
static job jobs[2 * MOST_PAIRS];
static _Atomic int faults;

/* Lets another thread run. Whether to give up, since some thread found a fault. */
static int gives_up(void) {
    sched_yield();
    return atomic_load(&faults) != 0;
}

static uint64_t word(uint64_t round, uint64_t place) { return (round * 31 + place) * 0x9e3779b97f4a7c15ull; }

/* One handle of the heap serves all threads, so they take turns at it. */
static uint32_t take(job *j) {
    pthread_mutex_lock(&heap_lock);
    uint32_t code = shardheap_take(j->heap, &j->pass);
    pthread_mutex_unlock(&heap_lock);
    return code;
}

static const char *change_hands(job *j) {
    uint32_t code;
    while ((code = shardheap_leave(&j->pass)) == SHARDHEAP_WAITING && !gives_up()) {}
    if (code != SHARDHEAP_OK) return "leave";
    if (shardheap_give(&j->pass) != SHARDHEAP_OK) return "give";
    if (take(j) != SHARDHEAP_OK) return "take again";
    return shardheap_adopt(&j->pass, j->shard) == SHARDHEAP_OK ? NULL : "adopt again";
}

static const char *produce_one(job *j, uint64_t i) {
    uint64_t words[16], key, count = i % 17;
    uint32_t code;
    for (uint64_t w = 0; w < count; w++) words[w] = word(i, w);
    while ((code = shardheap_insert(&j->pass, words, count, &key)) == SHARDHEAP_FULL && !gives_up()) {}
    if (code != SHARDHEAP_OK) return "insert";
    while (i - atomic_load(&j->ring->taken) >= RING)
        if (gives_up()) return "another thread's fault";
    j->ring->keys[i % RING] = key;
    atomic_store(&j->ring->put, i + 1);
    return i % 4096 == 4095 ? change_hands(j) : NULL;
}

static void *produce(void *arg) {
    job *j = arg;
    if (shardheap_adopt(&j->pass, j->shard) != SHARDHEAP_OK) j->fault = "adopt";
    for (uint64_t i = 0; i < j->rounds && !j->fault; i++) j->fault = produce_one(j, i);
    if (j->fault) atomic_fetch_add(&faults, 1);
    return NULL;
}

static const char *consume_one(job *j, uint64_t i) {
    uint64_t words[16], length;
    while (atomic_load(&j->ring->put) <= i)
        if (gives_up()) return "another thread's fault";
    uint64_t key = j->ring->keys[i % RING];
    atomic_store(&j->ring->taken, i + 1);
    if (shardheap_get(&j->pass, key) != SHARDHEAP_OK) return "get";
    if (i % 2 && shardheap_remove(&j->pass, key) != SHARDHEAP_OK) return "remove while it is held";
    if (shardheap_read(&j->pass, key, words, 16, &length) != SHARDHEAP_OK) return "read";
    if (length != i % 17) return "length";
    for (uint64_t w = 0; w < length; w++)
        if (words[w] != word(i, w)) return "words";
    if (shardheap_release(&j->pass, key) != SHARDHEAP_OK) return "release";
    if (i % 2 == 0 && shardheap_remove(&j->pass, key) != SHARDHEAP_OK) return "remove";
    return shardheap_load(&j->pass, key, words, 16, &length) == SHARDHEAP_GONE ? NULL : "gone";
}

static void *consume(void *arg) {
    job *j = arg;
    for (uint64_t i = 0; i < j->rounds && !j->fault; i++) j->fault = consume_one(j, i);
    if (j->fault) atomic_fetch_add(&faults, 1);
    return NULL;
}

int main(int argc, char **argv) {
    int pairs = argc > 1 ? atoi(argv[1]) : 2;
    uint64_t rounds = argc > 2 ? strtoull(argv[2], NULL, 10) : 100000;
    pthread_t threads[2 * MOST_PAIRS];
    if (pairs < 1 || pairs > MOST_PAIRS) return 2;
    IS(shardheap_open(&heap, SHARDHEAP_WIDE, (uint32_t)pairs, 4, (uint32_t)(2 * pairs)), SHARDHEAP_OK);
    for (int i = 0; i < 2 * pairs; i++) {
        jobs[i] = (job){.heap = &heap, .ring = &rings[i / 2], .shard = (uint64_t)(i / 2), .rounds = rounds};
        IS(take(&jobs[i]), SHARDHEAP_OK);
    }
    for (int i = 0; i < 2 * pairs; i++)
        TRUE(pthread_create(&threads[i], NULL, i % 2 ? consume : produce, &jobs[i]) == 0);
    for (int i = 0; i < 2 * pairs; i++) pthread_join(threads[i], NULL);
    for (int i = 0; i < 2 * pairs; i++)
        if (jobs[i].fault) fprintf(stderr, "thread %d: %s\n", i, jobs[i].fault);
    TRUE(faults == 0);
    for (int i = 0; i < 2 * pairs; i++) {
        if (i % 2 == 0) IS(shardheap_leave(&jobs[i].pass), SHARDHEAP_OK);
        IS(shardheap_give(&jobs[i].pass), SHARDHEAP_OK);
    }
    shardheap_close(&heap);
    printf("threads: %d pairs, %llu values each\n", pairs, (unsigned long long)rounds);
    return 0;
}
