/* A growing heap that four threads fill, empty and fill again: the second time it opens no chunk.

   refill VALUES: each thread inserts a fourth of the values into a heap that opens with one segment. A second thread
   reads them, and a third one removes them in mixed order. Then all collect, and each thread inserts as many as before.
   The heap has no more chunks than after the first round. Each value is read right, and each key that was removed is
   Gone, also once its slot is used again.

   A thread that has inserted its share may own a shard with room, which the others cannot use. So the open chunks
   should have three shards more than the values need: with fewer the second round may open one more chunk. There are
   more with 10,000,000 values, and with each number in scripts/link-checks and scripts/library-checks. */
#include "check.h"
#include <pthread.h>

#define THREADS 4
#define STRIDE 7919 /* a prime: a step in the mixed order */

typedef struct {
    shardheap_pass pass;
    uint64_t number;
    const char *fault;
} job;

static job jobs[THREADS];
static uint64_t each;     /* how many values a thread inserts in a round */
static uint64_t *keys[2]; /* of each round, those of one thread behind those of another */
static uint64_t round_now;

static uint64_t word(uint64_t round, uint64_t place) { return (2 * place + round) * 0x9e3779b97f4a7c15ull; }

/* The place of the first key of the thread whose number is so much greater. */
static uint64_t first_of(const job *j, uint64_t more) { return (j->number + more) % THREADS * each; }

static const char *insert_one(job *j, uint64_t place) {
    uint64_t value = word(round_now, place);
    return shardheap_insert(&j->pass, &value, 1, &keys[round_now][place]) == SHARDHEAP_OK ? NULL : "insert";
}

static const char *read_one(job *j, uint64_t place) {
    uint64_t value, length;
    if (shardheap_load(&j->pass, keys[round_now][place], &value, 1, &length) != SHARDHEAP_OK) return "load";
    return length == 1 && value == word(round_now, place) ? NULL : "the value";
}

static const char *find_nothing(job *j, uint64_t round, uint64_t place) {
    uint64_t value, length;
    uint32_t code = shardheap_load(&j->pass, keys[round][place], &value, 1, &length);
    if (code != SHARDHEAP_GONE) return "load after a remove";
    return shardheap_remove(&j->pass, keys[round][place]) == SHARDHEAP_GONE ? NULL : "remove after a remove";
}

static const char *remove_one(job *j, uint64_t place) {
    if (shardheap_remove(&j->pass, keys[round_now][place]) != SHARDHEAP_OK) return "remove";
    return find_nothing(j, round_now, place);
}

static void *inserts(void *arg) {
    job *j = arg;
    uint64_t first = first_of(j, 0);
    for (uint64_t n = 0; n < each && !j->fault; n++) j->fault = insert_one(j, first + n);
    return NULL;
}

static void *reads(void *arg) {
    job *j = arg;
    uint64_t first = first_of(j, 1);
    for (uint64_t n = 0; n < each && !j->fault; n++) j->fault = read_one(j, first + n);
    return NULL;
}

static void *removes(void *arg) {
    job *j = arg;
    uint64_t first = first_of(j, 2);
    for (uint64_t n = 0; n < each && !j->fault; n++) j->fault = remove_one(j, first + n * STRIDE % each);
    return NULL;
}

static void *collects(void *arg) {
    job *j = arg;
    if (shardheap_collect(&j->pass) != SHARDHEAP_OK) j->fault = "collect";
    return NULL;
}

/* The keys of the first round, whose slots are used again. */
static void *finds_nothing(void *arg) {
    job *j = arg;
    uint64_t first = first_of(j, 3);
    for (uint64_t n = 0; n < each && !j->fault; n++) j->fault = find_nothing(j, 0, first + n);
    return NULL;
}

static void all_do(void *(*work)(void *)) {
    pthread_t threads[THREADS];
    int faults = 0;
    for (int n = 0; n < THREADS; n++) TRUE(pthread_create(&threads[n], NULL, work, &jobs[n]) == 0);
    for (int n = 0; n < THREADS; n++) pthread_join(threads[n], NULL);
    for (int n = 0; n < THREADS; n++)
        if (jobs[n].fault) faults += fprintf(stderr, "thread %d: %s\n", n, jobs[n].fault) > 0;
    TRUE(faults == 0);
}

int main(int argc, char **argv) {
    shardheap heap = SHARDHEAP_INIT;
    each = (argc > 1 ? strtoull(argv[1], NULL, 10) : 1000000) / THREADS;
    if (each == 0 || each > UINT32_MAX || each % STRIDE == 0) return 2;
    for (int n = 0; n < 2; n++) TRUE((keys[n] = malloc(THREADS * each * sizeof *keys[n])) != NULL);
    IS(shardheap_open_growing(&heap, 1, 1, 1, THREADS, 256), SHARDHEAP_OK);
    for (uint64_t n = 0; n < THREADS; n++) {
        jobs[n].number = n;
        IS(shardheap_take(&heap, &jobs[n].pass), SHARDHEAP_OK);
    }
    TRUE(shardheap_chunks(&heap) == 1);
    all_do(inserts);
    uint64_t chunks = shardheap_chunks(&heap);
    all_do(reads);
    all_do(removes);
    all_do(collects);
    round_now = 1;
    all_do(inserts);
    printf("refill: %llu values in %llu chunks, and then in %llu\n", (unsigned long long)(THREADS * each),
           (unsigned long long)chunks, (unsigned long long)shardheap_chunks(&heap));
    TRUE(shardheap_chunks(&heap) == chunks);
    all_do(reads);
    all_do(finds_nothing);
    all_do(removes);
    for (int n = 0; n < THREADS; n++) IS(shardheap_give(&jobs[n].pass), SHARDHEAP_OK);
    shardheap_close(&heap);
    for (int n = 0; n < 2; n++) free(keys[n]);
    return 0;
}
