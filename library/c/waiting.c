/* A leave is refused as WAITING while another pass is in the middle of a free in the shard, which serves on meanwhile.

   waiting TIMES SECONDS: a second thread removes values of the owner's shard, and a signal stops it wherever it is.
   Then the owner tries to leave. If it may, it adopts the shard again, until it was refused that often. The test
   fails if that takes longer than so many seconds.

   Only the first free on a full page makes an owner wait. So the values have 16 words, of which a page holds three. The
   owner sleeps while the other removes them. When it wakes, the other is often in the middle of that, also on a loaded
   machine.

   Then the same in a growing heap of two chunks, each of one shard, which the owner has both. A leave_idle that has to
   wait in the first leaves the second, so a third pass inserts there. Each half of the test has half of the seconds. */
#include "check.h"
#include <pthread.h>
#include <sched.h>
#include <signal.h>
#include <stdatomic.h>
#include <string.h>
#include <time.h>
#include <unistd.h>

#define SEGMENTS 512u
#define BATCH (SEGMENTS * 8 * 3)

static const uint64_t words[16] = {7};
static uint64_t keys[BATCH];
static _Atomic uint64_t handed, removed; /* how many keys in all; each batch lies where the one before did */
static _Atomic int ends;
static int stopped[2], resumed[2]; /* pipes: that the thread stopped, and that it is to go on */

/* The signal stops its thread here, until a byte comes. */
static void stop(int number) {
    char byte = (char)number;
    if (write(stopped[1], &byte, 1) != 1 || read(resumed[0], &byte, 1) != 1) _exit(3);
}

static void *removes(void *pass) {
    for (uint64_t done = 0; !atomic_load(&ends);) {
        if (done == atomic_load(&handed)) {
            sched_yield();
            continue;
        }
        uint32_t code = shardheap_remove(pass, keys[done % BATCH]);
        if (code != SHARDHEAP_OK) {
            fprintf(stderr, "waiting: a remove is %s\n", shardheap_name(code));
            exit(1);
        }
        atomic_store(&removed, ++done);
    }
    return NULL;
}

static void pause_a_little(void) {
    struct timespec pause = {0, 20000}; /* 20 microseconds */
    nanosleep(&pause, NULL);
}

static void stop_the_other(pthread_t other) {
    char byte;
    TRUE(pthread_kill(other, SIGUSR1) == 0);
    TRUE(read(stopped[0], &byte, 1) == 1);
}

static void resume_the_other(void) {
    TRUE(write(resumed[1], "", 1) == 1);
}

/* The other thread is stopped: whether it is in the middle of a free. The pass owns the shard as before. */
static int waits(shardheap_pass *owner) {
    uint64_t key;
    uint32_t code = shardheap_leave(owner);
    if (code == SHARDHEAP_OK) {
        IS(shardheap_adopt(owner, 0), SHARDHEAP_OK);
        return 0;
    }
    IS(code, SHARDHEAP_WAITING);
    IS(shardheap_leave(owner), SHARDHEAP_WAITING);
    IS(shardheap_leave_idle(owner), SHARDHEAP_WAITING);
    IS(shardheap_give(owner), SHARDHEAP_OWNS);
    IS(shardheap_insert(owner, words, 16, &key), SHARDHEAP_OK);
    IS(shardheap_remove(owner, key), SHARDHEAP_OK);
    return 1;
}

static shardheap_pass third;

/* The same in a growing heap, where the pass owns two shards: whether it has to wait in the first chunk. */
static int waits_idle(shardheap_pass *owner) {
    uint64_t key;
    uint32_t code = shardheap_leave_idle(owner);
    if (code == SHARDHEAP_OK) return 0;
    IS(code, SHARDHEAP_WAITING);
    IS(shardheap_insert(&third, words, 16, &key), SHARDHEAP_OK);
    IS(shardheap_remove(&third, key), SHARDHEAP_OK);
    IS(shardheap_leave_idle(&third), SHARDHEAP_OK);
    IS(shardheap_give(owner), SHARDHEAP_WAITING);
    return key >> 56 == 1;
}

/* Hands a batch over, and stops the other after a while: whether the owner was refused. */
static int one_round(shardheap_pass *owner, pthread_t other, uint64_t round, int (*waits_in)(shardheap_pass *)) {
    uint64_t before = round * BATCH;
    for (uint64_t n = 0; n < BATCH; n++) IS(shardheap_insert(owner, words, 16, &keys[n]), SHARDHEAP_OK);
    atomic_store(&handed, before + BATCH);
    while (atomic_load(&removed) < before + 1 + round * 7919 % (BATCH - 1)) pause_a_little();
    stop_the_other(other);
    int refused = waits_in(owner);
    resume_the_other();
    while (atomic_load(&removed) < before + BATCH) pause_a_little();
    return refused;
}

/* The rounds until the owner was refused that often, or until the time is up. */
static uint64_t rounds_until(shardheap_pass *owner, pthread_t other, int times, int seconds,
                             int (*waits_in)(shardheap_pass *)) {
    uint64_t rounds = 0;
    time_t end = time(NULL) + seconds;
    while (times > 0 && time(NULL) < end) times -= one_round(owner, other, rounds++, waits_in);
    if (times > 0) fprintf(stderr, "waiting: in %d s and %llu rounds", seconds, (unsigned long long)rounds);
    if (times > 0) fprintf(stderr, " the owner was refused %d times too few\n", times);
    TRUE(times == 0);
    return rounds;
}

static void taken(shardheap *heap, shardheap_pass *owner, shardheap_pass *other) {
    IS(shardheap_open(heap, SHARDHEAP_DEEP, 1, SEGMENTS + 1, 2), SHARDHEAP_OK);
    IS(shardheap_take(heap, owner), SHARDHEAP_OK);
    IS(shardheap_take(heap, other), SHARDHEAP_OK);
    IS(shardheap_adopt(owner, 0), SHARDHEAP_OK);
}

/* Opens a growing heap. A value stays in each chunk, so a batch has room in both alone. */
static void taken_growing(shardheap *heap, shardheap_pass *owner, shardheap_pass *other) {
    IS(shardheap_open_growing(heap, 1, BATCH, 16, 3, 2), SHARDHEAP_OK);
    IS(shardheap_take(heap, owner), SHARDHEAP_OK);
    IS(shardheap_take(heap, other), SHARDHEAP_OK);
    IS(shardheap_take(heap, &third), SHARDHEAP_OK);
    for (uint64_t n = 0; n < BATCH; n++) IS(shardheap_insert(owner, words, 16, &keys[n]), SHARDHEAP_OK);
    uint64_t key;
    IS(shardheap_insert(owner, words, 16, &key), SHARDHEAP_OK);
    TRUE(key >> 56 == 1 && shardheap_chunks(heap) == 2);
    for (uint64_t n = 1; n < BATCH; n++) IS(shardheap_remove(owner, keys[n]), SHARDHEAP_OK);
}

/* Runs rounds with a second thread until the owner was refused that often. Returns how many. */
static uint64_t beside(shardheap_pass *owner, shardheap_pass *other, int times, int seconds,
                       int (*waits_in)(shardheap_pass *)) {
    pthread_t thread;
    atomic_store(&ends, 0);
    atomic_store(&handed, 0);
    atomic_store(&removed, 0);
    TRUE(pthread_create(&thread, NULL, removes, other) == 0);
    uint64_t rounds = rounds_until(owner, thread, times, seconds, waits_in);
    atomic_store(&ends, 1);
    TRUE(pthread_join(thread, NULL) == 0);
    return rounds;
}

int main(int argc, char **argv) {
    shardheap heap = SHARDHEAP_INIT;
    shardheap_pass owner = SHARDHEAP_INIT, other = SHARDHEAP_INIT;
    struct sigaction action;
    int times = argc > 1 ? atoi(argv[1]) : 10, seconds = argc > 2 ? atoi(argv[2]) / 2 : 30;
    memset(&action, 0, sizeof action);
    action.sa_handler = stop;
    TRUE(pipe(stopped) == 0 && pipe(resumed) == 0 && sigaction(SIGUSR1, &action, NULL) == 0);
    taken(&heap, &owner, &other);
    uint64_t rounds = beside(&owner, &other, times, seconds, waits);
    IS(shardheap_leave(&owner), SHARDHEAP_OK);
    IS(shardheap_give(&owner), SHARDHEAP_OK);
    IS(shardheap_give(&other), SHARDHEAP_OK);
    shardheap_close(&heap);
    printf("waiting: refused %d times, in %llu rounds\n", times, (unsigned long long)rounds);
    taken_growing(&heap, &owner, &other);
    rounds = beside(&owner, &other, times, seconds, waits_idle);
    IS(shardheap_give(&owner), SHARDHEAP_OK);
    IS(shardheap_give(&other), SHARDHEAP_OK);
    IS(shardheap_give(&third), SHARDHEAP_OK);
    shardheap_close(&heap);
    printf("waiting: refused %d times in a growing heap, in %llu rounds\n", times, (unsigned long long)rounds);
    return 0;
}
