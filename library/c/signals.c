/* A signal handler with a pass of its own, which gets, reads, loads, releases, removes, takes, collects and counts.

   signals TIMES SECONDS: a thread inserts, holds and removes values, adopts its shard and leaves it. Signals stop it
   anywhere, and the handler works on the keys that the thread hands over, until so many calls were stopped in their
   middle. The handler's calls take and give back no memory: malloc, aligned_alloc, realloc and free are wrapped, and
   end the program if they are called there. The test fails if it takes longer than so many seconds. */
#include "check.h"
#include "wrapped.h"
#include <pthread.h>
#include <sched.h>
#include <signal.h>
#include <stdatomic.h>
#include <string.h>
#include <time.h>
#include <unistd.h>

static shardheap heap = SHARDHEAP_INIT;
static shardheap_pass owner = SHARDHEAP_INIT, handlers = SHARDHEAP_INIT;
static shardheap_receipt receipt = SHARDHEAP_INIT;
static uint64_t lasting;
/* A key that is handed over, and 0: the first key of a heap lasts, so that no other is 0. */
static _Atomic uint64_t handed;
static _Atomic unsigned handled, in_a_call, inside, ends;
static volatile sig_atomic_t in_handler;

static void fail(const char *text) {
    if (write(2, text, strlen(text)) < 0) _exit(2);
    _exit(1);
}

void *__wrap_malloc(size_t size) {
    if (in_handler) fail("signals: malloc in the handler\n");
    return __real_malloc(size);
}

void *__wrap_aligned_alloc(size_t alignment, size_t size) {
    if (in_handler) fail("signals: aligned_alloc in the handler\n");
    return __real_aligned_alloc(alignment, size);
}

void *__wrap_realloc(void *at, size_t size) {
    if (in_handler) fail("signals: realloc in the handler\n");
    return __real_realloc(at, size);
}

void __wrap_free(void *at) {
    if (in_handler) fail("signals: free in the handler\n");
    __real_free(at);
}

static void must(uint32_t code, uint32_t wanted, const char *text) {
    if (code != wanted) fail(text);
}

static void check_value(const uint64_t *words, uint64_t length, uint64_t first) {
    if (length != 3 || words[0] != first || words[1] != words[0] + 1 || words[2] != 9) fail("signals: the words\n");
}

/* Holds, reads and takes what was handed over. */
static void handle_one(uint64_t key) {
    uint64_t words[16], length;
    must(shardheap_get(&handlers, key), SHARDHEAP_OK, "signals: get\n");
    if (key % 2) must(shardheap_remove(&handlers, key), SHARDHEAP_OK, "signals: remove\n");
    else must(shardheap_take_value(&handlers, key, words, 16, &length), SHARDHEAP_OK, "signals: take_value\n");
    must(shardheap_take_value(&handlers, key, words, 16, &length), SHARDHEAP_GONE, "signals: taken\n");
    must(shardheap_read(&handlers, key, words, 16, &length), SHARDHEAP_OK, "signals: read\n");
    check_value(words, length, words[0]);
    shardheap_ended ended;
    must(shardheap_get_ended(&handlers, key, &ended), SHARDHEAP_GONE, "signals: get_ended\n");
    must(shardheap_remove_ended(&handlers, key, &ended), SHARDHEAP_GONE, "signals: remove_ended\n");
    if (key % 2) {
        must(shardheap_release(&handlers, key), SHARDHEAP_OK, "signals: release\n");
    } else {
        must(shardheap_release_ended(&handlers, key, &ended), SHARDHEAP_OK, "signals: release_ended\n");
        if (ended.key != key) fail("signals: the key that ended\n");
        check_value(ended.words, ended.length, words[0]);
    }
    must(shardheap_load(&handlers, key, words, 16, &length), SHARDHEAP_GONE, "signals: gone\n");
    atomic_fetch_add(&handled, 1);
}

static void handle(int signal_number) {
    uint64_t words[16], length, count, key = atomic_exchange(&handed, 0);
    in_handler = signal_number != 0;
    if (atomic_load(&inside)) atomic_fetch_add(&in_a_call, 1);
    if (shardheap_passes(&heap) == 0) fail("signals: passes\n");
    if (shardheap_capacity(&heap, 1) == 0 || shardheap_bytes(&heap) == 0) fail("signals: capacity, bytes\n");
    uint32_t layout;
    must(shardheap_layout_of(&heap, &layout), SHARDHEAP_OK, "signals: layout_of\n");
    must(shardheap_load(&handlers, lasting, words, 16, &length), SHARDHEAP_OK, "signals: load\n");
    check_value(words, length, 7);
    must(shardheap_collect(&handlers), SHARDHEAP_OK, "signals: collect\n");
    must(shardheap_pages_left(&handlers, &count), SHARDHEAP_OK, "signals: pages_left\n");
    must(shardheap_slots_out(&handlers, &count), SHARDHEAP_OK, "signals: slots_out\n");
    if (key) handle_one(key);
    in_handler = 0;
}

static void *sends(void *to) {
    while (!atomic_load(&ends)) {
        pthread_kill(*(pthread_t *)to, SIGUSR1);
        struct timespec pause = {0, 10000}; /* 10 microseconds */
        nanosleep(&pause, NULL);
    }
    return NULL;
}

#define INSIDE(call, code)                                                                                             \
    do {                                                                                                               \
        atomic_store(&inside, 1);                                                                                      \
        uint32_t inside_code = (call);                                                                                 \
        atomic_store(&inside, 0);                                                                                      \
        IS(inside_code, code);                                                                                         \
    } while (0)

/* Hands a value over, and works on another. Every 64 rounds the shard changes hands. */
static void one_round(uint64_t round) {
    uint64_t words[3] = {round, round + 1, 9}, own, key, none = 0, length, room[16];
    INSIDE(shardheap_insert(&owner, words, 3, &own), SHARDHEAP_OK);
    INSIDE(shardheap_insert(&owner, words, 3, &key), SHARDHEAP_OK);
    if (!atomic_compare_exchange_strong(&handed, &none, key)) INSIDE(shardheap_remove(&owner, key), SHARDHEAP_OK);
    INSIDE(shardheap_get(&owner, own), SHARDHEAP_OK);
    INSIDE(shardheap_load(&owner, own, room, 16, &length), SHARDHEAP_OK);
    check_value(room, length, round);
    INSIDE(shardheap_remove(&owner, own), SHARDHEAP_OK);
    INSIDE(shardheap_release(&owner, own), SHARDHEAP_OK);
    INSIDE(shardheap_insert(&owner, words, 3, &own), SHARDHEAP_OK);
    INSIDE(shardheap_take_value(&owner, own, room, 16, &length), SHARDHEAP_OK);
    check_value(room, length, round);
    INSIDE(shardheap_slots_out(&owner, &length), SHARDHEAP_OK);
    if (round % 64) return;
    INSIDE(shardheap_receipt_make(&owner, &receipt), SHARDHEAP_OK);
    INSIDE(shardheap_heed(&owner, &receipt), SHARDHEAP_OK);
    INSIDE(shardheap_leave(&owner), SHARDHEAP_OK);
    INSIDE(shardheap_adopt(&owner, 0), SHARDHEAP_OK);
}

int main(int argc, char **argv) {
    unsigned times = argc > 1 ? (unsigned)atoi(argv[1]) : 200;
    time_t end = time(NULL) + (argc > 2 ? atoi(argv[2]) : 60);
    struct sigaction action;
    pthread_t self = pthread_self(), sender;
    const uint64_t words[3] = {7, 8, 9};
    uint64_t key;
    IS(shardheap_open(&heap, SHARDHEAP_WIDE, 2, 4, 2), SHARDHEAP_OK);
    IS(shardheap_take(&heap, &owner), SHARDHEAP_OK);
    IS(shardheap_take(&heap, &handlers), SHARDHEAP_OK);
    IS(shardheap_adopt(&owner, 0), SHARDHEAP_OK);
    IS(shardheap_adopt(&handlers, 1), SHARDHEAP_OK);
    IS(shardheap_insert(&owner, words, 3, &lasting), SHARDHEAP_OK);
    memset(&action, 0, sizeof action);
    action.sa_handler = handle;
    TRUE(sigaction(SIGUSR1, &action, NULL) == 0);
    TRUE(pthread_create(&sender, NULL, sends, &self) == 0);
    for (uint64_t round = 1; atomic_load(&in_a_call) < times; round++) {
        one_round(round);
        TRUE(time(NULL) < end);
    }
    atomic_store(&ends, 1);
    TRUE(pthread_join(sender, NULL) == 0);
    /* A signal that is still to come finds nothing. */
    action.sa_handler = SIG_IGN;
    TRUE(sigaction(SIGUSR1, &action, NULL) == 0);
    if ((key = atomic_exchange(&handed, 0)) != 0) handle_one(key);
    IS(shardheap_remove(&handlers, lasting), SHARDHEAP_OK);
    IS(shardheap_leave(&owner), SHARDHEAP_OK);
    IS(shardheap_leave(&handlers), SHARDHEAP_OK);
    IS(shardheap_give(&owner), SHARDHEAP_OK);
    IS(shardheap_give(&handlers), SHARDHEAP_OK);
    shardheap_sums sums;
    IS(shardheap_gather(&heap), SHARDHEAP_OK);
    IS(shardheap_totals(&heap, &sums), SHARDHEAP_OK);
    TRUE(sums.live == 0 && sums.marked == 0);
    shardheap_close(&heap);
    printf("signals: %u calls were stopped, %u keys went to the handler\n", atomic_load(&in_a_call),
           atomic_load(&handled));
    return 0;
}
