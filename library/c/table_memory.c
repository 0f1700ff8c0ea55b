/* The memory of a table, and an allocator that calls the table from within its calls. It is linked with --wrap=malloc,
   --wrap=aligned_alloc, --wrap=realloc and --wrap=free, so that what the library asks for is counted here. */
#include "shardheap_table.h"
#include "check.h"
#include "wrapped.h"
#include <malloc.h>
#include <pthread.h>
#include <stdatomic.h>

enum { ALL_OWN = 60, SHARED = 4, VALUES = 30 };

static const uint64_t words[16] = {1, 2, 3};
static shardheap_table table = SHARDHEAP_INIT;

/* ---- What the allocator does ---- */

static long budget = -1;    /* how many allocations are still granted; no bound below 0 */
static bool once;           /* one is refused, and those after it are granted */
static atomic_long blocks, bytes, granted;
static _Thread_local void (*calls)(void); /* what it calls before each allocation and each free of the thread */

static int refuses(void) {
    void (*from_within)(void) = calls;
    calls = NULL;
    if (from_within) from_within();
    calls = from_within;
    if (budget == 0) {
        if (once) budget = -1;
        return 1;
    }
    if (budget > 0) budget--;
    granted++;
    return 0;
}

static void *counted(void *at) {
    blocks += at != NULL;
    bytes += (long)malloc_usable_size(at);
    return at;
}

static void uncounted(void *at) {
    blocks -= at != NULL;
    bytes -= (long)malloc_usable_size(at);
}

void *__wrap_malloc(size_t size) { return refuses() ? NULL : counted(__real_malloc(size)); }

void *__wrap_aligned_alloc(size_t alignment, size_t size) {
    return refuses() ? NULL : counted(__real_aligned_alloc(alignment, size));
}

void *__wrap_realloc(void *at, size_t size) {
    if (refuses()) return NULL;
    uncounted(at);
    return counted(__real_realloc(at, size));
}

void __wrap_free(void *at) {
    void (*from_within)(void) = calls;
    calls = NULL;
    if (from_within) from_within();
    calls = from_within;
    uncounted(at);
    __real_free(at);
}

/* ---- Each allocation refused in turn ---- */

static int refused;

/* A call that was refused memory, or not. A refused one is tried again with memory. */
#define TRY(call, unchanged)                                      \
    do {                                                          \
        uint32_t code = (call);                                   \
        if (code == SHARDHEAP_MEMORY) {                           \
            refused++;                                            \
            TRUE(unchanged);                                      \
            budget = -1;                                          \
            code = (call);                                        \
        }                                                         \
        same_code(code, SHARDHEAP_OK, #call, __FILE__, __LINE__); \
    } while (0)

/* Calls that take no memory, or do without it: they are never refused for want of it. */
static void needs_none(uint64_t of) {
    uint64_t room[16], length;
    long before = budget;
    budget = 0;
    IS(shardheap_table_get(&table, of, room, 16, &length), SHARDHEAP_OK);
    TRUE(length == 16 && room[2] == 3);
    IS(shardheap_table_contains(&table, of), SHARDHEAP_OK);
    budget = before;
}

static void *of_another(void *key) {
    uint64_t room[16], length;
    budget = 0; /* the thread has no place yet: it uses a shared one */
    IS(shardheap_table_get(&table, *(uint64_t *)key, room, 16, &length), SHARDHEAP_OK);
    IS(shardheap_table_take(&table, *(uint64_t *)key, room, 16, &length), SHARDHEAP_OK);
    IS(shardheap_table_remove(&table, *(uint64_t *)key), SHARDHEAP_GONE);
    IS(shardheap_table_rest(&table), SHARDHEAP_OK);
    budget = -1;
    return NULL;
}

/* A table's whole life. Its first chunk has room for 24 values of 16 words. */
static void lives(bool enters) {
    uint64_t keys[VALUES];
    pthread_t thread;
    TRY(shardheap_table_open_for(&table, 1, 1, 16, 3), !table.full);
    if (enters) TRY(shardheap_table_enter(&table), table.full);
    for (int n = 0; n < VALUES; n++) {
        keys[n] = 77;
        TRY(shardheap_table_insert(&table, words, 16, &keys[n]),
            keys[n] == 77 && shardheap_table_length(&table) == (uint64_t)n);
        if (!once) needs_none(keys[n]);
    }
    TRUE(shardheap_table_length(&table) == VALUES);
    long before = budget;
    bool was_once = once;
    once = false;
    TRUE(pthread_create(&thread, NULL, of_another, keys) == 0);
    TRUE(pthread_join(thread, NULL) == 0);
    budget = before;
    once = was_once;
    for (int n = 1; n < VALUES; n++) IS(shardheap_table_remove(&table, keys[n]), SHARDHEAP_OK);
    TRUE(shardheap_table_length(&table) == 0);
    shardheap_table_close(&table);
    TRUE(blocks == 0);
}

static long refuses_each(bool enters) {
    granted = 0;
    lives(enters);
    long all = granted;
    TRUE(refused == 0 && all > 60);
    for (long n = 0; n < 2 * all; n++) {
        budget = n / 2;
        once = n % 2;
        refused = 0;
        lives(enters);
        TRUE(refused <= 1);
        budget = -1;
    }
    once = false;
    refused = 0;
    return all;
}

static void begins_small(void) {
    budget = 1;
    TRY(shardheap_table_open(&table), !table.full && bytes == 0);
    TRUE(refused == 1);
    printf("table_memory: a new table takes %ld bytes\n", (long)bytes);
    TRUE(bytes < 160 << 10);
    shardheap_table_close(&table);
}

/* ---- An allocator that calls the table ---- */

static uint64_t there;
static int served, not_served, opened;
static bool no_own; /* all places for threads of their own are taken */

static void uses(void) {
    uint64_t room[16], key, length;
    if (!table.full) return;
    opened++;
    if (no_own) IS(shardheap_table_enter(&table), SHARDHEAP_NO_PLACE);
    IS(shardheap_table_rest(&table), SHARDHEAP_NO_PLACE);
    IS(shardheap_table_get(&table, there, room, 16, &length), SHARDHEAP_OK);
    TRUE(length == 16 && room[1] == 2);
    IS(shardheap_table_insert(&table, words, 5, &key), SHARDHEAP_OK);
    IS(shardheap_table_contains(&table, key), SHARDHEAP_OK);
    shardheap_live_key next;
    IS(shardheap_table_next(&table, 0, &next), SHARDHEAP_OK);
    TRUE(shardheap_table_length(&table) <= shardheap_table_capacity(&table, 16) && shardheap_table_bytes(&table) > 0);
    if (opened % 2) IS(shardheap_table_remove(&table, key), SHARDHEAP_OK);
    else IS(shardheap_table_take(&table, key, room, 16, &length), SHARDHEAP_OK);
    served++;
}

static void *grows(void *none) {
    uint64_t key;
    calls = uses;
    for (int n = 0; n < 10 * VALUES; n++) IS(shardheap_table_insert(&table, words, 16, &key), SHARDHEAP_OK);
    calls = NULL;
    return none;
}

static pthread_barrier_t all;

static void *enters(void *none) {
    IS(shardheap_table_enter(&table), SHARDHEAP_OK);
    pthread_barrier_wait(&all);
    pthread_barrier_wait(&all);
    return none;
}

/* All places for threads of their own are taken until the barrier. */
static void take_all(pthread_t *threads, int count) {
    for (int n = 0; n < count; n++) TRUE(pthread_create(&threads[n], NULL, enters, NULL) == 0);
}

static void join(pthread_t *threads, int count) {
    for (int n = 0; n < count; n++) TRUE(pthread_join(threads[n], NULL) == 0);
}

/* The allocator of a thread with a place of its own, and that of one that uses a shared place. */
static void calls_from_within(void) {
    static pthread_t threads[ALL_OWN + 1];
    IS(shardheap_table_open_for(&table, 1, 1, 16, 64), SHARDHEAP_OK);
    IS(shardheap_table_insert(&table, words, 16, &there), SHARDHEAP_OK);
    IS(shardheap_table_rest(&table), SHARDHEAP_OK);
    TRUE(pthread_create(&threads[0], NULL, grows, NULL) == 0);
    join(threads, 1);
    TRUE(served > 3 && shardheap_table_length(&table) == 10 * VALUES + 1);
    served = 0;
    pthread_barrier_init(&all, NULL, ALL_OWN + 1);
    take_all(threads, ALL_OWN);
    pthread_barrier_wait(&all);
    no_own = true;
    grows(NULL);
    TRUE(served > 3 && shardheap_table_length(&table) == 20 * VALUES + 1);
    pthread_barrier_wait(&all);
    join(threads, ALL_OWN);
    shardheap_table_close(&table);
    TRUE(blocks == 0);
}

/* ---- No place is free at once ---- */

static pthread_barrier_t locked;

/* Once in the thread: the others have their locks until the second barrier. */
static void waits(void) {
    static _Thread_local bool waited;
    if (waited) return;
    waited = true;
    pthread_barrier_wait(&locked);
    pthread_barrier_wait(&locked);
}

/* Its first insert adopts a shard, and so allocates while the thread has the lock of a shared place. */
static void *inserts_by_shared(void *none) {
    uint64_t key;
    calls = waits;
    IS(shardheap_table_insert(&table, words, 16, &key), SHARDHEAP_OK);
    calls = NULL;
    return none;
}

static bool is_any(void *none, const shardheap_live_key *met) {
    return none == met; /* (no key is met) */
}

static void is_refused(void) {
    uint64_t room[16], key = 77, length = 77, count = 77;
    shardheap_live_key next = {0, 0, 0, {0}};
    IS(shardheap_table_get(&table, there, room, 16, &length), SHARDHEAP_NO_PLACE);
    IS(shardheap_table_contains(&table, there), SHARDHEAP_NO_PLACE);
    IS(shardheap_table_insert(&table, words, 1, &key), SHARDHEAP_NO_PLACE);
    IS(shardheap_table_remove(&table, there), SHARDHEAP_NO_PLACE);
    IS(shardheap_table_take(&table, there, room, 16, &length), SHARDHEAP_NO_PLACE);
    IS(shardheap_table_next(&table, 0, &next), SHARDHEAP_NO_PLACE);
    IS(shardheap_table_remove_if(&table, is_any, NULL, &count), SHARDHEAP_NO_PLACE);
    TRUE(key == 77 && length == 77 && next.behind == 0 && count == 0);
    not_served++;
}

/* The other threads have places of their own, and four have the shared ones within an insert. */
static void finds_none(void) {
    static pthread_t threads[ALL_OWN - 1], sharing[SHARED];
    uint64_t key;
    IS(shardheap_table_open_for(&table, 1, 1, 16, 64), SHARDHEAP_OK);
    IS(shardheap_table_insert(&table, words, 16, &there), SHARDHEAP_OK);
    pthread_barrier_init(&all, NULL, ALL_OWN);
    pthread_barrier_init(&locked, NULL, SHARED + 1);
    take_all(threads, ALL_OWN - 1);
    pthread_barrier_wait(&all);
    for (int n = 0; n < SHARED; n++) TRUE(pthread_create(&sharing[n], NULL, inserts_by_shared, NULL) == 0);
    pthread_barrier_wait(&locked);
    calls = is_refused; /* the first shard of this thread is full after some of these */
    for (int n = 0; n < VALUES; n++) IS(shardheap_table_insert(&table, words, 16, &key), SHARDHEAP_OK);
    calls = NULL;
    TRUE(not_served > 0);
    pthread_barrier_wait(&locked);
    join(sharing, SHARED);
    TRUE(shardheap_table_length(&table) == VALUES + 1 + SHARED);
    pthread_barrier_wait(&all);
    join(threads, ALL_OWN - 1);
    shardheap_table_close(&table);
    TRUE(blocks == 0);
}

int main(void) {
    long count = refuses_each(true) + refuses_each(false);
    begins_small();
    calls_from_within();
    finds_none();
    printf("table_memory: each of %ld allocations refused in turn, and calls from within an allocator\n", count);
    return 0;
}
