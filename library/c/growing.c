/* A growing heap: each code of its calls, over several chunks, and four threads that fill it.

   Its first chunk has a shard of one segment, and so have chunks 1 and 2: each has 384 slots for values of one word. */
#include "check.h"
#include <pthread.h>

#define CHUNK 384
#define THREADS 4
#define EACH 5000

static uint64_t words[20] = {7, 8, 9}, room[16], length;

static void opens(void) {
    shardheap heap = SHARDHEAP_INIT;
    IS(shardheap_open_growing(0, 1, 1, 1, 1, 1), SHARDHEAP_NULL);
    IS(shardheap_open_growing(&heap, 0, 1, 1, 1, 1), SHARDHEAP_BAD_SHAPE);
    IS(shardheap_open_growing(&heap, 65, 1, 1, 1, 1), SHARDHEAP_BAD_SHAPE);
    IS(shardheap_open_growing(&heap, 1, UINT64_MAX, 1, 1, 1), SHARDHEAP_BAD_SHAPE);
    IS(shardheap_open_growing(&heap, 1, 1, 17, 1, 1), SHARDHEAP_BAD_SHAPE);
    IS(shardheap_open_growing(&heap, 1, 1, 1, 0, 1), SHARDHEAP_BAD_SHAPE);
    IS(shardheap_open_growing(&heap, 1, 1, 1, 65, 1), SHARDHEAP_BAD_SHAPE);
    IS(shardheap_open_growing(&heap, 1, 1, 1, 1, 0), SHARDHEAP_BAD_SHAPE);
    IS(shardheap_open_growing(&heap, 1, 1, 1, 1, 257), SHARDHEAP_BAD_SHAPE);
    IS(shardheap_open_growing(&heap, 1, 1, 1, 1, UINT32_MAX), SHARDHEAP_BAD_SHAPE);
    TRUE(shardheap_chunks(&heap) == 0 && shardheap_chunks(0) == 0);
    IS(shardheap_open_growing(&heap, 64, 100, 16, 64, 256), SHARDHEAP_OK);
    IS(shardheap_open_growing(&heap, 1, 1, 1, 1, 1), SHARDHEAP_OCCUPIED);
    IS(shardheap_open(&heap, SHARDHEAP_WIDE, 1, 1, 1), SHARDHEAP_OCCUPIED);
    TRUE(shardheap_chunks(&heap) == 1 && shardheap_passes(&heap) == 64);
    /* 64 shards of 5 segments: 2,560 pages of 195 words, with 3 slots for 16 words, and two words a shard */
    TRUE(shardheap_capacity(&heap, 16) == 7680 && shardheap_capacity(&heap, 1) == 122880);
    TRUE(shardheap_bytes(&heap) == 3994624);
    shardheap_close(&heap);
    IS(shardheap_open(&heap, SHARDHEAP_WIDE, 2, 2, 2), SHARDHEAP_OK);
    TRUE(shardheap_chunks(&heap) == 1);
    shardheap_close(&heap);
}

static void has(shardheap_pass *pass, uint64_t key, uint64_t value) {
    IS(shardheap_load(pass, key, room, 16, &length), SHARDHEAP_OK);
    TRUE(length == 1 && room[0] == value);
}

/* Stores the numbers from `from` on, and returns the last key. */
static uint64_t fills(shardheap_pass *pass, uint64_t from, uint64_t count) {
    uint64_t key = 0;
    for (uint64_t n = from; n < from + count; n++) IS(shardheap_insert(pass, &n, 1, &key), SHARDHEAP_OK);
    return key;
}

/* The calls on a key, by a pass that did not insert it. */
static void each_call_on(shardheap_pass *pass, uint64_t key, uint64_t value) {
    IS(shardheap_read(pass, key, room, 16, &length), SHARDHEAP_NOT_HELD);
    IS(shardheap_release(pass, key), SHARDHEAP_NOT_HELD);
    for (int n = 0; n < 16; n++) IS(shardheap_get(pass, key), SHARDHEAP_OK);
    IS(shardheap_get(pass, key), SHARDHEAP_HOLDS_FULL);
    IS(shardheap_read(pass, key, room, 16, &length), SHARDHEAP_OK);
    TRUE(length == 1 && room[0] == value);
    IS(shardheap_read(pass, key, room, 0, &length), SHARDHEAP_SHORT);
    /* a load needs no room for a hold, except of a key that was not issued, such as the next one of this slot */
    room[0] = ~value;
    has(pass, key, value);
    length = 99;
    IS(shardheap_load(pass, key + (UINT64_C(1) << 24), room, 16, &length), SHARDHEAP_HOLDS_FULL);
    TRUE(length == 99 && room[0] == value);
    for (int n = 0; n < 16; n++) IS(shardheap_release(pass, key), SHARDHEAP_OK);
    shardheap_loaded batch[2] = {{key, 99, 66, {0}}, {key, 99, 66, {0}}};
    IS(shardheap_load_each(pass, batch, 2), SHARDHEAP_OK);
    TRUE(batch[0].code == SHARDHEAP_OK && batch[1].words[0] == value && batch[1].length == 1);
    IS(shardheap_take_value(pass, key, room, 0, &length), SHARDHEAP_SHORT);
    IS(shardheap_take_value(pass, key, room, 16, &length), SHARDHEAP_OK);
    TRUE(length == 1 && room[0] == value);
    IS(shardheap_remove(pass, key), SHARDHEAP_GONE);
    IS(shardheap_get(pass, key), SHARDHEAP_GONE);
}

/* Three chunks are filled, one after the other, and the slots that are freed are used again. */
static void fills_chunks(void) {
    shardheap heap = SHARDHEAP_INIT;
    shardheap_pass one = SHARDHEAP_INIT, two = SHARDHEAP_INIT;
    uint64_t last[3], key = 77;
    IS(shardheap_open_growing(&heap, 1, CHUNK, 1, 2, 3), SHARDHEAP_OK);
    IS(shardheap_take(&heap, &one), SHARDHEAP_OK);
    IS(shardheap_take(&heap, &two), SHARDHEAP_OK);
    for (uint64_t n = 0; n < 3; n++) {
        uint64_t unopened = ((n + 1) << 56) | (UINT64_C(1) << 24);
        IS(shardheap_load(&two, unopened, room, 16, &length), SHARDHEAP_BAD_KEY);
        IS(shardheap_read(&two, unopened, room, 16, &length), SHARDHEAP_BAD_KEY);
        IS(shardheap_release(&two, unopened), SHARDHEAP_BAD_KEY);
        last[n] = fills(&one, n * CHUNK, CHUNK);
        TRUE(last[n] >> 56 == n && shardheap_chunks(&heap) == n + 1);
        TRUE(shardheap_capacity(&heap, 1) == (n + 1) * CHUNK);
        TRUE(shardheap_bytes(&heap) == (n + 1) * (8 * 195 + 2) * 8);
    }
#ifndef SHARDHEAP_CHECKED /* there tag takes the number of a chunk for that of a heap */
    IS(shardheap_tag(last[2], 3, &key), SHARDHEAP_BAD_KEY);
#endif
    IS(shardheap_insert(&one, words, 1, &key), SHARDHEAP_FULL);
    IS(shardheap_insert_once(&two, words, 1, &key), SHARDHEAP_NO_SHARD);
    IS(shardheap_insert(&one, words, 17, &key), SHARDHEAP_TOO_LONG);
    TRUE(key == 77);
    for (uint64_t n = 0; n < 3; n++) {
        has(&one, last[n], (n + 1) * CHUNK - 1);
        each_call_on(&two, last[n], (n + 1) * CHUNK - 1);
    }
    fills(&one, 5000, 3);
    IS(shardheap_insert(&one, words, 1, &key), SHARDHEAP_FULL);
    IS(shardheap_leave(&one), SHARDHEAP_OK);
    IS(shardheap_leave(&one), SHARDHEAP_OK);
    IS(shardheap_give(&one), SHARDHEAP_OK);
    IS(shardheap_pass_close(&two), SHARDHEAP_OK);
    shardheap_close(&heap);
}

/* The calls that name a shard, or that are about the whole heap: they do nothing. */
static void has_no_such_calls(void) {
    shardheap heap = SHARDHEAP_INIT;
    shardheap_pass pass = SHARDHEAP_INIT;
    shardheap_page page = {9, 9, 9, 9, 9, 9};
    shardheap_sums sums = {9, 9, 9, 9, 9, 9};
    uint64_t place = 55, key = 77;
    uint32_t prepared = 66;
    IS(shardheap_open_growing(&heap, 1, 1, 1, 1, 2), SHARDHEAP_OK);
    IS(shardheap_gather(&heap), SHARDHEAP_AWAY);
    IS(shardheap_accounts(&heap, 0, 0, &page), SHARDHEAP_AWAY);
    IS(shardheap_totals(&heap, &sums), SHARDHEAP_AWAY);
    IS(shardheap_next_key(&heap, &place, &key), SHARDHEAP_AWAY);
    TRUE(page.used == 9 && sums.live == 9 && place == 55 && key == 77);
    uint32_t layout = 9;
    IS(shardheap_layout_of(&heap, &layout), SHARDHEAP_OK);
    TRUE(layout == SHARDHEAP_GROWING);
    IS(shardheap_take(&heap, &pass), SHARDHEAP_OK);
    uint64_t stored = fills(&pass, 7, 1);
    IS(shardheap_adopt(&pass, 0), SHARDHEAP_NO_SHARD);
    IS(shardheap_prepare(&pass, 1, &prepared), SHARDHEAP_NO_SHARD);
    IS(shardheap_pages_left(&pass, &key), SHARDHEAP_NO_SHARD);
    IS(shardheap_slots_out(&pass, &key), SHARDHEAP_NO_SHARD);
    IS(shardheap_next_own_key(&pass, &place, &key), SHARDHEAP_NO_SHARD);
    TRUE(prepared == 66 && place == 55 && key == 77);
    has(&pass, stored, 7);
    IS(shardheap_give(&pass), SHARDHEAP_OK);
    shardheap_close(&heap);
}

/* A receipt covers the chunks that its pass has used. It is heeded once, also after its pass went home. */
static void heeds(void) {
    shardheap heap = SHARDHEAP_INIT;
    shardheap_pass one = SHARDHEAP_INIT, two = SHARDHEAP_INIT;
    shardheap_receipt receipt = SHARDHEAP_INIT;
    IS(shardheap_open_growing(&heap, 1, CHUNK, 1, 2, 3), SHARDHEAP_OK);
    IS(shardheap_take(&heap, &one), SHARDHEAP_OK);
    IS(shardheap_take(&heap, &two), SHARDHEAP_OK);
    uint64_t low = fills(&one, 0, CHUNK), high = fills(&one, CHUNK, 1);
    TRUE(low >> 56 == 0 && high >> 56 == 1);
    IS(shardheap_heed(&two, &receipt), SHARDHEAP_EMPTY);
    IS(shardheap_receipt_make(&one, &receipt), SHARDHEAP_OK);
    IS(shardheap_receipt_make(&one, &receipt), SHARDHEAP_OCCUPIED);
    IS(shardheap_heed(&two, &receipt), SHARDHEAP_OK);
    IS(shardheap_heed(&two, &receipt), SHARDHEAP_EMPTY);
    IS(shardheap_take_value(&two, high, room, 16, &length), SHARDHEAP_OK);
    TRUE(length == 1 && room[0] == CHUNK);
    /* a pass that owns shards heeds too, and stores there as before */
    IS(shardheap_receipt_make(&two, &receipt), SHARDHEAP_OK);
    IS(shardheap_heed(&one, &receipt), SHARDHEAP_OK);
    IS(shardheap_load(&one, high, room, 16, &length), SHARDHEAP_GONE);
    fills(&one, 5000, 1);
    TRUE(shardheap_chunks(&heap) == 2);
    IS(shardheap_receipt_make(&one, &receipt), SHARDHEAP_OK);
    IS(shardheap_give(&one), SHARDHEAP_OK);
    shardheap_close(&heap);
    IS(shardheap_heed(&one, &receipt), SHARDHEAP_EMPTY);
    IS(shardheap_heed(&two, &receipt), SHARDHEAP_OK);
    has(&two, low, CHUNK - 1);
    IS(shardheap_receipt_make(&two, &receipt), SHARDHEAP_OK);
    IS(shardheap_give(&two), SHARDHEAP_OK);
    shardheap_receipt_close(&receipt);
    TRUE(!receipt.full && receipt.at == 0);
}

/* A receipt of another heap orders nothing and does no harm. It is refused if it covers a chunk that is not open. */
static void heeds_no_other_heap(void) {
    shardheap heap = SHARDHEAP_INIT, larger = SHARDHEAP_INIT, deep = SHARDHEAP_INIT;
    shardheap_pass pass = SHARDHEAP_INIT, other = SHARDHEAP_INIT, fixed = SHARDHEAP_INIT;
    shardheap_receipt receipt = SHARDHEAP_INIT;
    IS(shardheap_open_growing(&heap, 1, 1, 1, 1, 3), SHARDHEAP_OK);
    IS(shardheap_open_growing(&larger, 1, 1, 1, 1, 2), SHARDHEAP_OK);
    IS(shardheap_open(&deep, SHARDHEAP_DEEP, 1, 1, 1), SHARDHEAP_OK);
    IS(shardheap_take(&heap, &pass), SHARDHEAP_OK);
    IS(shardheap_take(&larger, &other), SHARDHEAP_OK);
    IS(shardheap_take(&deep, &fixed), SHARDHEAP_OK);
    uint64_t key = fills(&pass, 7, 1), high = fills(&other, 0, CHUNK + 1);
    IS(shardheap_receipt_make(&other, &receipt), SHARDHEAP_OK);
    IS(shardheap_heed(&pass, &receipt), SHARDHEAP_TAKEN);
    TRUE(!receipt.full && shardheap_chunks(&heap) == 1);
    IS(shardheap_receipt_make(&fixed, &receipt), SHARDHEAP_OK);
    IS(shardheap_heed(&pass, &receipt), SHARDHEAP_OK);
    IS(shardheap_receipt_make(&pass, &receipt), SHARDHEAP_OK);
    IS(shardheap_heed(&fixed, &receipt), SHARDHEAP_OK);
    IS(shardheap_receipt_make(&pass, &receipt), SHARDHEAP_OK);
    IS(shardheap_heed(&other, &receipt), SHARDHEAP_OK);
    has(&pass, key, 7);
    has(&other, high, CHUNK);
    IS(shardheap_adopt(&fixed, 0), SHARDHEAP_OK);
    has(&fixed, fills(&fixed, 8, 1), 8);
    IS(shardheap_leave(&fixed), SHARDHEAP_OK);
    IS(shardheap_give(&pass), SHARDHEAP_OK);
    IS(shardheap_give(&other), SHARDHEAP_OK);
    IS(shardheap_give(&fixed), SHARDHEAP_OK);
    shardheap_close(&heap);
    shardheap_close(&larger);
    shardheap_close(&deep);
}

/* Passes come home with their shards left, and the heap goes with the last of its handles and passes. */
static void comes_home(void) {
    shardheap heap = SHARDHEAP_INIT, second = SHARDHEAP_INIT;
    shardheap_pass one = SHARDHEAP_INIT, two = SHARDHEAP_INIT;
    IS(shardheap_open_growing(&heap, 1, 1, 1, 1, 2), SHARDHEAP_OK);
    IS(shardheap_share(&heap, &second), SHARDHEAP_OK);
    shardheap_close(&heap);
    IS(shardheap_take(&second, &one), SHARDHEAP_OK);
    IS(shardheap_take(&second, &two), SHARDHEAP_NO_PASS);
    uint64_t key = fills(&one, 0, CHUNK + 1);
    IS(shardheap_get(&one, key), SHARDHEAP_OK);
    IS(shardheap_collect(&one), SHARDHEAP_OK);
    IS(shardheap_give(&one), SHARDHEAP_OK);
    IS(shardheap_give(&one), SHARDHEAP_EMPTY);
    IS(shardheap_take(&second, &two), SHARDHEAP_OK);
    shardheap_close(&second);
    /* (its first call in chunk 1 is by the hold) */
    IS(shardheap_release(&two, key), SHARDHEAP_OK);
    IS(shardheap_release(&two, key), SHARDHEAP_NOT_HELD);
    IS(shardheap_pass_lose(&two), SHARDHEAP_OK);
}

/* Gives a pass back and takes it again: the heap has no other. */
static void again(shardheap *heap, shardheap_pass *pass) {
    IS(shardheap_give(pass), SHARDHEAP_OK);
    IS(shardheap_take(heap, pass), SHARDHEAP_OK);
}

/* A pass keeps its holds in each chunk as it is given and taken: the value is readable until they are given back. */
static void keeps_its_holds(void) {
    shardheap heap = SHARDHEAP_INIT;
    shardheap_pass pass = SHARDHEAP_INIT;
    uint64_t keys[3];
    IS(shardheap_open_growing(&heap, 1, 1, 1, 1, 3), SHARDHEAP_OK);
    IS(shardheap_take(&heap, &pass), SHARDHEAP_OK);
    for (uint64_t n = 0; n < 3; n++) {
        keys[n] = fills(&pass, n * CHUNK, CHUNK);
        TRUE(keys[n] >> 56 == n);
        IS(shardheap_get(&pass, keys[n]), SHARDHEAP_OK);
        IS(shardheap_remove(&pass, keys[n]), SHARDHEAP_OK);
    }
    for (int n = 2; n >= 0; n--) {
        again(&heap, &pass);
        IS(shardheap_read(&pass, keys[n], room, 16, &length), SHARDHEAP_OK);
        TRUE(length == 1 && room[0] == ((uint64_t)n + 1) * CHUNK - 1);
        again(&heap, &pass);
        IS(shardheap_release(&pass, keys[n]), SHARDHEAP_OK);
        again(&heap, &pass);
        IS(shardheap_read(&pass, keys[n], room, 16, &length), SHARDHEAP_NOT_HELD);
        IS(shardheap_release(&pass, keys[n]), SHARDHEAP_NOT_HELD);
    }
    /* each slot is free again */
    fills(&pass, 0, 3);
    IS(shardheap_give(&pass), SHARDHEAP_OK);
    shardheap_close(&heap);
}

/* How many of 64 passes insert a value each into one chunk with room for 1,000. */
static int one_value_each(uint32_t owners, uint64_t values, bool leaves) {
    static shardheap_pass passes[64];
    shardheap heap = SHARDHEAP_INIT;
    uint64_t key;
    int stored = 0;
    IS(shardheap_open_growing(&heap, owners, values, 1, 64, 1), SHARDHEAP_OK);
    for (int n = 0; n < 64; n++) {
        IS(shardheap_take(&heap, &passes[n]), SHARDHEAP_OK);
        stored += shardheap_insert(&passes[n], words, 1, &key) == SHARDHEAP_OK;
        if (leaves) IS(shardheap_leave_idle(&passes[n]), SHARDHEAP_OK);
    }
    for (int n = 0; n < 64; n++) IS(shardheap_give(&passes[n]), SHARDHEAP_OK);
    shardheap_close(&heap);
    return stored;
}

/* Each thread that inserts keeps a shard, unless it leaves it. */
static void needs_an_owner_for_each_thread(void) {
    TRUE(one_value_each(64, 16, false) == 64);
    TRUE(one_value_each(1, 1000, true) == 64);
    TRUE(one_value_each(1, 1000, false) == 1);
}

/* As many values as before are stored in the chunks that are open, after all were removed by another pass. */
static void uses_its_chunks_again(void) {
    static uint64_t keys[3000];
    shardheap heap = SHARDHEAP_INIT;
    shardheap_pass one = SHARDHEAP_INIT, two = SHARDHEAP_INIT;
    IS(shardheap_open_growing(&heap, 2, CHUNK, 1, 2, 256), SHARDHEAP_OK);
    IS(shardheap_take(&heap, &one), SHARDHEAP_OK);
    IS(shardheap_take(&heap, &two), SHARDHEAP_OK);
    for (uint64_t n = 0; n < 3000; n++) keys[n] = fills(&one, n, 1);
    uint64_t chunks = shardheap_chunks(&heap);
    TRUE(chunks > 3);
    for (uint64_t n = 0; n < 3000; n++) IS(shardheap_remove(&two, keys[n * 7 % 3000]), SHARDHEAP_OK);
    IS(shardheap_collect(&one), SHARDHEAP_OK);
    fills(&one, 0, 3000);
    TRUE(shardheap_chunks(&heap) == chunks);
    IS(shardheap_give(&one), SHARDHEAP_OK);
    IS(shardheap_give(&two), SHARDHEAP_OK);
    shardheap_close(&heap);
}

/* A collect reaches each chunk in which the pass owns a shard: where others freed all, values of another length fit. */
static void collects_in_each_chunk(void) {
    static uint64_t keys[3 * CHUNK];
    shardheap heap = SHARDHEAP_INIT;
    shardheap_pass one = SHARDHEAP_INIT, two = SHARDHEAP_INIT;
    uint64_t key = 0;
    IS(shardheap_open_growing(&heap, 1, CHUNK, 1, 2, 3), SHARDHEAP_OK);
    IS(shardheap_take(&heap, &one), SHARDHEAP_OK);
    IS(shardheap_take(&heap, &two), SHARDHEAP_OK);
    for (uint64_t n = 0; n < 3 * CHUNK; n++) keys[n] = fills(&one, n, 1);
    for (uint64_t n = 0; n < 2 * CHUNK; n++) IS(shardheap_remove(&two, keys[n]), SHARDHEAP_OK);
    IS(shardheap_collect(&one), SHARDHEAP_OK);
    /* chunks 0 and 1 have 8 pages of 3 slots each */
    for (uint64_t n = 0; n < 48; n++) {
        IS(shardheap_insert_once(&one, words, 16, &key), SHARDHEAP_OK);
        TRUE(key >> 56 == n / 24);
    }
    IS(shardheap_give(&one), SHARDHEAP_OK);
    IS(shardheap_give(&two), SHARDHEAP_OK);
    shardheap_close(&heap);
}

/* Values of 16 words open twelve chunks, each only when it is needed. A pass that stores nothing finds the first key of
   each, and the other leaves its shards in all of them. */
static void goes_over_twelve_chunks(void) {
    shardheap heap = SHARDHEAP_INIT;
    shardheap_pass one = SHARDHEAP_INIT, two = SHARDHEAP_INIT;
    uint64_t first[12], key = 0, chunks = 0;
    IS(shardheap_open_growing(&heap, 1, 1, 16, 2, 256), SHARDHEAP_OK);
    IS(shardheap_take(&heap, &one), SHARDHEAP_OK);
    IS(shardheap_take(&heap, &two), SHARDHEAP_OK);
    while (chunks < 12) {
        IS(shardheap_insert(&one, words, 16, &key), SHARDHEAP_OK);
        TRUE(key >> 56 <= chunks);
        if (key >> 56 == chunks) first[chunks++] = key;
        TRUE(shardheap_chunks(&heap) == chunks);
    }
    for (int n = 0; n < 12; n++) {
        IS(shardheap_load(&two, first[n], room, 16, &length), SHARDHEAP_OK);
        TRUE(length == 16 && room[2] == 9);
    }
    IS(shardheap_leave(&one), SHARDHEAP_OK);
    IS(shardheap_give(&one), SHARDHEAP_OK);
    IS(shardheap_give(&two), SHARDHEAP_OK);
    shardheap_close(&heap);
}

typedef struct {
    shardheap_pass pass;
    uint64_t from, *keys;
    const char *fault;
} job;

static void *inserts(void *arg) {
    job *j = arg;
    for (uint64_t n = 0; n < EACH && !j->fault; n++) {
        uint64_t word = j->from + n;
        if (shardheap_insert(&j->pass, &word, 1, &j->keys[n]) != SHARDHEAP_OK) j->fault = "insert";
    }
    return NULL;
}

/* Reads and removes the keys of another thread, in mixed order. */
static void *removes(void *arg) {
    job *j = arg;
    uint64_t word, count;
    for (uint64_t i = 0; i < EACH && !j->fault; i++) {
        uint64_t n = i * 7 % EACH;
        if (shardheap_load(&j->pass, j->keys[n], &word, 1, &count) != SHARDHEAP_OK || word != j->from + n)
            j->fault = "load";
        if (shardheap_remove(&j->pass, j->keys[n]) != SHARDHEAP_OK) j->fault = "remove";
        if (shardheap_load(&j->pass, j->keys[n], &word, 1, &count) != SHARDHEAP_GONE) j->fault = "gone";
    }
    return NULL;
}

static void each_does(job *jobs, void *(*work)(void *)) {
    pthread_t threads[THREADS];
    for (int n = 0; n < THREADS; n++) TRUE(pthread_create(&threads[n], NULL, work, &jobs[n]) == 0);
    for (int n = 0; n < THREADS; n++) pthread_join(threads[n], NULL);
    for (int n = 0; n < THREADS; n++) TRUE(jobs[n].fault == NULL);
}

/* Four threads open the same chunks at about the same time. Each value is found and removed by another thread. */
static void serves_threads(void) {
    static uint64_t keys[THREADS][EACH];
    static job jobs[THREADS];
    shardheap heap = SHARDHEAP_INIT;
    IS(shardheap_open_growing(&heap, 1, 1, 1, THREADS, 256), SHARDHEAP_OK);
    for (int n = 0; n < THREADS; n++) IS(shardheap_take(&heap, &jobs[n].pass), SHARDHEAP_OK);
    for (int round = 0; round < 2; round++) {
        for (int n = 0; n < THREADS; n++) {
            jobs[n].from = (uint64_t)n * EACH;
            jobs[n].keys = keys[n];
        }
        each_does(jobs, inserts);
        for (int n = 0; n < THREADS; n++) {
            jobs[n].from = (uint64_t)((n + 1) % THREADS) * EACH;
            jobs[n].keys = keys[(n + 1) % THREADS];
        }
        each_does(jobs, removes);
    }
    for (int n = 0; n < THREADS; n++) IS(shardheap_give(&jobs[n].pass), SHARDHEAP_OK);
    printf("growing: four threads in %llu chunks\n", (unsigned long long)shardheap_chunks(&heap));
    shardheap_close(&heap);
}

int main(void) {
    opens();
    fills_chunks();
    has_no_such_calls();
    heeds();
    heeds_no_other_heap();
    comes_home();
    keeps_its_holds();
    needs_an_owner_for_each_thread();
    uses_its_chunks_again();
    collects_in_each_chunk();
    goes_over_twelve_chunks();
    serves_threads();
    printf("growing: %d checks passed\n", checks);
    return 0;
}
