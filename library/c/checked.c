/* What SHARDHEAP_CHECKED finds: handles that were copied, moved or not initialised, two calls on one handle at once,
   and keys of another heap. Each is reported once to SHARDHEAP_ON_MISUSE. */
#ifndef SHARDHEAP_CHECKED
#define SHARDHEAP_CHECKED
#endif
#define SHARDHEAP_ON_MISUSE(code) misused(code)
#include <stdatomic.h>
#include <stdint.h>

static _Atomic uint32_t misuses, last_misuse;

static void misused(uint32_t code) {
    atomic_fetch_add(&misuses, 1);
    atomic_store(&last_misuse, code);
}

#include "each.h"
#include <pthread.h>
#include <time.h>

#define SECONDS 30

static const uint64_t words[3] = {7, 8, 9};

/* A pass that owns the shard of a heap, and a key of it. */
static uint64_t opens(shardheap *heap, shardheap_pass *pass, uint32_t layout) {
    uint64_t key;
    IS(shardheap_open(heap, layout, 1, 1, 2), SHARDHEAP_OK);
    IS(shardheap_take(heap, pass), SHARDHEAP_OK);
    IS(shardheap_adopt(pass, 0), SHARDHEAP_OK);
    IS(shardheap_insert(pass, words, 3, &key), SHARDHEAP_OK);
    return key;
}

static void closes(shardheap *heap, shardheap_pass *pass, uint64_t key) {
    IS(shardheap_remove(pass, key), SHARDHEAP_OK);
    IS(shardheap_leave(pass), SHARDHEAP_OK);
    IS(shardheap_give(pass), SHARDHEAP_OK);
    shardheap_close(heap);
}

/* All calls on the handles were refused, and each refusal was reported: those that return no code too. */
static void refused(shardheap *heap, shardheap_pass *pass, uint64_t key, uint32_t code) {
    uint32_t before = misuses;
    each_call_of_a_heap(heap, code);
    TRUE(misuses - before == 15 && last_misuse == code);
    each_call_of_a_pass(pass, key, code);
    TRUE(misuses - before == 15 + 31 && last_misuse == code);
}

static void copied_and_moved(void) {
    shardheap heap = SHARDHEAP_INIT, heap_elsewhere;
    shardheap_pass pass = SHARDHEAP_INIT, pass_elsewhere;
    uint64_t key = opens(&heap, &pass, SHARDHEAP_WIDE);
    heap_elsewhere = heap;
    pass_elsewhere = pass;
    refused(&heap_elsewhere, &pass_elsewhere, key, SHARDHEAP_MOVED);
    memset(&heap, 0, sizeof heap);
    memset(&pass, 0, sizeof pass);
    refused(&heap_elsewhere, &pass_elsewhere, key, SHARDHEAP_MOVED);
    heap = heap_elsewhere; /* back where they were filled, they serve on */
    pass = pass_elsewhere;
    closes(&heap, &pass, key);
    /* empty ones may be copied */
    heap_elsewhere = heap;
    pass_elsewhere = pass;
    IS(shardheap_get(&pass_elsewhere, key), SHARDHEAP_EMPTY);
    closes(&heap_elsewhere, &pass_elsewhere, opens(&heap_elsewhere, &pass_elsewhere, SHARDHEAP_WIDE));
}

/* The heap of a take that is refused for its pass serves on. */
static void not_initialised(void) {
    shardheap heap, ready = SHARDHEAP_INIT;
    shardheap_pass pass;
    memset(&heap, 0xa5, sizeof heap);
    memset(&pass, 0xa5, sizeof pass);
    refused(&heap, &pass, 4096, SHARDHEAP_NO_HANDLE);
    IS(shardheap_open(&ready, SHARDHEAP_TINY, 1, 1, 1), SHARDHEAP_OK);
    IS(shardheap_take(&ready, &pass), SHARDHEAP_NO_HANDLE);
    TRUE(shardheap_passes(&ready) == 1);
    shardheap_close(&ready);
}

/* As another thread would find the handles in the middle of a call. */
static void in_use(void) {
    shardheap heap = SHARDHEAP_INIT;
    shardheap_pass pass = SHARDHEAP_INIT;
    uint64_t key = opens(&heap, &pass, SHARDHEAP_WIDE);
    heap.seal.busy = pass.seal.busy = 1;
    refused(&heap, &pass, key, SHARDHEAP_BUSY);
    heap.seal.busy = pass.seal.busy = 0;
    closes(&heap, &pass, key);
}

static shardheap_pass shared = SHARDHEAP_INIT;
static uint64_t shared_key;
static _Atomic int found;

/* Loads the key until some thread was refused, and gives up after a while. */
static void *uses(void *unused) {
    time_t end = time(NULL) + SECONDS;
    (void)unused;
    while (!atomic_load(&found) && time(NULL) < end) {
        uint32_t code = shardheap_load(&shared, shared_key, 0, 0, &(uint64_t){0});
        if (code == SHARDHEAP_BUSY) atomic_store(&found, 1);
        else if (code != SHARDHEAP_SHORT) atomic_store(&found, 2);
    }
    return NULL;
}

static void example_two_threads(void) {
    shardheap heap = SHARDHEAP_INIT;
    pthread_t threads[2];
    shared_key = opens(&heap, &shared, SHARDHEAP_WIDE);
    for (int n = 0; n < 2; n++) TRUE(pthread_create(&threads[n], NULL, uses, NULL) == 0);
    for (int n = 0; n < 2; n++) TRUE(pthread_join(threads[n], NULL) == 0);
    TRUE(found == 1);
    closes(&heap, &shared, shared_key);
}

/* A key of another heap ends nothing. */
static void tells_no_end(shardheap_pass *pass, uint64_t key) {
    shardheap_ended ended[3] = {{66, 55, {0}}, {66, 55, {0}}, {66, 55, {0}}};
    uint64_t over[3] = {66, 66, 66};
    IS(shardheap_get_ended(pass, key, &ended[0]), SHARDHEAP_OTHER_HEAP);
    IS(shardheap_release_ended(pass, key, &ended[1]), SHARDHEAP_OTHER_HEAP);
    IS(shardheap_remove_ended(pass, key, &ended[2]), SHARDHEAP_OTHER_HEAP);
    IS(shardheap_get_ended_key(pass, key, &over[0]), SHARDHEAP_OTHER_HEAP);
    IS(shardheap_release_ended_key(pass, key, &over[1]), SHARDHEAP_OTHER_HEAP);
    IS(shardheap_remove_ended_key(pass, key, &over[2]), SHARDHEAP_OTHER_HEAP);
    for (int n = 0; n < 3; n++) TRUE(ended[n].key == 0 && ended[n].length == 0 && over[n] == 0);
}

/* A key of one heap in another that has the same number: refused, if keys have room for the heap's number. */
static void another_heap(uint32_t layout) {
    shardheap heaps[2] = {SHARDHEAP_INIT, SHARDHEAP_INIT};
    shardheap_pass passes[2] = {SHARDHEAP_INIT, SHARDHEAP_INIT};
    uint64_t room[16], length = 99, keys[2];
    for (int n = 0; n < 2; n++) keys[n] = opens(&heaps[n], &passes[n], layout);
    TRUE(keys[0] << 8 == keys[1] << 8 && keys[0] != keys[1]);
    IS(shardheap_get(&passes[0], keys[1]), SHARDHEAP_OTHER_HEAP);
    IS(shardheap_load(&passes[0], keys[1], room, 16, &length), SHARDHEAP_OTHER_HEAP);
    IS(shardheap_take_value(&passes[0], keys[1], room, 16, &length), SHARDHEAP_OTHER_HEAP);
    shardheap_loaded batch[10] = {{keys[1], 99, 66, {0}}};
    for (int n = 1; n < 10; n++) batch[n] = batch[0], batch[n].key = keys[0];
    IS(shardheap_load_each(&passes[0], batch, 10), SHARDHEAP_OTHER_HEAP);
    TRUE(batch[0].code == 66 && batch[9].code == 66 && batch[9].key == keys[0]);
    IS(shardheap_load_each(&passes[0], batch + 1, 9), SHARDHEAP_OK);
    TRUE(batch[1].code == SHARDHEAP_OK && batch[9].code == SHARDHEAP_OK && batch[9].key == keys[0]);
    IS(shardheap_remove(&passes[0], keys[1]), SHARDHEAP_OTHER_HEAP);
    IS(shardheap_get(&passes[0], keys[0]), SHARDHEAP_OK);
    IS(shardheap_read(&passes[0], keys[1], room, 16, &length), SHARDHEAP_OTHER_HEAP);
    IS(shardheap_release(&passes[0], keys[1]), SHARDHEAP_OTHER_HEAP);
    TRUE(length == 99);
    tells_no_end(&passes[0], keys[1]);
    IS(shardheap_release(&passes[0], keys[0]), SHARDHEAP_OK);
    closes(&heaps[0], &passes[0], keys[0]);
    IS(shardheap_get(&passes[0], keys[1]), SHARDHEAP_EMPTY);
    /* a handle that was used for another heap has that heap's number */
    keys[0] = opens(&heaps[0], &passes[0], layout);
    IS(shardheap_get(&passes[1], keys[0]), SHARDHEAP_OTHER_HEAP);
    for (int n = 0; n < 2; n++) closes(&heaps[n], &passes[n], keys[n]);
}

/* A receipt of one heap in another, and as the other calls find handles. */
static void receipts(uint32_t layout) {
    shardheap heaps[2] = {SHARDHEAP_INIT, SHARDHEAP_INIT};
    shardheap_pass passes[2] = {SHARDHEAP_INIT, SHARDHEAP_INIT};
    shardheap_receipt receipt = SHARDHEAP_INIT, elsewhere;
    uint64_t keys[2];
    for (int n = 0; n < 2; n++) keys[n] = opens(&heaps[n], &passes[n], layout);
    IS(shardheap_receipt_make(&passes[0], &receipt), SHARDHEAP_OK);
    elsewhere = receipt;
    each_call_of_a_receipt(&elsewhere, SHARDHEAP_MOVED);
    receipt.seal.busy = 1;
    each_call_of_a_receipt(&receipt, SHARDHEAP_BUSY);
    receipt.seal.busy = 0;
    if (layout != SHARDHEAP_DEEP) {
        IS(shardheap_heed(&passes[1], &receipt), SHARDHEAP_OTHER_HEAP);
        TRUE(receipt.full);
    }
    IS(shardheap_heed(&passes[0], &receipt), SHARDHEAP_OK);
    IS(shardheap_receipt_make(&passes[1], &receipt), SHARDHEAP_OK);
    IS(shardheap_heed(&passes[1], &receipt), SHARDHEAP_OK);
    for (int n = 0; n < 2; n++) closes(&heaps[n], &passes[n], keys[n]);
}

/* A second handle of a heap gives passes with the heap's number. */
static void shared_heap(void) {
    shardheap heap = SHARDHEAP_INIT, other = SHARDHEAP_INIT;
    shardheap_pass pass = SHARDHEAP_INIT, second = SHARDHEAP_INIT;
    uint64_t key = opens(&heap, &pass, SHARDHEAP_WIDE);
    IS(shardheap_share(&heap, &other), SHARDHEAP_OK);
    IS(shardheap_take(&other, &second), SHARDHEAP_OK);
    IS(shardheap_get(&second, key), SHARDHEAP_OK);
    IS(shardheap_release(&second, key), SHARDHEAP_OK);
    IS(shardheap_give(&second), SHARDHEAP_OK);
    shardheap_close(&other);
    closes(&heap, &pass, key);
}

/* A key without a number is none of these layouts: but of layout tagged, a tag may have taken it away. */
static void tagged(void) {
    shardheap heap = SHARDHEAP_INIT;
    shardheap_pass pass = SHARDHEAP_INIT;
    uint64_t number, key = opens(&heap, &pass, SHARDHEAP_TAGGED), bare = 77;
    uint32_t tag = 0;
    IS(shardheap_tag(key, 5, &number), SHARDHEAP_OK);
    IS(shardheap_untag(number, &bare, &tag), SHARDHEAP_OK);
    TRUE(tag == 5 && bare == key << 8 >> 8 && bare != key);
    IS(shardheap_get(&pass, bare), SHARDHEAP_OK);
    IS(shardheap_release(&pass, key), SHARDHEAP_OK);
    closes(&heap, &pass, bare);
    key = opens(&heap, &pass, SHARDHEAP_WIDE);
    IS(shardheap_get(&pass, key << 8 >> 8), SHARDHEAP_OTHER_HEAP);
    closes(&heap, &pass, key);
}

/* The predicate of a removal may not use its pass, and gets keys as the caller has them. */
static bool uses_its_pass(void *pass, const shardheap_live_key *met) {
    IS(shardheap_remove(pass, met->key), SHARDHEAP_BUSY);
    return met->key == shared_key;
}

static void removal(void) {
    shardheap heap = SHARDHEAP_INIT;
    shardheap_pass pass = SHARDHEAP_INIT;
    uint64_t second, removed = 77;
    uint32_t before = misuses;
    shared_key = opens(&heap, &pass, SHARDHEAP_WIDE);
    IS(shardheap_insert(&pass, words, 3, &second), SHARDHEAP_OK);
    IS(shardheap_remove_if(&pass, uses_its_pass, &pass, &removed), SHARDHEAP_OK);
    TRUE(removed == 1 && misuses - before == 2 && last_misuse == SHARDHEAP_BUSY);
    IS(shardheap_remove(&pass, shared_key), SHARDHEAP_GONE);
    closes(&heap, &pass, second);
}

/* Keys of layout deep use all their bits, so that they are as without the mode. */
static void deep(void) {
    shardheap heap = SHARDHEAP_INIT;
    shardheap_pass pass = SHARDHEAP_INIT;
    uint64_t key = opens(&heap, &pass, SHARDHEAP_DEEP);
    TRUE(key >> 56 == 0);
    IS(shardheap_get(&pass, UINT64_MAX), SHARDHEAP_BAD_KEY);
    closes(&heap, &pass, key);
}

/* The numbers of heaps come again after 255, and none is 0. */
static void many_heaps(void) {
    for (int n = 0; n < 600; n++) {
        shardheap heap = SHARDHEAP_INIT;
        shardheap_pass pass = SHARDHEAP_INIT;
        uint64_t key = opens(&heap, &pass, SHARDHEAP_TINY);
        TRUE(key >> 56 != 0);
        closes(&heap, &pass, key);
    }
}

int main(void) {
    copied_and_moved();
    not_initialised();
    in_use();
    example_two_threads();
    another_heap(SHARDHEAP_WIDE);
    another_heap(SHARDHEAP_TAGGED);
    another_heap(SHARDHEAP_TINY);
    for (uint32_t layout = SHARDHEAP_WIDE; layout <= SHARDHEAP_TINY; layout++) receipts(layout);
    shared_heap();
    tagged();
    removal();
    deep();
    many_heaps();
    printf("checked: %d checks passed\n", checks);
    return 0;
}
