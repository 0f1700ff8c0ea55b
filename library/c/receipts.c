/* Receipts: a pass makes one and another heeds it, by itself and between threads. */
#include "check.h"
#include <pthread.h>
#include <sched.h>
#include <stdatomic.h>

#define HANDED 2000

static uint64_t words[3] = {7, 8, 9};

static void null_and_empty(void) {
    shardheap_pass pass = SHARDHEAP_INIT;
    shardheap_receipt receipt = SHARDHEAP_INIT;
    IS(shardheap_receipt_make(0, &receipt), SHARDHEAP_NULL);
    IS(shardheap_receipt_make(&pass, 0), SHARDHEAP_NULL);
    IS(shardheap_heed(0, &receipt), SHARDHEAP_NULL);
    IS(shardheap_heed(&pass, 0), SHARDHEAP_NULL);
    shardheap_receipt_close(0);
    IS(shardheap_receipt_make(&pass, &receipt), SHARDHEAP_EMPTY);
    IS(shardheap_heed(&pass, &receipt), SHARDHEAP_EMPTY);
    shardheap_receipt_close(&receipt);
    TRUE(!receipt.full && receipt.at == 0);
}

/* A receipt is heeded once, also after its pass went home and its heap was closed. The calls of both go on. */
static void heeds(uint32_t layout) {
    shardheap heap = SHARDHEAP_INIT;
    shardheap_pass one = SHARDHEAP_INIT, two = SHARDHEAP_INIT;
    shardheap_receipt receipt = SHARDHEAP_INIT, other = SHARDHEAP_INIT;
    uint64_t key, room[16], length;
    IS(shardheap_open(&heap, layout, 2, 1, 2), SHARDHEAP_OK);
    IS(shardheap_take(&heap, &one), SHARDHEAP_OK);
    IS(shardheap_take(&heap, &two), SHARDHEAP_OK);
    IS(shardheap_heed(&one, &receipt), SHARDHEAP_EMPTY);
    IS(shardheap_adopt(&one, 0), SHARDHEAP_OK);
    IS(shardheap_insert(&one, words, 3, &key), SHARDHEAP_OK);
    IS(shardheap_receipt_make(&one, &receipt), SHARDHEAP_OK);
    IS(shardheap_receipt_make(&one, &receipt), SHARDHEAP_OCCUPIED);
    IS(shardheap_receipt_make(&one, &other), SHARDHEAP_OK);
    IS(shardheap_heed(&two, &receipt), SHARDHEAP_OK);
    IS(shardheap_heed(&two, &receipt), SHARDHEAP_EMPTY);
    IS(shardheap_take_value(&two, key, room, 16, &length), SHARDHEAP_OK);
    TRUE(length == 3 && room[0] == 7 && room[2] == 9);
    /* the owner of a shard heeds too, and stays the owner */
    IS(shardheap_receipt_make(&two, &receipt), SHARDHEAP_OK);
    IS(shardheap_heed(&one, &receipt), SHARDHEAP_OK);
    IS(shardheap_load(&one, key, room, 16, &length), SHARDHEAP_GONE);
    IS(shardheap_insert(&one, words, 1, &key), SHARDHEAP_OK);
    IS(shardheap_receipt_make(&one, &receipt), SHARDHEAP_OK);
    IS(shardheap_leave(&one), SHARDHEAP_OK);
    IS(shardheap_give(&one), SHARDHEAP_OK);
    shardheap_close(&heap);
    IS(shardheap_heed(&one, &receipt), SHARDHEAP_EMPTY);
    IS(shardheap_heed(&two, &receipt), SHARDHEAP_OK);
    IS(shardheap_load(&two, key, room, 16, &length), SHARDHEAP_OK);
    TRUE(length == 1 && room[0] == 7);
    IS(shardheap_give(&two), SHARDHEAP_OK);
    shardheap_receipt_close(&other);
    TRUE(!other.full && other.at == 0);
    shardheap_receipt_close(&other);
}

/* One thread inserts and hands each key over with a receipt; the other heeds it first, and then finds the key. */
typedef struct {
    uint64_t key;
    shardheap_receipt receipt;
} message;

static message handed = {0, SHARDHEAP_INIT};
static _Atomic int full;

static void *hands_over(void *arg) {
    shardheap_pass *pass = arg;
    for (uint64_t n = 0; n < HANDED; n++) {
        uint64_t key;
        while (shardheap_insert(pass, &n, 1, &key) != SHARDHEAP_OK) sched_yield();
        while (atomic_load(&full)) sched_yield();
        handed.key = key;
        if (shardheap_receipt_make(pass, &handed.receipt) != SHARDHEAP_OK) return NULL;
        atomic_store(&full, 1);
    }
    return arg;
}

/* This thread's end. In a growing heap it leaves the values where they are, so that further chunks open. */
static void takes_over(shardheap_pass *owner, shardheap_pass *pass, bool grows) {
    pthread_t thread;
    void *done;
    uint64_t room[16], length;
    TRUE(pthread_create(&thread, NULL, hands_over, owner) == 0);
    for (uint64_t n = 0; n < HANDED; n++) {
        while (!atomic_load(&full)) sched_yield();
        IS(shardheap_heed(pass, &handed.receipt), SHARDHEAP_OK);
        if (grows) {
            IS(shardheap_load(pass, handed.key, room, 16, &length), SHARDHEAP_OK);
        } else {
            IS(shardheap_take_value(pass, handed.key, room, 16, &length), SHARDHEAP_OK);
        }
        TRUE(length == 1 && room[0] == n);
        atomic_store(&full, 0);
    }
    TRUE(pthread_join(thread, &done) == 0 && done);
}

static void between_threads(bool grows) {
    shardheap heap = SHARDHEAP_INIT;
    shardheap_pass owner = SHARDHEAP_INIT, pass = SHARDHEAP_INIT;
    if (grows) {
        IS(shardheap_open_growing(&heap, 1, 100, 1, 2, 256), SHARDHEAP_OK);
    } else {
        IS(shardheap_open_for(&heap, SHARDHEAP_WIDE, 1, 100, 1, 2), SHARDHEAP_OK);
    }
    IS(shardheap_take(&heap, &owner), SHARDHEAP_OK);
    IS(shardheap_take(&heap, &pass), SHARDHEAP_OK);
    if (!grows) IS(shardheap_adopt(&owner, 0), SHARDHEAP_OK);
    takes_over(&owner, &pass, grows);
    TRUE(!grows || shardheap_chunks(&heap) > 3);
    IS(shardheap_leave(&owner), SHARDHEAP_OK);
    IS(shardheap_give(&owner), SHARDHEAP_OK);
    IS(shardheap_give(&pass), SHARDHEAP_OK);
    shardheap_close(&heap);
}

int main(void) {
    null_and_empty();
    for (uint32_t layout = SHARDHEAP_WIDE; layout <= SHARDHEAP_TINY; layout++) heeds(layout);
    between_threads(false);
    between_threads(true);
    printf("receipts: %d checks passed\n", checks);
    return 0;
}
