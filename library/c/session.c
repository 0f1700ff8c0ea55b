/* A value is stored by one thread, and got, read and removed by another. */
#include "shardheap.h"
#include <pthread.h>
#include <stdio.h>

static shardheap heap = SHARDHEAP_INIT;
static uint64_t key;

static void *reads(void *arg) {
    shardheap_pass *pass = arg;
    uint64_t words[16], length = 99;
    uint32_t code = shardheap_get(pass, key);
    if (code == SHARDHEAP_OK) code = shardheap_remove(pass, key); /* the hold keeps the value */
    if (code == SHARDHEAP_OK) code = shardheap_read(pass, key, words, 16, &length);
    if (code == SHARDHEAP_OK) code = shardheap_release(pass, key);
    printf("get, remove, read, release: %s\n", shardheap_name(code));
    if (code != SHARDHEAP_OK) return NULL;
    printf("%llu words: %llu %llu\n", (unsigned long long)length, (unsigned long long)words[0],
           (unsigned long long)words[1]);
    code = shardheap_load(pass, key, words, 16, &length);
    printf("load: %s\n", shardheap_name(code));
    return code == SHARDHEAP_GONE ? arg : NULL;
}

int main(void) {
    shardheap_pass owner = SHARDHEAP_INIT, other = SHARDHEAP_INIT;
    uint64_t words[2] = {7, 8};
    pthread_t thread;
    void *done = NULL;
    uint32_t code = shardheap_open_for(&heap, SHARDHEAP_WIDE, 1, 20000, 2, 2);
    if (code == SHARDHEAP_OK) code = shardheap_take(&heap, &owner);
    if (code == SHARDHEAP_OK) code = shardheap_take(&heap, &other);
    if (code == SHARDHEAP_OK) code = shardheap_adopt(&owner, 0);
    if (code == SHARDHEAP_OK) code = shardheap_insert(&owner, words, 2, &key);
    printf("insert: %s\n", shardheap_name(code));
    if (code == SHARDHEAP_OK && pthread_create(&thread, NULL, reads, &other) == 0) pthread_join(thread, &done);
    shardheap_leave(&owner);
    shardheap_give(&owner);
    shardheap_give(&other);
    shardheap_close(&heap);
    return done == NULL;
}
