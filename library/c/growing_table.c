/* A table of connections that grows: nobody says how many there will be. Each thread has a pass of its own, and adopts
   no shard. An insert finds a chunk with room, or opens one. It is FULL or NO_SHARD only if the table has as many
   chunks as it may have. */
#include "shardheap.h"
#include <pthread.h>
#include <sched.h>
#include <stdio.h>

enum { THREADS = 4, CONNECTIONS = 5000 };

struct acceptor {
    shardheap_pass pass;
    pthread_t thread;
    uint64_t number, open[CONNECTIONS], count, refused;
    uint32_t code;
};

/* Accepts connections, of which every second is closed again. */
static void *accepts(void *arg) {
    struct acceptor *of = arg;
    for (uint64_t n = 0; n < CONNECTIONS && of->code == SHARDHEAP_OK; n++) {
        uint64_t words[2] = {of->number, n}, key = 0;
        of->code = shardheap_insert(&of->pass, words, 2, &key);
        if (of->code == SHARDHEAP_FULL || of->code == SHARDHEAP_NO_SHARD) {
            of->refused++;
            of->code = SHARDHEAP_OK;
        } else if (of->code == SHARDHEAP_OK && n % 2 == 0) {
            of->open[of->count++] = key;
        } else if (of->code == SHARDHEAP_OK) {
            of->code = shardheap_remove(&of->pass, key);
        }
    }
    return NULL;
}

/* Looks at each connection that stays, and closes it. */
static uint32_t closes(shardheap_pass *pass, const struct acceptor *of) {
    uint64_t words[2], length;
    uint32_t code = SHARDHEAP_OK;
    for (uint64_t n = 0; n < of->count && code == SHARDHEAP_OK; n++)
        code = shardheap_take_value(pass, of->open[n], words, 2, &length);
    return code;
}

/* Brings the pass home. It leaves its shards first, and waits while another pass is in the middle of a free there. */
static uint32_t gives(shardheap_pass *pass) {
    uint32_t code;
    while ((code = shardheap_give(pass)) == SHARDHEAP_WAITING) sched_yield();
    return code;
}

int main(void) {
    static struct acceptor all[THREADS];
    shardheap table = SHARDHEAP_INIT;
    uint64_t open = 0, refused = 0;
    /* four threads insert, and the first chunk has room for 100 connections of two words of each; there may be 64
       chunks, for half a million */
    uint32_t code = shardheap_open_growing(&table, THREADS, 100, 2, THREADS, 64);
    int started = 0;
    for (; started < THREADS && code == SHARDHEAP_OK; started++) {
        all[started].number = (uint64_t)started;
        code = shardheap_take(&table, &all[started].pass);
        if (code != SHARDHEAP_OK) break;
        if (pthread_create(&all[started].thread, NULL, accepts, &all[started]) != 0) return 1;
    }
    for (int n = 0; n < started; n++) {
        pthread_join(all[n].thread, NULL);
        if (code == SHARDHEAP_OK) code = all[n].code;
        open += all[n].count;
        refused += all[n].refused;
    }
    printf("%llu connections are open, in %llu chunks; %llu were refused: %s\n", (unsigned long long)open,
           (unsigned long long)shardheap_chunks(&table), (unsigned long long)refused, shardheap_name(code));
    for (int n = 0; n < started && code == SHARDHEAP_OK; n++) code = closes(&all[0].pass, &all[n]);
    for (int n = 0; n < started && code == SHARDHEAP_OK; n++) code = gives(&all[n].pass);
    shardheap_close(&table);
    return code != SHARDHEAP_OK;
}
