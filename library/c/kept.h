/* What the tests of walks over keys have in common: keys that are kept, and whether a walk returns them. */
#ifndef KEPT_H
#define KEPT_H

#include "check.h"

#define MOST 400

static uint64_t kept[MOST];
static int count;

/* Values of each length, of which the owner removes each third and another pass others. One of these is held. Then more
   of one word, which are all kept. */
static void keeps(shardheap_pass *owner, shardheap_pass *other, size_t more) {
    static const uint64_t words[16] = {7};
    uint64_t key;
    for (size_t n = 0; n < 90; n++) {
        IS(shardheap_insert(owner, words, n % 3 * 8, &key), SHARDHEAP_OK);
        if (n == 3) IS(shardheap_get(other, key), SHARDHEAP_OK);
        if (n % 3 == 0) IS(shardheap_remove(owner, key), SHARDHEAP_OK);
        else if (n > 45) kept[count++] = key;
        else IS(shardheap_remove(other, key), SHARDHEAP_OK);
    }
    for (size_t n = 0; n < more; n++) {
        IS(shardheap_insert(owner, words, 1, &key), SHARDHEAP_OK);
        kept[count++] = key;
    }
}

/* The call that a walk consists of, on the handle that the walk is over. */
typedef uint32_t next_call(void *handle, uint64_t *place, uint64_t *key);

/* Whether the walk returns each kept key once, and no other; in the order of their places. */
static void each_once(next_call *next, void *handle) {
    int found[MOST] = {0}, all = 0;
    uint64_t place = 0, key, before = 0;
    uint32_t code;
    while ((code = next(handle, &place, &key)) == SHARDHEAP_OK) {
        int n = 0;
        while (n < count && kept[n] != key) n++;
        TRUE(n < count && found[n] == 0);
        TRUE(place > before);
        before = place;
        found[n] = 1;
        all++;
    }
    IS(code, SHARDHEAP_NO_KEY);
    TRUE(all == count && place == before);
    key = 77;
    place = UINT64_MAX;
    IS(next(handle, &place, &key), SHARDHEAP_NO_KEY);
    TRUE(place == UINT64_MAX && key == 77);
}

#endif
