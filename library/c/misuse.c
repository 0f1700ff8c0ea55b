/* Every refusal and every misuse that can be recognised, in one thread. */
#include "check.h"
#include <string.h>

static uint64_t words[20] = {7, 8, 9};

static void null_pointers(void) {
    shardheap heap = SHARDHEAP_INIT;
    shardheap_pass pass = SHARDHEAP_INIT;
    uint64_t room[16], key, length;
    uint32_t page;
    IS(shardheap_open(0, SHARDHEAP_WIDE, 1, 1, 1), SHARDHEAP_NULL);
    IS(shardheap_open_for(0, SHARDHEAP_WIDE, 1, 1, 1, 1), SHARDHEAP_NULL);
    IS(shardheap_take(0, &pass), SHARDHEAP_NULL);
    IS(shardheap_take(&heap, 0), SHARDHEAP_NULL);
    IS(shardheap_give(0), SHARDHEAP_NULL);
    IS(shardheap_get(0, 1), SHARDHEAP_NULL);
    IS(shardheap_release(0, 1), SHARDHEAP_NULL);
    IS(shardheap_remove(0, 1), SHARDHEAP_NULL);
    IS(shardheap_read(0, 1, room, 16, &length), SHARDHEAP_NULL);
    IS(shardheap_read(&pass, 1, 0, 16, &length), SHARDHEAP_NULL);
    IS(shardheap_read(&pass, 1, room, 16, 0), SHARDHEAP_NULL);
    IS(shardheap_load(0, 1, room, 16, &length), SHARDHEAP_NULL);
    IS(shardheap_load(&pass, 1, 0, 16, &length), SHARDHEAP_NULL);
    IS(shardheap_load(&pass, 1, room, 16, 0), SHARDHEAP_NULL);
    IS(shardheap_adopt(0, 0), SHARDHEAP_NULL);
    IS(shardheap_leave(0), SHARDHEAP_NULL);
    IS(shardheap_leave_idle(0), SHARDHEAP_NULL);
    IS(shardheap_collect(0), SHARDHEAP_NULL);
    IS(shardheap_prepare(0, 1, &page), SHARDHEAP_NULL);
    IS(shardheap_prepare(&pass, 1, 0), SHARDHEAP_NULL);
    IS(shardheap_insert(0, words, 1, &key), SHARDHEAP_NULL);
    IS(shardheap_insert(&pass, 0, 1, &key), SHARDHEAP_NULL);
    IS(shardheap_insert(&pass, words, 1, 0), SHARDHEAP_NULL);
    IS(shardheap_insert_once(0, words, 1, &key), SHARDHEAP_NULL);
    IS(shardheap_insert_once(&pass, 0, 1, &key), SHARDHEAP_NULL);
    IS(shardheap_insert_once(&pass, words, 1, 0), SHARDHEAP_NULL);
    TRUE(shardheap_passes(0) == 0 && shardheap_capacity(0, 1) == 0 && shardheap_bytes(0) == 0);
    IS(shardheap_layout_of(0, &page), SHARDHEAP_NULL);
    IS(shardheap_layout_of(&heap, 0), SHARDHEAP_NULL);
    shardheap_close(0);
    IS(shardheap_share(0, &heap), SHARDHEAP_NULL);
    IS(shardheap_share(&heap, 0), SHARDHEAP_NULL);
    IS(shardheap_pass_close(0), SHARDHEAP_NULL);
    IS(shardheap_pass_lose(0), SHARDHEAP_NULL);
}

static void empty_handles(void) {
    shardheap heap = SHARDHEAP_INIT;
    shardheap_pass pass = SHARDHEAP_INIT;
    uint64_t room[16] = {0}, key = 77, length = 99;
    uint32_t page = 55;
    IS(shardheap_take(&heap, &pass), SHARDHEAP_EMPTY);
    IS(shardheap_give(&pass), SHARDHEAP_EMPTY);
    IS(shardheap_get(&pass, 4096), SHARDHEAP_EMPTY);
    IS(shardheap_release(&pass, 4096), SHARDHEAP_EMPTY);
    IS(shardheap_remove(&pass, 4096), SHARDHEAP_EMPTY);
    IS(shardheap_read(&pass, 4096, room, 16, &length), SHARDHEAP_EMPTY);
    IS(shardheap_load(&pass, 4096, room, 16, &length), SHARDHEAP_EMPTY);
    IS(shardheap_adopt(&pass, 0), SHARDHEAP_EMPTY);
    IS(shardheap_leave(&pass), SHARDHEAP_EMPTY);
    IS(shardheap_leave_idle(&pass), SHARDHEAP_EMPTY);
    IS(shardheap_collect(&pass), SHARDHEAP_EMPTY);
    IS(shardheap_prepare(&pass, 1, &page), SHARDHEAP_EMPTY);
    IS(shardheap_insert(&pass, words, 1, &key), SHARDHEAP_EMPTY);
    IS(shardheap_insert_once(&pass, words, 1, &key), SHARDHEAP_EMPTY);
    IS(shardheap_layout_of(&heap, &page), SHARDHEAP_EMPTY);
    TRUE(key == 77 && length == 99 && page == 55 && room[0] == 0);
    TRUE(shardheap_passes(&heap) == 0 && shardheap_capacity(&heap, 1) == 0 && shardheap_bytes(&heap) == 0);
    shardheap other = SHARDHEAP_INIT;
    IS(shardheap_share(&heap, &other), SHARDHEAP_EMPTY);
    IS(shardheap_share(&heap, &heap), SHARDHEAP_OVERLAP);
    shardheap_close(&heap);
    IS(shardheap_pass_close(&pass), SHARDHEAP_EMPTY);
    IS(shardheap_pass_lose(&pass), SHARDHEAP_EMPTY);
}

static void shapes(void) {
    shardheap heap = SHARDHEAP_INIT;
    IS(shardheap_open(&heap, 4, 1, 1, 1), SHARDHEAP_BAD_LAYOUT);
    IS(shardheap_open(&heap, UINT32_MAX, 1, 1, 1), SHARDHEAP_BAD_LAYOUT);
    IS(shardheap_open_for(&heap, 4, 1, 1, 1, 1), SHARDHEAP_BAD_LAYOUT);
    for (uint32_t layout = 0; layout < 4; layout++) {
        IS(shardheap_open(&heap, layout, 0, 1, 1), SHARDHEAP_BAD_SHAPE);
        IS(shardheap_open(&heap, layout, 1, 0, 1), SHARDHEAP_BAD_SHAPE);
        IS(shardheap_open(&heap, layout, 1, 1, 0), SHARDHEAP_BAD_SHAPE);
        IS(shardheap_open(&heap, layout, 1, 1, 65), SHARDHEAP_BAD_SHAPE);
        IS(shardheap_open(&heap, layout, UINT32_MAX, UINT32_MAX, UINT32_MAX), SHARDHEAP_BAD_SHAPE);
        IS(shardheap_open_for(&heap, layout, 1, 1, 17, 1), SHARDHEAP_BAD_SHAPE);
        IS(shardheap_open_for(&heap, layout, 1, UINT64_MAX, 1, 1), SHARDHEAP_BAD_SHAPE);
        IS(shardheap_open(&heap, layout, 1, 1, 64), SHARDHEAP_OK);
        IS(shardheap_open(&heap, layout, 1, 1, 64), SHARDHEAP_OCCUPIED);
        IS(shardheap_open_for(&heap, layout, 1, 1, 1, 1), SHARDHEAP_OCCUPIED);
        TRUE(shardheap_passes(&heap) == 64);
        shardheap_close(&heap);
        IS(shardheap_open_for(&heap, layout, 1, 384, 1, 3), SHARDHEAP_OK);
        TRUE(shardheap_passes(&heap) == 3);
        /* 8 pages of 195 words, with slots for 48, 24 and 3 values, and two words of the shard */
        TRUE(shardheap_capacity(&heap, 0) == 384 && shardheap_capacity(&heap, 1) == 384);
        TRUE(shardheap_capacity(&heap, 2) == 192 && shardheap_capacity(&heap, 16) == 24);
        TRUE(shardheap_capacity(&heap, 17) == 0 && shardheap_bytes(&heap) == (8 * 195 + 2) * 8);
        uint32_t found = 99;
        IS(shardheap_layout_of(&heap, &found), SHARDHEAP_OK);
        TRUE(found == layout);
        shardheap_close(&heap);
    }
    IS(shardheap_open(&heap, SHARDHEAP_TINY, 4, 2, 1), SHARDHEAP_OK);
    shardheap_close(&heap);
    IS(shardheap_open(&heap, SHARDHEAP_TINY, 5, 2, 1), SHARDHEAP_BAD_SHAPE);
    IS(shardheap_open(&heap, SHARDHEAP_TINY, 4, 3, 1), SHARDHEAP_BAD_SHAPE);
    IS(shardheap_open(&heap, SHARDHEAP_TAGGED, 65, 1, 1), SHARDHEAP_BAD_SHAPE);
    IS(shardheap_open(&heap, SHARDHEAP_WIDE, 257, 1, 1), SHARDHEAP_BAD_SHAPE);
    IS(shardheap_open(&heap, SHARDHEAP_DEEP, 65, 1, 1), SHARDHEAP_BAD_SHAPE);
}

/* In layout tiny a key may have 4 holds; in the others a pass has its 16 first. */
static void keys(shardheap_pass *p, uint32_t layout, uint64_t key, uint64_t empty) {
    int most = layout == SHARDHEAP_TINY ? 4 : 16;
    uint32_t beyond = layout == SHARDHEAP_TINY ? SHARDHEAP_CROWDED : SHARDHEAP_HOLDS_FULL;
    uint64_t room[16] = {0}, length = 99;
    IS(shardheap_get(p, 0), SHARDHEAP_BAD_KEY);
    IS(shardheap_get(p, UINT64_MAX), SHARDHEAP_BAD_KEY);
    IS(shardheap_load(p, UINT64_MAX, room, 16, &length), SHARDHEAP_BAD_KEY);
    IS(shardheap_remove(p, UINT64_MAX), SHARDHEAP_BAD_KEY);
    IS(shardheap_get(p, key + 1), SHARDHEAP_GONE); /* the next slot, which nothing was put in yet */
    IS(shardheap_load(p, key + 1, room, 16, &length), SHARDHEAP_GONE);
    IS(shardheap_read(p, key, room, 16, &length), SHARDHEAP_NOT_HELD);
    IS(shardheap_release(p, key), SHARDHEAP_NOT_HELD);
    TRUE(length == 99);
    IS(shardheap_get(p, key), SHARDHEAP_OK);
    IS(shardheap_read(p, key, room, 2, &length), SHARDHEAP_SHORT);
    TRUE(length == 3 && room[0] == 0);
    IS(shardheap_read(p, key, 0, 0, &length), SHARDHEAP_SHORT);
    IS(shardheap_read(p, key, room, 3, &length), SHARDHEAP_OK);
    TRUE(length == 3 && room[0] == 7 && room[1] == 8 && room[2] == 9 && room[3] == 0);
    for (int n = 1; n < most; n++) IS(shardheap_get(p, key), SHARDHEAP_OK);
    IS(shardheap_get(p, key), beyond);
    /* a load needs no room for a hold, except of a key that was not issued: it goes on to a get */
    room[0] = 0;
    IS(shardheap_load(p, key, room, 16, &length), SHARDHEAP_OK);
    TRUE(length == 3 && room[0] == 7 && room[3] == 0);
    length = 99;
    IS(shardheap_load(p, key + 1, room, 16, &length), most == 16 ? SHARDHEAP_HOLDS_FULL : SHARDHEAP_GONE);
    TRUE(length == 99 && room[0] == 7);
    for (int n = 0; n < most; n++) IS(shardheap_release(p, key), SHARDHEAP_OK);
    IS(shardheap_release(p, key), SHARDHEAP_NOT_HELD);
    length = 0;
    room[0] = 0;
    IS(shardheap_load(p, key, room, 2, &length), SHARDHEAP_SHORT);
    TRUE(length == 3 && room[0] == 0);
    IS(shardheap_load(p, key, room, 16, &length), SHARDHEAP_OK);
    TRUE(length == 3 && room[0] == 7);
    IS(shardheap_release(p, key), SHARDHEAP_NOT_HELD);
    IS(shardheap_load(p, empty, 0, 0, &length), SHARDHEAP_OK);
    TRUE(length == 0);
}

static void removed_while_held(shardheap_pass *one, shardheap_pass *two, uint64_t key) {
    uint64_t room[16], length;
    IS(shardheap_get(two, key), SHARDHEAP_OK);
    IS(shardheap_remove(one, key), SHARDHEAP_OK);
    IS(shardheap_remove(one, key), SHARDHEAP_GONE);
    IS(shardheap_remove(two, key), SHARDHEAP_GONE);
    IS(shardheap_get(one, key), SHARDHEAP_GONE);
    IS(shardheap_load(two, key, room, 16, &length), SHARDHEAP_GONE);
    IS(shardheap_read(two, key, room, 16, &length), SHARDHEAP_OK);
    TRUE(length == 3 && room[2] == 9);
    IS(shardheap_release(two, key), SHARDHEAP_OK);
    IS(shardheap_read(two, key, room, 16, &length), SHARDHEAP_NOT_HELD);
}

static void owners(shardheap_pass *one, shardheap_pass *two, uint64_t *key, uint64_t *empty) {
    uint32_t page = 55;
    *key = 77;
    IS(shardheap_insert(one, words, 3, key), SHARDHEAP_NO_SHARD);
    IS(shardheap_insert_once(one, words, 3, key), SHARDHEAP_NO_SHARD);
    IS(shardheap_prepare(one, 3, &page), SHARDHEAP_NO_SHARD);
    IS(shardheap_collect(one), SHARDHEAP_NO_SHARD);
    IS(shardheap_leave(one), SHARDHEAP_NO_SHARD);
    IS(shardheap_leave_idle(one), SHARDHEAP_NO_SHARD);
    IS(shardheap_adopt(one, 2), SHARDHEAP_NO_SHARD);
    IS(shardheap_adopt(one, UINT64_MAX), SHARDHEAP_NO_SHARD);
    IS(shardheap_adopt(one, 0), SHARDHEAP_OK);
    IS(shardheap_adopt(one, 1), SHARDHEAP_TAKEN);
    IS(shardheap_adopt(two, 0), SHARDHEAP_TAKEN);
    IS(shardheap_give(one), SHARDHEAP_OWNS);
    IS(shardheap_insert(one, words, 17, key), SHARDHEAP_TOO_LONG);
    IS(shardheap_insert_once(one, words, 17, key), SHARDHEAP_TOO_LONG);
    IS(shardheap_prepare(one, 17, &page), SHARDHEAP_TOO_LONG);
    TRUE(*key == 77 && page == 55);
    IS(shardheap_prepare(one, 3, &page), SHARDHEAP_OK);
    TRUE(page == 0);
    IS(shardheap_insert(one, words, 3, key), SHARDHEAP_OK);
    TRUE(*key != 77);
    IS(shardheap_insert(one, 0, 0, empty), SHARDHEAP_OK);
    TRUE(*empty != *key);
}

static void hands(shardheap *heap, shardheap_pass *one, shardheap_pass *two) {
    uint64_t last = 0, key = 77;
    uint32_t code, held = 0, page = 55;
    while ((code = shardheap_insert(one, words, 16, &key)) == SHARDHEAP_OK) last = key, held++;
    IS(code, SHARDHEAP_FULL);
    IS(shardheap_insert_once(one, words, 16, &key), SHARDHEAP_FULL);
    IS(shardheap_prepare(one, 1, &page), SHARDHEAP_FULL);
    TRUE(held > 0 && key == last && page == 55);
    IS(shardheap_leave(one), SHARDHEAP_OK);
    IS(shardheap_insert(one, words, 1, &key), SHARDHEAP_NO_SHARD);
    IS(shardheap_adopt(two, 0), SHARDHEAP_OK);
    IS(shardheap_remove(one, last), SHARDHEAP_OK);
    IS(shardheap_insert(two, words, 16, &last), SHARDHEAP_OK);
    IS(shardheap_leave_idle(two), SHARDHEAP_OK);
    /* the passes keep the heap, and a handle may be closed twice and used again */
    shardheap_close(heap);
    shardheap_close(heap);
    IS(shardheap_get(one, last), SHARDHEAP_OK);
    IS(shardheap_give(one), SHARDHEAP_OK);
    IS(shardheap_give(one), SHARDHEAP_EMPTY);
    IS(shardheap_get(one, last), SHARDHEAP_EMPTY);
    IS(shardheap_remove(two, last), SHARDHEAP_OK);
    IS(shardheap_pass_close(two), SHARDHEAP_OK);
    TRUE(!two->full && two->at == 0);
    IS(shardheap_get(two, last), SHARDHEAP_EMPTY);
    IS(shardheap_pass_close(two), SHARDHEAP_EMPTY);
}

/* A second handle of the heap serves as the first does, and keeps the heap. A pass that owns a shard is not closed, and
   one that is lost never comes home. */
static void shared_and_lost(uint32_t layout) {
    shardheap heap = SHARDHEAP_INIT, other = SHARDHEAP_INIT;
    shardheap_pass one = SHARDHEAP_INIT, two = SHARDHEAP_INIT;
    IS(shardheap_open(&heap, layout, 2, 1, 2), SHARDHEAP_OK);
    IS(shardheap_share(&heap, &heap), SHARDHEAP_OVERLAP);
    IS(shardheap_share(&heap, &other), SHARDHEAP_OK);
    IS(shardheap_share(&heap, &other), SHARDHEAP_OCCUPIED);
    TRUE(shardheap_passes(&other) == 2);
    shardheap_close(&heap);
    IS(shardheap_take(&other, &one), SHARDHEAP_OK);
    IS(shardheap_take(&other, &two), SHARDHEAP_OK);
    IS(shardheap_adopt(&one, 0), SHARDHEAP_OK);
    IS(shardheap_pass_close(&one), SHARDHEAP_OWNS);
    TRUE(one.full);
    IS(shardheap_pass_lose(&one), SHARDHEAP_OK);
    TRUE(!one.full && one.at == 0);
    IS(shardheap_adopt(&two, 0), SHARDHEAP_TAKEN);
    IS(shardheap_take(&other, &one), SHARDHEAP_NO_PASS);
    IS(shardheap_pass_close(&two), SHARDHEAP_OK);
    IS(shardheap_gather(&other), SHARDHEAP_AWAY);
    IS(shardheap_take(&other, &two), SHARDHEAP_OK);
    IS(shardheap_take(&other, &one), SHARDHEAP_NO_PASS);
    IS(shardheap_give(&two), SHARDHEAP_OK);
    shardheap_close(&other);
}

/* A pass that owns nothing does not come home either once it is lost, and its hold stays. */
static void lost_with_its_hold(uint32_t layout) {
    shardheap heap = SHARDHEAP_INIT;
    shardheap_pass owner = SHARDHEAP_INIT, lost = SHARDHEAP_INIT;
    uint64_t key;
    IS(shardheap_open(&heap, layout, 1, 1, 2), SHARDHEAP_OK);
    IS(shardheap_take(&heap, &owner), SHARDHEAP_OK);
    IS(shardheap_take(&heap, &lost), SHARDHEAP_OK);
    IS(shardheap_adopt(&owner, 0), SHARDHEAP_OK);
    IS(shardheap_insert(&owner, words, 1, &key), SHARDHEAP_OK);
    IS(shardheap_get(&lost, key), SHARDHEAP_OK);
    IS(shardheap_pass_lose(&lost), SHARDHEAP_OK);
    IS(shardheap_take(&heap, &lost), SHARDHEAP_NO_PASS);
    IS(shardheap_leave(&owner), SHARDHEAP_OK);
    IS(shardheap_give(&owner), SHARDHEAP_OK);
    IS(shardheap_gather(&heap), SHARDHEAP_AWAY);
    shardheap_close(&heap);
}

static void calls_of(uint32_t layout) {
    shardheap heap = SHARDHEAP_INIT;
    shardheap_pass one = SHARDHEAP_INIT, two = SHARDHEAP_INIT, three = SHARDHEAP_INIT;
    uint64_t key, empty;
    IS(shardheap_open(&heap, layout, 2, 1, 2), SHARDHEAP_OK);
    IS(shardheap_take(&heap, &one), SHARDHEAP_OK);
    IS(shardheap_take(&heap, &one), SHARDHEAP_OCCUPIED);
    IS(shardheap_take(&heap, &two), SHARDHEAP_OK);
    IS(shardheap_take(&heap, &three), SHARDHEAP_NO_PASS);
    IS(shardheap_give(&two), SHARDHEAP_OK);
    IS(shardheap_take(&heap, &three), SHARDHEAP_OK);
    IS(shardheap_give(&three), SHARDHEAP_OK);
    IS(shardheap_take(&heap, &two), SHARDHEAP_OK);
    owners(&one, &two, &key, &empty);
    keys(&one, layout, key, empty);
    keys(&two, layout, key, empty);
    removed_while_held(&one, &two, key);
    hands(&heap, &one, &two);
}

/* The keys of one heap name nothing in another, or something else: each is recognised by its own words. */
static void two_heaps(void) {
    shardheap heaps[2] = {SHARDHEAP_INIT, SHARDHEAP_INIT};
    shardheap_pass passes[2] = {SHARDHEAP_INIT, SHARDHEAP_INIT};
    uint64_t keys_of[2], room[16], length;
    for (uint64_t i = 0; i < 2; i++) {
        IS(shardheap_open(&heaps[i], SHARDHEAP_WIDE, 1, 1, 1), SHARDHEAP_OK);
        IS(shardheap_take(&heaps[i], &passes[i]), SHARDHEAP_OK);
        IS(shardheap_adopt(&passes[i], 0), SHARDHEAP_OK);
        IS(shardheap_insert(&passes[i], &i, 1, &keys_of[i]), SHARDHEAP_OK);
    }
    IS(shardheap_remove(&passes[0], keys_of[0]), SHARDHEAP_OK);
    IS(shardheap_load(&passes[0], keys_of[1], room, 16, &length), SHARDHEAP_GONE);
    IS(shardheap_load(&passes[1], keys_of[1], room, 16, &length), SHARDHEAP_OK);
    TRUE(length == 1 && room[0] == 1);
    for (int i = 0; i < 2; i++) {
        IS(shardheap_leave(&passes[i]), SHARDHEAP_OK);
        IS(shardheap_give(&passes[i]), SHARDHEAP_OK);
        shardheap_close(&heaps[i]);
    }
}

int main(void) {
    null_pointers();
    empty_handles();
    shapes();
    for (uint32_t layout = 0; layout < 4; layout++) {
        calls_of(layout);
        shared_and_lost(layout);
        lost_with_its_hold(layout);
    }
    two_heaps();
    TRUE(strcmp(shardheap_name(SHARDHEAP_GONE), "Gone") == 0);
    TRUE(strcmp(shardheap_name(SHARDHEAP_OWNS), "Owns") == 0);
    TRUE(strcmp(shardheap_name(13), "unknown") == 0 && strcmp(shardheap_name(1000), "unknown") == 0);
    printf("misuse: %d checks passed\n", checks);
    return 0;
}
