/* Pointers of a call that overlap, handles that were not initialised, and the version. */
#include "each.h"

static uint64_t words[17] = {7, 8, 9};

/* A pass that owns the shard of a heap, with a value of three words that it holds. */
static uint64_t opens(shardheap *heap, shardheap_pass *pass) {
    uint64_t key;
    IS(shardheap_open(heap, SHARDHEAP_WIDE, 1, 1, 1), SHARDHEAP_OK);
    IS(shardheap_take(heap, pass), SHARDHEAP_OK);
    IS(shardheap_adopt(pass, 0), SHARDHEAP_OK);
    IS(shardheap_insert(pass, words, 3, &key), SHARDHEAP_OK);
    IS(shardheap_get(pass, key), SHARDHEAP_OK);
    return key;
}

static void closes(shardheap *heap, shardheap_pass *pass, uint64_t key) {
    IS(shardheap_release(pass, key), SHARDHEAP_OK);
    IS(shardheap_leave(pass), SHARDHEAP_OK);
    IS(shardheap_give(pass), SHARDHEAP_OK);
    shardheap_close(heap);
}

/* A length anywhere in the room is refused, and one right behind or before it is not. */
static void lengths(shardheap_pass *pass, uint64_t key) {
    uint64_t room[18], was[18];
    for (int n = 0; n < 18; n++) was[n] = room[n] = 100;
    for (int n = 1; n < 17; n++) {
        IS(shardheap_read(pass, key, room + 1, 16, &room[n]), SHARDHEAP_OVERLAP);
        IS(shardheap_load(pass, key, room + 1, 16, &room[n]), SHARDHEAP_OVERLAP);
    }
    IS(shardheap_read(pass, key, room + 1, 16, (uint64_t *)(void *)((char *)room + 1)), SHARDHEAP_OVERLAP);
    IS(shardheap_load(pass, key, room + 1, 16, (uint64_t *)(void *)((char *)(room + 17) - 1)), SHARDHEAP_OVERLAP);
    TRUE(memcmp(room, was, sizeof room) == 0);
    IS(shardheap_read(pass, key, room + 1, 16, &room[17]), SHARDHEAP_OK);
    TRUE(room[17] == 3 && room[1] == 7 && room[3] == 9 && room[4] == 100);
    IS(shardheap_load(pass, key, room + 1, 16, &room[0]), SHARDHEAP_OK);
    TRUE(room[0] == 3 && room[1] == 7);
    IS(shardheap_load(pass, key, room, 0, &room[0]), SHARDHEAP_SHORT);
    TRUE(room[0] == 3);
}

/* A key anywhere in the words is refused, and nothing is stored. */
static void keys(shardheap_pass *pass) {
    uint64_t was[17];
    memcpy(was, words, sizeof was);
    for (int n = 0; n < 16; n++) {
        IS(shardheap_insert(pass, words, 16, &words[n]), SHARDHEAP_OVERLAP);
        IS(shardheap_insert_once(pass, words, 16, &words[n]), SHARDHEAP_OVERLAP);
    }
    TRUE(memcmp(words, was, sizeof was) == 0);
    IS(shardheap_insert(pass, words, 16, &words[16]), SHARDHEAP_OK);
    IS(shardheap_remove(pass, words[16]), SHARDHEAP_OK);
    IS(shardheap_insert(pass, words, 0, &words[0]), SHARDHEAP_OK);
    IS(shardheap_remove(pass, words[0]), SHARDHEAP_OK);
    memcpy(words, was, sizeof was);
}

/* What leads into a handle is refused, and the handle serves on. */
static void into_handles(shardheap *heap, shardheap_pass *pass, uint64_t key) {
    uint64_t room[16], length = 99;
    void *bytes = pass, *last = (char *)bytes + sizeof *pass - 4;
    shardheap_pass was = *pass;
    IS(shardheap_read(pass, key, bytes, 4, &length), SHARDHEAP_OVERLAP);
    IS(shardheap_read(pass, key, room, 16, bytes), SHARDHEAP_OVERLAP);
    IS(shardheap_load(pass, key, last, 4, &length), SHARDHEAP_OVERLAP);
    IS(shardheap_load(pass, key, 0, 0, last), SHARDHEAP_OVERLAP);
    IS(shardheap_insert(pass, bytes, 4, &length), SHARDHEAP_OVERLAP);
    IS(shardheap_insert_once(pass, words, 1, bytes), SHARDHEAP_OVERLAP);
    IS(shardheap_insert_once(pass, 0, 0, bytes), SHARDHEAP_OVERLAP);
    IS(shardheap_prepare(pass, 1, bytes), SHARDHEAP_OVERLAP);
    IS(shardheap_prepare(pass, 1, last), SHARDHEAP_OVERLAP);
    IS(shardheap_take(heap, (void *)heap), SHARDHEAP_OVERLAP);
    IS(shardheap_take(heap, (void *)((char *)heap + 8)), SHARDHEAP_OVERLAP);
    IS(shardheap_accounts(heap, 0, 0, (void *)heap), SHARDHEAP_OVERLAP);
    IS(shardheap_totals(heap, (void *)((char *)heap - 8)), SHARDHEAP_OVERLAP);
    IS(shardheap_layout_of(heap, (void *)heap), SHARDHEAP_OVERLAP);
    IS(shardheap_take_value(pass, key, room, 16, bytes), SHARDHEAP_OVERLAP);
    IS(shardheap_take_value(pass, key, last, 4, &length), SHARDHEAP_OVERLAP);
    IS(shardheap_load_each(pass, bytes, 1), SHARDHEAP_OVERLAP);
    IS(shardheap_load_each(pass, (void *)((char *)bytes - 8), 1), SHARDHEAP_OVERLAP);
    IS(shardheap_receipt_make(pass, bytes), SHARDHEAP_OVERLAP);
    IS(shardheap_heed(pass, last), SHARDHEAP_OVERLAP);
    IS(shardheap_pages_left(pass, bytes), SHARDHEAP_OVERLAP);
    IS(shardheap_slots_out(pass, last), SHARDHEAP_OVERLAP);
    IS(shardheap_next_own_key(pass, &length, &length), SHARDHEAP_OVERLAP);
    IS(shardheap_next_own_key(pass, bytes, &length), SHARDHEAP_OVERLAP);
    IS(shardheap_next_own_key(pass, &length, last), SHARDHEAP_OVERLAP);
    IS(shardheap_next_live(pass, 0, 1, bytes), SHARDHEAP_OVERLAP);
    IS(shardheap_next_held(pass, 0, 1, last), SHARDHEAP_OVERLAP);
    IS(shardheap_remove_if(pass, is_any, 0, last), SHARDHEAP_OVERLAP);
    IS(shardheap_next_key(heap, &length, &length), SHARDHEAP_OVERLAP);
    IS(shardheap_next_key(heap, (void *)heap, &length), SHARDHEAP_OVERLAP);
    IS(shardheap_next_key(heap, &length, (void *)((char *)heap + 24)), SHARDHEAP_OVERLAP);
    TRUE(length == 99 && memcmp(pass, &was, sizeof was) == 0);
    IS(shardheap_load(pass, key, room, 16, &length), SHARDHEAP_OK);
    TRUE(shardheap_passes(heap) == 1);
}

static void tags(void) {
    uint64_t both[2] = {5, 6};
    IS(shardheap_untag(1, &both[0], (void *)&both[0]), SHARDHEAP_OVERLAP);
    IS(shardheap_untag(1, &both[0], (void *)((char *)&both[0] + 4)), SHARDHEAP_OVERLAP);
    TRUE(both[0] == 5);
    IS(shardheap_untag(1, &both[0], (void *)&both[1]), SHARDHEAP_OK);
    TRUE(both[0] == 1);
}

static void overlaps(void) {
    struct {
        uint64_t before;
        shardheap heap;
        shardheap_pass pass;
    } all = {0, SHARDHEAP_INIT, SHARDHEAP_INIT};
    uint64_t key = opens(&all.heap, &all.pass);
    lengths(&all.pass, key);
    keys(&all.pass);
    into_handles(&all.heap, &all.pass, key);
    tags();
    closes(&all.heap, &all.pass, key);
}

/* Handles of such bytes, as the stack may have them. */
static void no_handles(int byte) {
    shardheap heap, ready = SHARDHEAP_INIT;
    shardheap_pass pass;
    shardheap_receipt receipt;
    memset(&heap, byte, sizeof heap);
    memset(&pass, byte, sizeof pass);
    memset(&receipt, byte, sizeof receipt);
    each_call_of_a_receipt(&receipt, SHARDHEAP_NO_HANDLE);
    each_call_of_a_heap(&heap, SHARDHEAP_NO_HANDLE);
    each_call_of_a_pass(&pass, 4096, SHARDHEAP_NO_HANDLE);
    IS(shardheap_open(&ready, SHARDHEAP_TINY, 1, 1, 1), SHARDHEAP_OK);
    IS(shardheap_take(&ready, &pass), SHARDHEAP_NO_HANDLE);
    shardheap_close(&ready);
}

/* The bytes of a handle of which only some were zeroed: they are no empty handle, or one. */
static void partly_zeroed(void) {
    shardheap_pass pass;
    memset(&pass, 0, sizeof pass);
    pass.at = &pass;
    each_call_of_a_pass(&pass, 4096, SHARDHEAP_NO_HANDLE);
    pass.at = 0;
    pass.full = true;
    each_call_of_a_pass(&pass, 4096, SHARDHEAP_NO_HANDLE);
    pass.full = false;
    IS(shardheap_get(&pass, 4096), SHARDHEAP_EMPTY);
}

/* Zeroed handles serve as those of SHARDHEAP_INIT do. */
static void zeroed(void) {
    shardheap *heap = calloc(1, sizeof *heap);
    shardheap_pass *pass = calloc(1, sizeof *pass);
    TRUE(heap && pass);
    IS(shardheap_take(heap, pass), SHARDHEAP_EMPTY);
    IS(shardheap_get(pass, 4096), SHARDHEAP_EMPTY);
    IS(shardheap_leave(pass), SHARDHEAP_EMPTY);
    IS(shardheap_open(heap, SHARDHEAP_WIDE, 0, 1, 1), SHARDHEAP_BAD_SHAPE);
    closes(heap, pass, opens(heap, pass));
    closes(heap, pass, opens(heap, pass));
    free(heap);
    free(pass);
}

int main(void) {
    overlaps();
    no_handles(0x01);
    no_handles(0xa5);
    no_handles(0xff);
    partly_zeroed();
    zeroed();
    TRUE(shardheap_version() == SHARDHEAP_VERSION_MAJOR * 1000 + SHARDHEAP_VERSION_MINOR);
    TRUE(strcmp(shardheap_name(SHARDHEAP_OVERLAP), "Overlap") == 0);
    TRUE(strcmp(shardheap_name(SHARDHEAP_NO_HANDLE), "NoHandle") == 0);
    TRUE(strcmp(shardheap_name(SHARDHEAP_OTHER_HEAP), "OtherHeap") == 0);
    TRUE(strcmp(shardheap_name(SHARDHEAP_NO_KEY), "NoKey") == 0);
    TRUE(strcmp(shardheap_name(SHARDHEAP_NO_PLACE), "NoPlace") == 0);
    TRUE(strcmp(shardheap_name(SHARDHEAP_NO_PLACE + 1), "unknown") == 0);
    printf("pointers: %d checks passed\n", checks);
    return 0;
}
