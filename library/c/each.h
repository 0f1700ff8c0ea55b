/* Each call on a handle that all of them refuse with the same code, and leave as it was. */
#ifndef EACH_H
#define EACH_H

#include "check.h"
#include <string.h>

static void each_call_of_a_heap(shardheap *heap, uint32_t refused) {
    shardheap was = *heap, other = SHARDHEAP_INIT;
    shardheap_pass pass = SHARDHEAP_INIT;
    shardheap_page page;
    shardheap_sums sums;
    uint64_t place = 55, key = 77;
    uint32_t layout = 44;
    IS(shardheap_open(heap, SHARDHEAP_TINY, 1, 1, 1), refused);
    IS(shardheap_open_for(heap, SHARDHEAP_TINY, 1, 1, 1, 1), refused);
    IS(shardheap_open_growing(heap, 1, 1, 1, 1, 1), refused);
    IS(shardheap_share(heap, &other), refused);
    IS(shardheap_take(heap, &pass), refused);
    IS(shardheap_gather(heap), refused);
    IS(shardheap_accounts(heap, 0, 0, &page), refused);
    IS(shardheap_totals(heap, &sums), refused);
    IS(shardheap_next_key(heap, &place, &key), refused);
    IS(shardheap_layout_of(heap, &layout), refused);
    TRUE(place == 55 && key == 77 && layout == 44);
    TRUE(shardheap_passes(heap) == 0 && shardheap_chunks(heap) == 0);
    TRUE(shardheap_capacity(heap, 1) == 0 && shardheap_bytes(heap) == 0);
    shardheap_close(heap);
    TRUE(memcmp(heap, &was, sizeof was) == 0);
}

static void each_call_of_a_receipt(shardheap_receipt *receipt, uint32_t refused) {
    shardheap_receipt was = *receipt;
    shardheap ready = SHARDHEAP_INIT;
    shardheap_pass pass = SHARDHEAP_INIT;
    IS(shardheap_open(&ready, SHARDHEAP_TINY, 1, 1, 1), SHARDHEAP_OK);
    IS(shardheap_take(&ready, &pass), SHARDHEAP_OK);
    IS(shardheap_receipt_make(&pass, receipt), refused);
    IS(shardheap_heed(&pass, receipt), refused);
    shardheap_receipt_close(receipt);
    TRUE(memcmp(receipt, &was, sizeof was) == 0);
    IS(shardheap_give(&pass), SHARDHEAP_OK);
    shardheap_close(&ready);
}

static bool is_any(void *context, const shardheap_live_key *met) { return (void)context, met->key != 0; }

static void each_call_of_a_pass(shardheap_pass *pass, uint64_t key, uint32_t refused) {
    shardheap_pass was = *pass;
    shardheap_receipt receipt = SHARDHEAP_INIT;
    shardheap_loaded batch[1] = {{key, 99, 66, {0}}};
    shardheap_live_key live = {66, 55, 44, {0}};
    shardheap_held_key held = {66, 55, 44};
    shardheap_ended ended[3] = {{66, 55, {0}}, {66, 55, {0}}, {66, 55, {0}}};
    uint64_t words[16] = {0}, length = 99, other = 77, place = 44, over[3] = {66, 66, 66};
    uint32_t page = 55;
    IS(shardheap_give(pass), refused);
    IS(shardheap_get(pass, key), refused);
    IS(shardheap_release(pass, key), refused);
    IS(shardheap_remove(pass, key), refused);
    IS(shardheap_read(pass, key, words, 16, &length), refused);
    IS(shardheap_load(pass, key, words, 16, &length), refused);
    IS(shardheap_load_each(pass, batch, 1), refused);
    IS(shardheap_take_value(pass, key, words, 16, &length), refused);
    IS(shardheap_get_ended(pass, key, &ended[0]), refused);
    IS(shardheap_release_ended(pass, key, &ended[1]), refused);
    IS(shardheap_remove_ended(pass, key, &ended[2]), refused);
    IS(shardheap_get_ended_key(pass, key, &over[0]), refused);
    IS(shardheap_release_ended_key(pass, key, &over[1]), refused);
    IS(shardheap_remove_ended_key(pass, key, &over[2]), refused);
    IS(shardheap_receipt_make(pass, &receipt), refused);
    IS(shardheap_heed(pass, &receipt), refused);
    IS(shardheap_pages_left(pass, &other), refused);
    IS(shardheap_slots_out(pass, &other), refused);
    IS(shardheap_next_own_key(pass, &place, &other), refused);
    IS(shardheap_next_live(pass, 0, 1, &live), refused);
    IS(shardheap_next_held(pass, 0, 1, &held), refused);
    IS(shardheap_remove_if(pass, is_any, 0, &other), refused);
    IS(shardheap_adopt(pass, 0), refused);
    IS(shardheap_leave(pass), refused);
    IS(shardheap_leave_idle(pass), refused);
    IS(shardheap_collect(pass), refused);
    IS(shardheap_prepare(pass, 1, &page), refused);
    IS(shardheap_insert(pass, words, 1, &other), refused);
    IS(shardheap_insert_once(pass, words, 1, &other), refused);
    IS(shardheap_pass_close(pass), refused);
    IS(shardheap_pass_lose(pass), refused);
    TRUE(memcmp(pass, &was, sizeof was) == 0);
    TRUE(length == 99 && other == 77 && page == 55 && place == 44 && words[0] == 0);
    TRUE(live.key == 66 && live.behind == 55 && live.length == 44 && live.words[0] == 0);
    TRUE(held.key == 66 && held.behind == 55 && held.held == 44);
    for (int n = 0; n < 3; n++) TRUE(ended[n].key == 0 && ended[n].length == 0 && over[n] == 0);
    TRUE(batch[0].key == key && batch[0].length == 99 && batch[0].code == 66 && batch[0].words[0] == 0);
}

#endif
