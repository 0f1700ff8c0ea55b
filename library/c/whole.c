/* A heap as a whole: with a pass away, with all at home, and after they were joined; and tags. */
#include "check.h"

static uint64_t words[3] = {7, 8, 9};

static void null_and_empty(void) {
    shardheap heap = SHARDHEAP_INIT;
    shardheap_page page = {9, 9, 9, 9, 9, 9};
    shardheap_sums sums = {9, 9, 9, 9, 9, 9};
    IS(shardheap_gather(0), SHARDHEAP_NULL);
    IS(shardheap_accounts(0, 0, 0, &page), SHARDHEAP_NULL);
    IS(shardheap_accounts(&heap, 0, 0, 0), SHARDHEAP_NULL);
    IS(shardheap_totals(0, &sums), SHARDHEAP_NULL);
    IS(shardheap_totals(&heap, 0), SHARDHEAP_NULL);
    IS(shardheap_gather(&heap), SHARDHEAP_EMPTY);
    IS(shardheap_accounts(&heap, 0, 0, &page), SHARDHEAP_EMPTY);
    IS(shardheap_totals(&heap, &sums), SHARDHEAP_EMPTY);
    TRUE(page.live == 9 && sums.live == 9);
}

/* Stores three values of a word, and removes the second. */
static void three_values(shardheap_pass *pass) {
    uint64_t key[3];
    IS(shardheap_adopt(pass, 1), SHARDHEAP_OK);
    for (int i = 0; i < 3; i++) IS(shardheap_insert(pass, words + i, 1, &key[i]), SHARDHEAP_OK);
    IS(shardheap_remove(pass, key[1]), SHARDHEAP_OK);
    IS(shardheap_leave(pass), SHARDHEAP_OK);
}

static void missed(shardheap *heap) {
    shardheap_page page = {9, 9, 9, 9, 9, 9};
    shardheap_sums sums = {9, 9, 9, 9, 9, 9};
    IS(shardheap_gather(heap), SHARDHEAP_AWAY);
    IS(shardheap_accounts(heap, 1, 0, &page), SHARDHEAP_AWAY);
    IS(shardheap_totals(heap, &sums), SHARDHEAP_AWAY);
    TRUE(page.live == 9 && sums.live == 9);
}

static void told(shardheap *heap) {
    shardheap_page page = {9, 9, 9, 9, 9, 9};
    shardheap_sums sums = {9, 9, 9, 9, 9, 9};
    IS(shardheap_accounts(heap, 1, 0, &page), SHARDHEAP_OK);
    TRUE(page.used == 1 && page.size_class == 0);
    TRUE(page.live == 2 && page.marked == 0 && page.retired == 0 && page.queued == 46);
    IS(shardheap_accounts(heap, 0, 7, &page), SHARDHEAP_OK);
    TRUE(page.used == 0 && page.size_class == 0 && page.live == 0 && page.queued == 0);
    IS(shardheap_accounts(heap, 2, 0, &page), SHARDHEAP_NO_PAGE);
    IS(shardheap_accounts(heap, 0, 8, &page), SHARDHEAP_NO_PAGE);
    IS(shardheap_totals(heap, &sums), SHARDHEAP_OK);
    TRUE(sums.live == 2 && sums.marked == 0 && sums.retired == 0 && sums.queued == 46);
    TRUE(sums.used_pages == 1 && sums.blank_pages == 15);
}

static void whole(uint32_t layout) {
    shardheap heap = SHARDHEAP_INIT;
    shardheap_pass one = SHARDHEAP_INIT, other = SHARDHEAP_INIT, third = SHARDHEAP_INIT;
    IS(shardheap_open(&heap, layout, 2, 1, 3), SHARDHEAP_OK);
    IS(shardheap_take(&heap, &one), SHARDHEAP_OK);
    three_values(&one);
    missed(&heap);
    /* The two that were called are both at home again. */
    IS(shardheap_take(&heap, &other), SHARDHEAP_OK);
    IS(shardheap_take(&heap, &third), SHARDHEAP_OK);
    IS(shardheap_take(&heap, &third), SHARDHEAP_OCCUPIED);
    missed(&heap);
    IS(shardheap_give(&one), SHARDHEAP_OK);
    IS(shardheap_give(&other), SHARDHEAP_OK);
    IS(shardheap_give(&third), SHARDHEAP_OK);
    IS(shardheap_gather(&heap), SHARDHEAP_OK);
    told(&heap);
    /* The pass that is left is the only one. */
    IS(shardheap_take(&heap, &one), SHARDHEAP_OK);
    IS(shardheap_take(&heap, &other), SHARDHEAP_NO_PASS);
    missed(&heap);
    IS(shardheap_give(&one), SHARDHEAP_OK);
    IS(shardheap_gather(&heap), SHARDHEAP_OK);
    told(&heap);
    shardheap_close(&heap);
}

static void tags(void) {
    uint64_t number = 5, key = 6, top = UINT64_C(1) << 52;
    uint32_t tag = 7;
    IS(shardheap_tag(top, 1, &number), SHARDHEAP_BAD_KEY);
    IS(shardheap_tag(1, 256, &number), SHARDHEAP_BAD_KEY);
    IS(shardheap_tag(1, 1, 0), SHARDHEAP_NULL);
    IS(shardheap_untag(top, &key, &tag), SHARDHEAP_BAD_KEY);
    IS(shardheap_untag(1, 0, &tag), SHARDHEAP_NULL);
    IS(shardheap_untag(1, &key, 0), SHARDHEAP_NULL);
    TRUE(number == 5 && key == 6 && tag == 7);
    IS(shardheap_tag(top - 1, 255, &number), SHARDHEAP_OK);
    TRUE(number >> 56 == 255);
    IS(shardheap_untag(number, &key, &tag), SHARDHEAP_OK);
    TRUE(key == top - 1 && tag == 255);
}

int main(void) {
    null_and_empty();
    for (uint32_t layout = SHARDHEAP_WIDE; layout <= SHARDHEAP_TINY; layout++) whole(layout);
    tags();
    printf("whole: %d checks passed\n", checks);
    return 0;
}
