/* table_costs LOOP ROUNDS: a loop of calls on a table, or of the same calls on a pass of a growing heap. table_costs.py
   counts the instructions of both. */
#include "shardheap_table.h"
#include <stdlib.h>

static shardheap_table table = SHARDHEAP_INIT;
static shardheap heap = SHARDHEAP_INIT;
static shardheap_pass pass = SHARDHEAP_INIT;
static uint64_t words[16] = {1}, key, length;

static void needs(uint32_t code) {
    if (code != SHARDHEAP_OK) abort();
}

static void get_by_table(void) { needs(shardheap_table_get(&table, key, words, 16, &length)); }
static void get_by_pass(void) { needs(shardheap_load(&pass, key, words, 16, &length)); }
static void insert_by_table(void) { needs(shardheap_table_insert(&table, words, 1, &key)); }
static void insert_by_pass(void) { needs(shardheap_insert(&pass, words, 1, &key)); }
static void remove_by_table(void) {
    insert_by_table();
    needs(shardheap_table_remove(&table, key));
}
static void remove_by_pass(void) {
    insert_by_pass();
    needs(shardheap_remove(&pass, key));
}
static void take_by_table(void) {
    insert_by_table();
    needs(shardheap_table_take(&table, key, words, 16, &length));
}
static void take_by_pass(void) {
    insert_by_pass();
    needs(shardheap_take_value(&pass, key, words, 16, &length));
}

int main(int count, char **arguments) {
    static const struct {
        const char *name;
        void (*round)(void);
    } loops[] = {
        {"get_table", get_by_table},       {"get_pass", get_by_pass},       {"insert_table", insert_by_table},
        {"insert_pass", insert_by_pass},   {"remove_table", remove_by_table}, {"remove_pass", remove_by_pass},
        {"take_table", take_by_table},     {"take_pass", take_by_pass},
    };
    if (count != 3) return 2;
    needs(shardheap_table_open(&table));
    needs(shardheap_open_growing(&heap, 2, 1, 1, 64, 64));
    needs(shardheap_take(&heap, &pass));
    /* one value of each is there: that of the loop */
    if (strstr(arguments[1], "table")) insert_by_table();
    else insert_by_pass();
    for (size_t n = 0; n < sizeof loops / sizeof *loops; n++)
        if (strcmp(loops[n].name, arguments[1]) == 0)
            for (long round = atol(arguments[2]); round > 0; round--) loops[n].round();
    shardheap_table_close(&table);
    needs(shardheap_give(&pass));
    shardheap_close(&heap);
    return 0;
}
