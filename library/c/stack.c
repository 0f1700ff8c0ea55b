/* How much stack the calls take: no more than shardheap.h says.

   Each call is made on a stack that was filled with a pattern before. What of the pattern is gone afterwards was used,
   by the call and by the allocator below it. What a function without a call takes is taken off. `stack show` prints
   what each call took. */
#include "check.h"
#include <string.h>
#include <ucontext.h>

#define STACK (UINT64_C(64) << 10)
#define PATTERN 0xa5
#define SHORT_CALLS 1024u
#define WALK_CALLS (4u * 1024)
#define LONG_CALLS (8u * 1024)

static _Alignas(64) unsigned char stack[STACK];
static ucontext_t here, there;
static void (*action)(void);
static size_t base, most_of_short, most_of_walks, most_of_long, most_in_growing;
static int shows;

static shardheap heap, other;
static shardheap_pass pass, owner, passes[64];
static shardheap_receipt receipt;
static uint64_t key, number, length, place, words[16], room[16];
static uint32_t code, page, tag, layout;
static shardheap_page told;
static shardheap_sums sums;
static shardheap_loaded batch[9];
static shardheap_live_key live;
static shardheap_held_key held;
static shardheap_ended ended;

static void on_the_stack(void) { action(); }

/* The bytes of the stack that an action takes. */
static size_t used_by(void (*what)(void)) {
    size_t at = 0;
    memset(stack, PATTERN, sizeof stack);
    TRUE(getcontext(&there) == 0);
    there.uc_stack.ss_sp = stack;
    there.uc_stack.ss_size = sizeof stack;
    there.uc_link = &here;
    action = what;
    makecontext(&there, on_the_stack, 0);
    TRUE(swapcontext(&here, &there) == 0);
    while (at < sizeof stack && stack[at] == PATTERN) at++;
    return sizeof stack - at;
}

static void measure(const char *name, void (*what)(void), size_t *most) {
    size_t used = used_by(what);
    used = used > base ? used - base : 0;
    if (used > *most) *most = used;
    if (shows) printf("%4zu bytes: %s, %s\n", used, name, shardheap_name(code));
}

/* What shardheap.h says takes at most 1 KiB, what takes at most 4 KiB, and what takes at most 8 KiB. */
#define SHORT_CALL(call) measure(#call, call, &most_of_short)
#define WALK_CALL(call) measure(#call, call, &most_of_walks)
#define LONG_CALL(call) measure(#call, call, &most_of_long)
/* A call in a growing heap, of which the header says no number. */
#define GROWING_CALL(call) measure(#call " in a growing heap", call, &most_in_growing)

static void nothing(void) { code = 0; }
static void open(void) { code = shardheap_open(&heap, layout, 1, layout == SHARDHEAP_TINY ? 2 : 8, 64); }
static void open_for(void) { code = shardheap_open_for(&heap, layout, 1, 10, 16, 64); }
static void open_growing(void) { code = shardheap_open_growing(&heap, 1, 1, 1, 2, 256); }
static void take(void) { code = shardheap_take(&heap, &pass); }
static void take_owner(void) { code = shardheap_take(&heap, &owner); }
static void share(void) { code = shardheap_share(&heap, &other); }
static void close_other(void) { shardheap_close(&other); }
static void close_heap(void) { shardheap_close(&heap); }
static void gather(void) { code = shardheap_gather(&heap); }
static void accounts(void) { code = shardheap_accounts(&heap, 0, 0, &told); }
static void totals(void) { code = shardheap_totals(&heap, &sums); }
static void count_passes(void) { length = shardheap_passes(&heap); }
static void count_room(void) { length = shardheap_capacity(&heap, 1) + shardheap_bytes(&heap); }
static void find_layout(void) { code = shardheap_layout_of(&heap, &tag); }
static void put_tag(void) { code = shardheap_tag(key, 5, &number); }
static void take_tag(void) { code = shardheap_untag(number, &key, &tag); }
static void adopt(void) { code = shardheap_adopt(&owner, 0); }
static void leave(void) { code = shardheap_leave(&owner); }
static void leave_idle(void) { code = shardheap_leave_idle(&owner); }
static void insert(void) { code = shardheap_insert(&owner, words, length, &key); }
static void insert_once(void) { code = shardheap_insert_once(&owner, words, length, &key); }
static void prepare(void) { code = shardheap_prepare(&owner, (uint32_t)length, &page); }
static void collect(void) { code = shardheap_collect(&owner); }
static void get(void) { code = shardheap_get(&pass, key); }
static void release(void) { code = shardheap_release(&pass, key); }
static void read(void) { code = shardheap_read(&pass, key, room, 16, &length); }
static void load(void) { code = shardheap_load(&pass, key, room, 16, &length); }
static void remove_key(void) { code = shardheap_remove(&pass, key); }
static void own_remove(void) { code = shardheap_remove(&owner, key); }
static void load_each(void) {
    for (int n = 0; n < 9; n++) batch[n].key = key;
    code = shardheap_load_each(&pass, batch, 9);
}
static void take_value(void) { code = shardheap_take_value(&pass, key, room, 16, &length); }
static void own_take_value(void) { code = shardheap_take_value(&owner, key, room, 16, &length); }
static void get_ended(void) { code = shardheap_get_ended(&pass, key, &ended); }
static void release_ended(void) { code = shardheap_release_ended(&pass, key, &ended); }
static void remove_ended(void) { code = shardheap_remove_ended(&pass, key, &ended); }
static void own_release_ended(void) { code = shardheap_release_ended(&owner, key, &ended); }
static void own_remove_ended(void) { code = shardheap_remove_ended(&owner, key, &ended); }
static void own_get_ended(void) { code = shardheap_get_ended_key(&owner, key, &number); }
static void get_ended_key(void) { code = shardheap_get_ended_key(&pass, key, &number); }
static void release_ended_key(void) { code = shardheap_release_ended_key(&pass, key, &number); }
static void remove_ended_key(void) { code = shardheap_remove_ended_key(&pass, key, &number); }
static void make_receipt(void) { code = shardheap_receipt_make(&pass, &receipt); }
static void own_receipt(void) { code = shardheap_receipt_make(&owner, &receipt); }
static void heed(void) { code = shardheap_heed(&pass, &receipt); }
static void own_heed(void) { code = shardheap_heed(&owner, &receipt); }
static void close_receipt(void) { shardheap_receipt_close(&receipt); }
static void pages_left(void) { code = shardheap_pages_left(&owner, &number); }
static void slots_out(void) { code = shardheap_slots_out(&owner, &number); }
static void next_own_key(void) { code = shardheap_next_own_key(&owner, &place, &key); }
static void next_key(void) { code = shardheap_next_key(&heap, &place, &key); }
static bool is_any(void *context, const shardheap_live_key *met) { return (void)context, met->key != 0; }
static void next_live(void) { code = shardheap_next_live(&pass, live.behind, UINT64_MAX, &live); }
static void next_held(void) { code = shardheap_next_held(&pass, held.behind, UINT64_MAX, &held); }
static void own_next_live(void) { code = shardheap_next_live(&owner, live.behind, UINT64_MAX, &live); }
static void own_next_held(void) { code = shardheap_next_held(&owner, held.behind, UINT64_MAX, &held); }
static void remove_if(void) { code = shardheap_remove_if(&pass, is_any, 0, &number); }
static void own_remove_if(void) { code = shardheap_remove_if(&owner, is_any, 0, &number); }
static void give(void) { code = shardheap_give(&pass); }
static void close_pass(void) { code = shardheap_pass_close(&owner); }
static void lose(void) { code = shardheap_pass_lose(&pass); }

/* A value of `count` words, from its insert to the last release. */
static void one_value(uint64_t count) {
    length = count;
    LONG_CALL(insert);
    if (code != SHARDHEAP_OK) return;
    SHORT_CALL(get);
    SHORT_CALL(read);
    SHORT_CALL(load);
    SHORT_CALL(load_each);
    SHORT_CALL(remove_key);
    SHORT_CALL(get);
    SHORT_CALL(release);
    SHORT_CALL(release);
    SHORT_CALL(remove_key);
}

/* A value of `count` words that is taken, by another pass or by its owner, also while it is held. */
static void one_taken(uint64_t count) {
    length = count;
    LONG_CALL(insert);
    SHORT_CALL(take_value);
    SHORT_CALL(take_value);
    length = count;
    LONG_CALL(insert);
    SHORT_CALL(get);
    SHORT_CALL(own_take_value);
    SHORT_CALL(release);
}

/* Values of `count` words that end by a release or a remove of either, with their words or without. */
static void ends(uint64_t count) {
    length = count;
    LONG_CALL(insert);
    SHORT_CALL(get_ended);
    SHORT_CALL(remove_ended);
    SHORT_CALL(get_ended);
    SHORT_CALL(release_ended);
    TRUE(ended.key == key && ended.length == count);
    LONG_CALL(insert);
    SHORT_CALL(own_get_ended);
    SHORT_CALL(remove_ended_key);
    SHORT_CALL(own_release_ended);
    TRUE(ended.key == key && ended.length == count);
    LONG_CALL(insert);
    SHORT_CALL(own_remove_ended);
    TRUE(ended.key == key && ended.length == count);
    LONG_CALL(insert);
    SHORT_CALL(get_ended_key);
    SHORT_CALL(own_remove);
    SHORT_CALL(release_ended_key);
    TRUE(number == key);
}

/* Receipts of each, by each; and what the owner knows. */
static void receipts(void) {
    LONG_CALL(make_receipt);
    LONG_CALL(own_heed);
    LONG_CALL(own_receipt);
    LONG_CALL(heed);
    LONG_CALL(make_receipt);
    LONG_CALL(close_receipt);
    SHORT_CALL(pages_left);
    SHORT_CALL(slots_out);
}

/* Walks by each, over a value of no word and one of 16, and removals of both. */
static void walks(void) {
    for (length = 0; length <= 16; length += 16) LONG_CALL(insert);
    live.behind = held.behind = place = 0;
    for (code = SHARDHEAP_OK; code == SHARDHEAP_OK;) SHORT_CALL(next_own_key);
    WALK_CALL(next_live);
    WALK_CALL(own_next_live);
    WALK_CALL(next_live);
    WALK_CALL(next_held);
    IS(shardheap_release(&pass, held.key), SHARDHEAP_OK);
    WALK_CALL(own_next_held);
    IS(shardheap_release(&owner, held.key), SHARDHEAP_OK);
    WALK_CALL(remove_if);
    for (length = 0; length <= 16; length += 16) LONG_CALL(insert);
    WALK_CALL(own_remove_if);
    TRUE(number == 2);
}

/* Fills the shard, empties it by another pass and by its owner, and fills it with longer values. */
static void many_values(void) {
    static uint64_t keys[8 * 8 * 48];
    size_t count = 0;
    for (length = 0, code = 0; code == SHARDHEAP_OK && count < sizeof keys / sizeof *keys; count++) {
        LONG_CALL(insert_once);
        keys[count] = key;
    }
    if (code != SHARDHEAP_OK) count--;
    for (size_t at = 0; at < count; at++) {
        key = keys[at];
        if (at % 2) SHORT_CALL(remove_key);
        else SHORT_CALL(own_remove);
    }
    length = 16;
    LONG_CALL(insert);
    SHORT_CALL(collect);
    LONG_CALL(prepare);
    LONG_CALL(insert);
}

static void a_heap(void) {
    LONG_CALL(open_for);
    LONG_CALL(close_heap);
    LONG_CALL(open);
    LONG_CALL(share);
    LONG_CALL(close_other);
    LONG_CALL(take);
    LONG_CALL(take_owner);
    LONG_CALL(adopt);
    for (uint64_t count = 0; count <= 17; count++) one_value(count);
    for (uint64_t count = 0; count <= 16; count++) one_taken(count);
    for (uint64_t count = 0; count <= 16; count++) ends(count);
    receipts();
    walks();
    many_values();
    SHORT_CALL(put_tag);
    SHORT_CALL(take_tag);
    SHORT_CALL(count_passes);
    SHORT_CALL(count_room);
    SHORT_CALL(find_layout);
    LONG_CALL(gather);
    for (int at = 0; at < 62; at++) IS(shardheap_take(&heap, &passes[at]), SHARDHEAP_OK);
    LONG_CALL(gather);
    for (int at = 0; at < 62; at++) IS(shardheap_give(&passes[at]), SHARDHEAP_OK);
    LONG_CALL(close_pass);
    LONG_CALL(leave);
    LONG_CALL(close_pass);
    LONG_CALL(give);
    LONG_CALL(gather);
    LONG_CALL(accounts);
    LONG_CALL(totals);
    for (code = 0, place = 0; code == SHARDHEAP_OK;) LONG_CALL(next_key);
    LONG_CALL(take);
    LONG_CALL(lose);
    LONG_CALL(close_heap);
}

/* Values of several chunks: each insert that opens one, and the calls on its first key. */
static void a_growing_heap(void) {
    GROWING_CALL(open_growing);
    GROWING_CALL(take);
    GROWING_CALL(take_owner);
    for (length = 1, number = 0; shardheap_chunks(&heap) < 8;) {
        GROWING_CALL(insert);
        if (key >> 56 == number) continue;
        number = key >> 56;
        GROWING_CALL(get);
        GROWING_CALL(read);
        GROWING_CALL(load);
        GROWING_CALL(load_each);
        GROWING_CALL(remove_ended);
        GROWING_CALL(get_ended);
        GROWING_CALL(release_ended);
        TRUE(ended.key == key);
    }
    GROWING_CALL(count_room);
    GROWING_CALL(collect);
    GROWING_CALL(leave_idle);
    GROWING_CALL(leave);
    GROWING_CALL(give);
    GROWING_CALL(close_pass);
    GROWING_CALL(close_heap);
}

int main(int argc, char **argv) {
    shows = argc > 1 && strcmp(argv[1], "show") == 0;
    used_by(nothing);
    base = used_by(nothing);
    for (layout = SHARDHEAP_WIDE; layout <= SHARDHEAP_TINY; layout++) a_heap();
    printf("stack: at most %zu bytes, and %zu of those that take no memory\n", most_of_long, most_of_short);
    a_growing_heap();
    printf("stack: at most %zu bytes in a growing heap\n", most_in_growing);
    TRUE(most_in_growing > 0 && most_in_growing < STACK / 2);
    TRUE(most_of_walks > 0 && most_of_walks <= WALK_CALLS);
    TRUE(most_of_short > 0 && most_of_short <= SHORT_CALLS && most_of_long <= LONG_CALLS);
    return 0;
}
