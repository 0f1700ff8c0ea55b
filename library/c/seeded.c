/* seeded [FIRST LAST [LAYOUT]]: passes of a heap make random calls, under the seeds from FIRST to LAST, and each returns
   what a shadow of the heap says. It does so with a heap of each layout, and one that grows, or with that of a number.

   Values have all lengths. A pass goes home with its holds, and is taken again with them. It does not leave its shards
   before it is given back, and so stays where it is if it owns that of a fixed heap. seeded.py plants faults. */
#include "shadow.h"

#ifdef FEWER_ROUNDS
enum { SEEDS = 1 };
#else
enum { SEEDS = 10 };
#endif
enum { CALLS = 3000, PHASE = 250, RECENT = 256 };

/* ---- Chance ---- */

static uint64_t state;

static uint64_t any(uint64_t below) { /* xorshift64* */
    state ^= state >> 12;
    state ^= state << 25;
    state ^= state >> 27;
    return (state * UINT64_C(2685821657736338717) >> 33) % below;
}

/* Calls come in phases, in which the heap fills or empties, and most values have the lengths of one class. */
static bool fills;
static int usual;
static uint64_t recent[RECENT], made;

static uint64_t any_length(void) {
    if (any(4) == 0) return any(WORDS + 1);
    uint64_t least = usual ? widths[usual - 1] + 1 : 0;
    return least + any(widths[usual] - least + 1);
}

/* A key that was issued: it may be removed long since. */
static uint64_t any_key(void) { return recent[any(made < RECENT ? made : RECENT)]; }

/* One that the pass holds, if it is among a few. */
static uint64_t held_key(const user *by) {
    uint64_t key = any_key();
    for (int n = 0; n < 30 && *holds_by(by, key) == 0; n++) key = any_key();
    return key;
}

/* ---- Calls ---- */

static void adopts(user *by) {
    uint64_t shard = any(SHARDS + 1);
    uint32_t code = grows() || shard == SHARDS ? SHARDHEAP_NO_SHARD : SHARDHEAP_OK;
    for (int n = 0; n < PASSES && !grows(); n++)
        if (users[n].owns && (&users[n] == by || users[n].shard == shard)) code = SHARDHEAP_TAKEN;
    IS(shardheap_adopt(&by->pass, shard), code);
    if (code != SHARDHEAP_OK) return;
    by->owns = true;
    by->shard = shard;
}

static void inserts(user *by) {
    uint64_t length = any_length(), words[WORDS], key = 0, chunks = shardheap_chunks(&heap);
    for (uint64_t at = 0; at < length; at++) words[at] = word_of(made, at);
    uint32_t code = shardheap_insert(&by->pass, words, length, &key);
    if (!grows() && !by->owns) {
        IS(code, SHARDHEAP_NO_SHARD);
        adopts(by);
        return;
    }
    by->owns = code != SHARDHEAP_NO_SHARD;
    bool opens = shardheap_chunks(&heap) > chunks;
    /* (a slot of layout tiny serves three values, and then leaves less room) */
    if (code != SHARDHEAP_OK || opens) TRUE(layout == SHARDHEAP_TINY || !has_room(by, class_of(length), chunks));
    if (code != SHARDHEAP_OK) {
        if (by->owns) IS(code, SHARDHEAP_FULL);
        else TRUE(finds_owners(by));
        TRUE(key == 0 && (!grows() || chunks == CHUNKS));
        return;
    }
    TRUE(grows() ? (key >> 56 == chunks) == opens : shard_of(key) == by->shard);
    stored(key, length, made);
    recent[made++ % RECENT] = key;
}

static void gets(user *by, uint64_t key) {
    uint32_t code = code_of_get(by, key);
    IS(shardheap_get(&by->pass, key), code);
    if (code == SHARDHEAP_OK) ++*holds_by(by, key);
}

static void releases(user *by) {
    uint64_t key = held_key(by);
    bool held = *holds_by(by, key) > 0;
    IS(shardheap_release(&by->pass, key), held ? SHARDHEAP_OK : SHARDHEAP_NOT_HELD);
    if (held) --*holds_by(by, key);
}

static void reads(user *by) {
    uint64_t key = held_key(by), words[WORDS], length = 0;
    bool held = *holds_by(by, key) > 0;
    IS(shardheap_read(&by->pass, key, words, WORDS, &length), held ? SHARDHEAP_OK : SHARDHEAP_NOT_HELD);
    if (held) same_value(slot_of(key), words, length);
}

static void loads(user *by, uint64_t key) {
    uint64_t words[WORDS], length = 0;
    IS(shardheap_load(&by->pass, key, words, WORDS, &length), is_live(key) ? SHARDHEAP_OK : SHARDHEAP_GONE);
    if (is_live(key)) same_value(slot_of(key), words, length);
}

static void removes(user *by, uint64_t key) {
    IS(shardheap_remove(&by->pass, key), is_live(key) ? SHARDHEAP_OK : SHARDHEAP_GONE);
    if (is_live(key)) slot_of(key)->live = false;
}

static void takes_value(user *by, uint64_t key) {
    uint64_t words[WORDS], length = 0;
    uint32_t code = code_of_get(by, key);
    IS(shardheap_take_value(&by->pass, key, words, WORDS, &length), code);
    if (code != SHARDHEAP_OK) return;
    same_value(slot_of(key), words, length);
    slot_of(key)->live = false;
}

/* Each live key is met once, in the order of places. */
static void walks(user *by) {
    shardheap_live_key met = {0, 0, 0, {0}};
    uint64_t count = 0, before = 0;
    uint32_t code;
    while ((code = shardheap_next_live(&by->pass, met.behind, UINT64_MAX, &met)) == SHARDHEAP_OK) {
        TRUE(is_live(met.key) && met.behind > before);
        same_value(slot_of(met.key), met.words, met.length);
        before = met.behind;
        count++;
    }
    IS(code, SHARDHEAP_NO_KEY);
    TRUE(count == live_keys());
}

/* ---- Where passes and shards go ---- */

/* Of those at home the one with the least number is taken. */
static void comes(void) {
    shardheap_pass none = SHARDHEAP_INIT;
    user *by = users;
    while (by < users + PASSES && by->away) by++;
    if (by == users + PASSES) {
        IS(shardheap_take(&heap, &none), SHARDHEAP_NO_PASS);
        return;
    }
    IS(shardheap_take(&heap, &by->pass), SHARDHEAP_OK);
    by->away = true;
}

static void goes_home(user *by) {
    bool stays = by->owns && !grows();
    IS(any(2) ? shardheap_give(&by->pass) : shardheap_pass_close(&by->pass), stays ? SHARDHEAP_OWNS : SHARDHEAP_OK);
    if (stays) return;
    by->away = by->owns = false;
}

static void leaves(user *by) {
    uint32_t code = grows() || by->owns ? SHARDHEAP_OK : SHARDHEAP_NO_SHARD;
    IS(any(2) ? shardheap_leave(&by->pass) : shardheap_leave_idle(&by->pass), code);
    by->owns = false;
}

static void collects(user *by) {
    IS(shardheap_collect(&by->pass), grows() || by->owns ? SHARDHEAP_OK : SHARDHEAP_NO_SHARD);
}

/* ---- Runs ---- */

static void calls_on_a_key(user *by) {
    uint64_t key = any_key(), which = any(fills ? 20 : 40);
    if (which < 6) gets(by, key);
    else if (which < 10) releases(by);
    else if (which < 14) reads(by);
    else if (which < 17) loads(by, key);
    else if (which < 19) takes_value(by, key);
    else removes(by, key);
}

static void calls(user *by) {
    uint64_t which = any(100);
    if (!by->away || which < 2) comes();
    else if (which < 8) goes_home(by);
    else if (which < 12) adopts(by);
    else if (which < 14) leaves(by);
    else if (which < 16) collects(by);
    else if (which == 16) walks(by);
    else if (made == 0 || which < (fills ? 70 : 30)) inserts(by);
    else calls_on_a_key(by);
}

static void opens(void) {
    memset(slots, 0, sizeof slots);
    memset(users, 0, sizeof users);
    made = 0;
    if (grows()) IS(shardheap_open_growing(&heap, SHARDS, 1, 1, PASSES, CHUNKS), SHARDHEAP_OK);
    else IS(shardheap_open(&heap, layout, SHARDS, 1, PASSES), SHARDHEAP_OK);
}

/* A pass that is away has its holds to the end. All are at home then, and a heap of a fixed shape is counted. */
static void ends(void) {
    shardheap_sums sums;
    uint64_t held = 0;
    for (int n = 0; n < PASSES; n++) {
        if (!users[n].away) continue;
        walks(&users[n]);
        leaves(&users[n]);
        goes_home(&users[n]);
    }
    const slot *all = &slots[0][0][0][0];
    for (int n = 0; n < CHUNKS * SHARDS * PAGES * SLOTS; n++) held += !all[n].live && holds_on(&all[n]) > 0;
    if (!grows()) {
        IS(shardheap_gather(&heap), SHARDHEAP_OK);
        IS(shardheap_totals(&heap, &sums), SHARDHEAP_OK);
        TRUE(sums.live == live_keys() && sums.marked == held);
    }
    shardheap_close(&heap);
}

static void run(uint64_t seed) {
    state = (8 * seed + layout) * UINT64_C(0x9e3779b97f4a7c15) + 1;
    opens();
    for (int n = 0; n < CALLS; n++) {
        if (n % PHASE == 0) {
            fills = any(3) > 0;
            usual = (int)any(CLASSES);
        }
        calls(&users[any(PASSES)]);
    }
    ends();
}

int main(int count, char **arguments) {
    uint64_t first = count > 2 ? strtoull(arguments[1], NULL, 10) : 1;
    uint64_t last = count > 2 ? strtoull(arguments[2], NULL, 10) : SEEDS;
    uint32_t least = count > 3 ? (uint32_t)strtoul(arguments[3], NULL, 10) : SHARDHEAP_WIDE;
    uint32_t most = count > 3 ? least : SHARDHEAP_GROWING;
    for (uint64_t seed = first; seed <= last; seed++)
        for (layout = least; layout <= most; layout++) run(seed);
    printf("seeded: %d checks passed\n", checks);
    return 0;
}
