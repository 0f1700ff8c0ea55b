/* shardheap_table.h: a table of small values that any number of threads share, over a heap that grows.

   A table stores values of at most 16 words of 64 bits. It issues a key for each, which no other value of the table
   ever has. So a key that is out of date finds nothing. Any thread makes any call, and does nothing before its first or
   after its last. A program that wants control of who inserts where uses the calls of shardheap.h, which says what
   codes, keys, the checked mode and other languages are.

       #include "shardheap_table.h"

       shardheap_table table = SHARDHEAP_INIT;
       uint64_t words[2] = {7, 8}, room[16], key, length;

       shardheap_table_open(&table);                                 takes less than 160 KiB, and grows
       shardheap_table_insert(&table, words, 2, &key);               by any thread
       shardheap_table_get(&table, key, room, 16, &length);          by any other
       shardheap_table_remove(&table, key);                          from now on the key is Gone, for ever
       shardheap_table_close(&table);

   The code behind these calls is library/src/table.c and this header. It is tested, and not proved. The heap under it
   is proved: it issues no key twice, and of all calls that remove a key exactly one is OK.

   LINKING. libshardheap.a and libshardheap.so have the calls. A program that links libc_exports.a compiles
   library/src/table.c and library/src/memory.c too, and links -lpthread.

   THREADS. All threads use one handle, at the same time. A table has 60 places for threads of their own, and 4 that all
   other threads share, each behind a lock.
     - A thread takes a place at its first call, or beforehand by shardheap_table_enter. From then on its calls take no
       lock, except capacity and bytes. That first call may allocate, and so may an insert.
     - As the thread ends, its place rests with its room. The next thread that asks has it as it is. A destructor of a
       pthread key does that; it waits for nothing. A thread that goes idle may call shardheap_table_rest for it.
     - A thread that finds no place uses a shared one, and looks for one of its own at each call. So does each thread in
       destructors that run after that of this library. With 64 threads or fewer a call waits for a lock only while
       others use all four shared places.
     - An insert that finds no room, or no memory for more, tries the resting and the shared places before it is
       refused. It does not try the room of other threads' places.
     - An allocator may call a table, also from within a call of the same thread on that table. Such a call waits for no
       lock: it has a place that is free at once, or is refused as NO_PLACE.
   Open and close are for one thread: no other call on the table runs meanwhile, and threads may end. A thread whose
   first call on any table comes in the last round of its destructors keeps its place after its end.

   ORDER. A get finds a value whose insert happens before it, and does not find one whose removal happens before it.
   That is tested, and not proved: the contracts order two passes by receipts alone, which a table has not. Each step of
   the heap is a sequentially consistent atomic operation.

   SIGNALS, FORK AND UNLOADING. No call is async-signal-safe. Calls in a child forked from a process with threads are
   not allowed. A library that has libshardheap.a inside is not unloaded while threads exist that used a table.

   MISUSE. Each call returns NULL for a null pointer, and NO_HANDLE for a handle that was not initialised. Each but an
   open returns EMPTY for a table that was not opened or was closed. OVERLAP means that two pointers lead to the same
   bytes. In checked mode a handle that was copied or moved is MOVED. Nothing is done then.

   MEMORY. Open, enter, insert, and the first call of a thread take memory. If it is refused for a place of the thread's
   own, the call uses a shared place. So only open, enter and insert are ever refused for want of it. Each place that a
   thread had takes 368 bytes for each chunk that the table may have. All memory is freed by close, except about 8 KiB,
   which stay until each thread that has a place there ends, or makes its first call on another table. */
#ifndef SHARDHEAP_TABLE_H
#define SHARDHEAP_TABLE_H

#include "shardheap.h"

#ifdef __cplusplus
extern "C" {
#endif

/* The places of a table, which are the library's. */
typedef struct shardheap_places shardheap_places;

/* The handle of a table: shardheap_table table = SHARDHEAP_INIT; */
typedef struct shardheap_table {
    shardheap_places *at; /* the library's, as is the next */
    bool full;
    shardheap_seal seal;
} shardheap_table;

SHARDHEAP_ASSERT(offsetof(shardheap_table, full) == 8 && sizeof(shardheap_table) == 32, "a handle");
SHARDHEAP_ASSERT(offsetof(shardheap_table, seal) == 16, "the header's part");

/* What is called as a key ends: see shardheap_table_on_end. */
typedef void shardheap_end_hook(void *context, const shardheap_ended *ended);

/* The calls of table.c. They check no pointer and no handle: use the functions below, which do. */
uint32_t shardheap_table_raw_open(shardheap_places **into, uint32_t owners, uint64_t values, uint32_t words,
                                  uint32_t chunks);
void shardheap_table_raw_on_end(shardheap_places *of, shardheap_end_hook *hook, void *context);
void shardheap_table_raw_close(shardheap_places *of);
uint32_t shardheap_table_raw_insert(shardheap_places *of, const uint64_t *words, size_t count, uint64_t *into);
uint32_t shardheap_table_raw_get(shardheap_places *of, uint64_t at, uint64_t *words, size_t room, uint64_t *length);
uint32_t shardheap_table_raw_contains(shardheap_places *of, uint64_t at);
uint32_t shardheap_table_raw_remove(shardheap_places *of, uint64_t at);
uint32_t shardheap_table_raw_take(shardheap_places *of, uint64_t at, uint64_t *words, size_t room, uint64_t *length);
uint32_t shardheap_table_raw_next(shardheap_places *of, uint64_t from, shardheap_live_key *next);
uint64_t shardheap_table_raw_length(shardheap_places *of);
uint64_t shardheap_table_raw_capacity(shardheap_places *of, uint32_t words);
uint64_t shardheap_table_raw_bytes(shardheap_places *of);
uint32_t shardheap_table_raw_enter(shardheap_places *of);
uint32_t shardheap_table_raw_rest(shardheap_places *of);

/* Begins a call on a handle that all threads use at once, and so does not write it. */
static inline uint32_t shardheap_table_begin(const shardheap_table *table) {
    if (!table) return SHARDHEAP_NULL;
    uint64_t word = table->seal.word;
#ifdef SHARDHEAP_CHECKED
    uint64_t place = word ^ SHARDHEAP_SEAL;
    if (place != 0 && place != (uintptr_t)table && !shardheap_zeroed(table, word))
        return shardheap_misused(place % 8 == 0 && place >> 56 == 0 ? SHARDHEAP_MOVED : SHARDHEAP_NO_HANDLE);
#else
    if (word != SHARDHEAP_SEAL && !shardheap_zeroed(table, word)) return SHARDHEAP_NO_HANDLE;
#endif
    return SHARDHEAP_OK;
}

/* The same, of a table that is to be open. */
static inline uint32_t shardheap_table_opened(const shardheap_table *table) {
    uint32_t code = shardheap_table_begin(table);
    return code == SHARDHEAP_OK && !table->full ? (uint32_t)SHARDHEAP_EMPTY : code;
}

/* What a get and a take have in common. A room of 0 words may be null. */
static inline uint32_t shardheap_table_fill(
    uint32_t (*raw)(shardheap_places *of, uint64_t at, uint64_t *words, size_t room, uint64_t *length),
    const shardheap_table *table, uint64_t key, uint64_t *words, size_t room, uint64_t *length) {
    uint64_t none;
    if (!table || !length || (!words && room)) return SHARDHEAP_NULL;
    if (shardheap_overlap(words, room * sizeof *words, length, sizeof *length) ||
        shardheap_overlap(words, room * sizeof *words, table, sizeof *table) ||
        shardheap_overlap(length, sizeof *length, table, sizeof *table))
        return SHARDHEAP_OVERLAP;
    uint32_t code = shardheap_table_opened(table);
    return code == SHARDHEAP_OK ? raw(table->at, key, words ? words : &none, room, length) : code;
}

/* ---- A table ---- */

/* Opens a table into an empty handle. At first it has room for `values` values of 0 to 16 words for each of `owners`
   threads that insert, 1 to 64. If it finds no room it grows by a chunk, up to `chunks` in all, 1 to 256. OCCUPIED,
   MEMORY; BAD_SHAPE if a number is outside its limits or no first chunk has the room.

       code = shardheap_table_open_for(&table, 4, 10000, 2, 256);    10,000 values of 2 words for each of 4 threads */
SHARDHEAP_API uint32_t shardheap_table_open_for(shardheap_table *table, uint32_t owners, uint64_t values,
                                                uint32_t words, uint32_t chunks) {
    uint32_t code = shardheap_table_begin(table);
    if (code != SHARDHEAP_OK) return code;
    if (table->full) return SHARDHEAP_OCCUPIED;
    code = shardheap_table_raw_open(&table->at, owners, values, words, chunks);
    table->full = code == SHARDHEAP_OK;
    return shardheap_settle(table, table->full, &table->seal, code);
}

/* Opens a table into an empty handle. At first it has room for 384 values of a word, or 24 of 16 words, of each of two
   threads. It grows up to 64 chunks. Otherwise it is as one of the call above. OCCUPIED; MEMORY, also if the process
   can have no further pthread key.

       code = shardheap_table_open(&table); */
SHARDHEAP_API uint32_t shardheap_table_open(shardheap_table *table) {
    return shardheap_table_open_for(table, 2, 1, 1, 64);
}

/* Has `hook` called with `context` and each key that ends from now on, with its value. It is called once for each key
   that is removed, by the thread whose call was the last to use the key, at the end of that call. The close calls it
   for each key that is left. So what a value names, such as a file, is closed once. An end waits for calls that use the
   value, and for no copy that a get made. A program that follows what a copy names uses the holds of a heap instead,
   and shardheap_release_ended.
   The hook may call the table, except in a close. It is not left by longjmp or an exception. A null hook calls nothing.
   No other call on the table runs meanwhile, as for open. While there is a hook, a get writes to memory that all
   readers of the key share. A thread that was stopped for good within a call may keep a key from its end. EMPTY.

       code = shardheap_table_on_end(&table, frees, &now);    void frees(void *now, const shardheap_ended *ended); */
SHARDHEAP_API uint32_t shardheap_table_on_end(shardheap_table *table, shardheap_end_hook *hook, void *context) {
    uint32_t code = shardheap_table_opened(table);
    if (code == SHARDHEAP_OK) shardheap_table_raw_on_end(table->at, hook, context);
    return code;
}

/* Empties the handle, and ends the table with all its values.

       shardheap_table_close(&table);    once no other thread uses it */
SHARDHEAP_API void shardheap_table_close(shardheap_table *table) {
    if (shardheap_table_opened(table) != SHARDHEAP_OK) return;
    shardheap_places *of = table->at;
    table->at = 0;
    table->full = false;
    shardheap_settle(table, false, &table->seal, SHARDHEAP_OK);
    shardheap_table_raw_close(of);
}

/* Stores a value of `count` words, 0 to 16, and writes its key to `key`. TOO_LONG, MEMORY, NO_PLACE, EMPTY, OVERLAP;
   FULL, if the table has all its chunks and no place that it tried has room.

       code = shardheap_table_insert(&table, words, 2, &key);    the value is words[0] and words[1] */
SHARDHEAP_API uint32_t shardheap_table_insert(shardheap_table *table, const uint64_t *words, size_t count,
                                              uint64_t *key) {
    uint64_t none = 0;
    if (!table || !key || (!words && count)) return SHARDHEAP_NULL;
    if (shardheap_overlap(words, count * sizeof *words, key, sizeof *key) ||
        shardheap_overlap(words, count * sizeof *words, table, sizeof *table) ||
        shardheap_overlap(key, sizeof *key, table, sizeof *table))
        return SHARDHEAP_OVERLAP;
    uint32_t code = shardheap_table_opened(table);
    return code == SHARDHEAP_OK ? shardheap_table_raw_insert(table->at, words ? words : &none, count, key) : code;
}

/* Copies the value of a key into `words`, which has room for `room` words, and its length into `length`. It writes
   nothing to memory that threads share if the thread has a place of its own and the table no hook. A room of 16 is
   always enough. BAD_KEY, GONE, NO_PLACE, EMPTY, OVERLAP; SHORT, with only the length read.

       code = shardheap_table_get(&table, key, room, 16, &length);
       if (code == SHARDHEAP_GONE) length = 0;    another thread removed it */
SHARDHEAP_API uint32_t shardheap_table_get(const shardheap_table *table, uint64_t key, uint64_t *words, size_t room,
                                           uint64_t *length) {
    return shardheap_table_fill(shardheap_table_raw_get, table, key, words, room, length);
}

/* Whether a key has a value: OK if it has. It writes nothing to shared memory, as a get. BAD_KEY, GONE, NO_PLACE,
   EMPTY.

       code = shardheap_table_contains(&table, key); */
SHARDHEAP_API uint32_t shardheap_table_contains(const shardheap_table *table, uint64_t key) {
    uint32_t code = shardheap_table_opened(table);
    return code == SHARDHEAP_OK ? shardheap_table_raw_contains(table->at, key) : code;
}

/* Removes a key: no later get finds it. Of all calls that remove or take it, by all threads, exactly one is OK.
   BAD_KEY, GONE, NO_PLACE, EMPTY.

       code = shardheap_table_remove(&table, key); */
SHARDHEAP_API uint32_t shardheap_table_remove(shardheap_table *table, uint64_t key) {
    uint32_t code = shardheap_table_opened(table);
    return code == SHARDHEAP_OK ? shardheap_table_raw_remove(table->at, key) : code;
}

/* Copies the value of a key, and removes the key. BAD_KEY, GONE, NO_PLACE, EMPTY, OVERLAP; SHORT, with only the length
   read: then the key is not removed.

       code = shardheap_table_take(&table, key, room, 16, &length);
       if (code == SHARDHEAP_GONE) length = 0;    another thread has the value, or removed it */
SHARDHEAP_API uint32_t shardheap_table_take(shardheap_table *table, uint64_t key, uint64_t *words, size_t room,
                                            uint64_t *length) {
    return shardheap_table_fill(shardheap_table_raw_take, table, key, words, room, length);
}

/* Finds the first live key at a place from `from` on, and writes it with its value and the place behind it. A walk
   begins at place 0, and goes on behind each key. It meets the live keys in the order of their places, each place once.
   A key that is live from its begin to its end is met. One that is inserted or removed meanwhile is met or not, and a
   key that is met was live at that moment. Between two calls of a walk the thread has no place and no lock for it, so
   that it may make any other call, and another thread may go on. NO_KEY, if no key is met; NO_PLACE, EMPTY, OVERLAP.

       shardheap_live_key found = {0, 0, 0, {0}};
       while (shardheap_table_next(&table, found.behind, &found) == SHARDHEAP_OK) count += found.length; */
SHARDHEAP_API uint32_t shardheap_table_next(const shardheap_table *table, uint64_t from, shardheap_live_key *next) {
    if (!table || !next) return SHARDHEAP_NULL;
    if (shardheap_overlap(next, sizeof *next, table, sizeof *table)) return SHARDHEAP_OVERLAP;
    uint32_t code = shardheap_table_opened(table);
    return code == SHARDHEAP_OK ? shardheap_table_raw_next(table->at, from, next) : code;
}

/* Walks over all keys, and removes each key for which `predicate` is true and that nobody else removed. It writes to
   `count` how many it removed. `predicate` is called with `context` and each key that is met, and may call the table.
   EMPTY, OVERLAP, with nothing written; NO_PLACE, with the count until then.

       code = shardheap_table_remove_if(&table, is_over, &now, &count);    see shardheap_remove_if */
SHARDHEAP_API uint32_t shardheap_table_remove_if(shardheap_table *table, shardheap_predicate *predicate, void *context,
                                                 uint64_t *count) {
    if (!table || !predicate || !count) return SHARDHEAP_NULL;
    if (shardheap_overlap(count, sizeof *count, table, sizeof *table)) return SHARDHEAP_OVERLAP;
    uint32_t code = shardheap_table_opened(table);
    if (code != SHARDHEAP_OK) return code;
    shardheap_live_key met = {0, 0, 0, {0}};
    uint64_t removed = 0;
    while ((code = shardheap_table_raw_next(table->at, met.behind, &met)) == SHARDHEAP_OK)
        if (predicate(context, &met) && shardheap_table_raw_remove(table->at, met.key) == SHARDHEAP_OK) removed++;
    *count = removed;
    return code == SHARDHEAP_NO_KEY ? (uint32_t)SHARDHEAP_OK : code;
}

/* How many values the table has: exact if no call runs, and otherwise off by at most the calls that run. 0 of an empty
   handle and of what is no handle. It adds 64 numbers, one of each place.

       count = shardheap_table_length(&table); */
SHARDHEAP_API uint64_t shardheap_table_length(const shardheap_table *table) {
    return shardheap_table_opened(table) == SHARDHEAP_OK ? shardheap_table_raw_length(table->at) : 0;
}

/* How many values of `words` words the open chunks have slots for, if all their pages are for values of that length.
   The table opens another chunk earlier if some threads fill their own room. 0 for more than 16 words, of an empty
   handle and of what is no handle. It and the next call take a lock, which nothing has while it allocates.

       count = shardheap_table_capacity(&table, 1);    768, of a table that was opened just now */
SHARDHEAP_API uint64_t shardheap_table_capacity(const shardheap_table *table, uint32_t words) {
    return shardheap_table_opened(table) == SHARDHEAP_OK ? shardheap_table_raw_capacity(table->at, words) : 0;
}

/* How many bytes of memory the words of the open chunks take: 32.5 for each value of one word that they have room for.
   The lists of owners and the places of threads take more. 0 of an empty handle and of what is no handle.

       count = shardheap_table_bytes(&table);    24,992, of a table that was opened just now */
SHARDHEAP_API uint64_t shardheap_table_bytes(const shardheap_table *table) {
    return shardheap_table_opened(table) == SHARDHEAP_OK ? shardheap_table_raw_bytes(table->at) : 0;
}

/* Takes a place of its own for this thread beforehand, unless it has one. Calls are served without it. EMPTY, MEMORY;
   NO_PLACE, if other threads have all 60, if this thread has ended in a destructor, or in a call from an allocator
   within another call.

       code = shardheap_table_enter(&table); */
SHARDHEAP_API uint32_t shardheap_table_enter(shardheap_table *table) {
    uint32_t code = shardheap_table_opened(table);
    return code == SHARDHEAP_OK ? shardheap_table_raw_enter(table->at) : code;
}

/* Lets the place of this thread rest, for another thread to have it. This thread takes one again at its next call. OK,
   too, if it has none. EMPTY; NO_PLACE, with nothing done, in a call from an allocator within another call.

       code = shardheap_table_rest(&table);    before it goes idle */
SHARDHEAP_API uint32_t shardheap_table_rest(shardheap_table *table) {
    uint32_t code = shardheap_table_opened(table);
    return code == SHARDHEAP_OK ? shardheap_table_raw_rest(table->at) : code;
}

#ifdef __cplusplus
}
#endif
#endif
