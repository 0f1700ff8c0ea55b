/* shardheap.h: a map of small values that threads share, and whose keys are never used again.

   A heap has shards of pages. Each thread uses the heap by a pass. Any pass may hold, read and remove any key; a pass
   that owns a shard also inserts there. A value is at most 16 words of 64 bits; its key is a number that no other value
   of the heap ever has. What the calls do is proved, up to the calls named `shardheap_raw_..`; this header, the C
   compiler and the caller are not.

       #include "shardheap.h"

       shardheap heap = SHARDHEAP_INIT;
       shardheap_pass pass = SHARDHEAP_INIT;
       uint64_t words[2] = {7, 8}, room[16], key, length;

       shardheap_open_for(&heap, SHARDHEAP_WIDE, 1, 20000, 2, 8);    room for 20,000 values of 2 words; 8 passes
       shardheap_take(&heap, &pass);                                 a pass of its own for each thread
       shardheap_adopt(&pass, 0);                                    only the owner of a shard inserts
       shardheap_insert(&pass, words, 2, &key);
       shardheap_load(&pass, key, room, 16, &length);                by any pass, of any thread
       shardheap_remove(&pass, key);                                 from now on the key is Gone, for ever
       shardheap_leave(&pass);
       shardheap_give(&pass);                                        the pass is at home again
       shardheap_close(&heap);

   HANDLES. A handle is 32 bytes in the caller's memory. It begins as SHARDHEAP_INIT or as zeroed bytes. Then it is
   empty, and every call on it returns SHARDHEAP_EMPTY. Only the calls below write it. The handle of a heap and that of
   each pass owns a share of the heap: its memory goes with the last of them, in whatever order they are closed. Closing
   an empty handle does nothing, so a handle may be closed twice.

   A handle that was not initialised is refused: a call on it returns SHARDHEAP_NO_HANDLE and does nothing. The test is
   whether 64 bits of it are a constant. Zeroed bytes are an empty handle, however they came about. Bytes that another
   handle left at the same place, as in a function that is called again, are taken for that handle.

   GROWING HEAPS. A heap that shardheap_open_growing opens has 1 to 256 chunks, each with shards of its own. Chunk 0
   opens with the heap, and each further one when an insert finds no room in those before it. Bits 56 to 63 of a key are
   the number of its chunk. No pass adopts a shard by a call: an insert adopts one in a chunk, and leaves it for another
   there. A pass keeps the shard of its last insert in each chunk, and no other pass inserts there meanwhile. So
   `owners` is how many threads insert: with fewer, a pass may find each shard taken, and then its insert opens a chunk,
   or is NO_SHARD beside free room. leave_idle lets go of the shards between inserts, and then one shard serves many
   passes. leave leaves all shards of the pass. So do give and pass_close, which may be WAITING as leave may. Before it
   opens a chunk, an insert collects in each shard that no other pass owns, so the lengths of values may change. It is
   FULL or NO_SHARD only if all chunks are open: NO_SHARD if it found another owner in each shard, and FULL if the pass
   owned one, which had no room. A pass has 16 holds in each chunk, and keeps them when it is given and taken again. For
   each call on a key BAD_KEY also comes for a chunk that is not open. A key has no room for a tag: tag is BAD_KEY for
   one of a further chunk, except in checked mode, where the chunk is lost. Two calls of one pass are in their order if
   they are in one chunk. A receipt covers all chunks that its pass has used, and a pass that heeds it has used them
   too.
   These calls do nothing on a growing heap: adopt, prepare, pages_left, slots_out and next_own_key return NO_SHARD;
   gather, accounts, totals and next_key return AWAY. (TAKEN comes from a call on a key, an insert and a walk only if
   another handle's bytes were forged.)

   KEYS. A key belongs to one heap and ends with it. The first keys of two heaps are the same number. So a pass that
   removes a key of another heap may remove a value of its own heap that nobody meant.

   POINTERS. The pointers of a call do not overlap, nor do they lead into its handles. A call that finds otherwise
   returns SHARDHEAP_OVERLAP and does nothing.

   THREADS. A handle is used by one call at a time. It may go from a thread to another by whatever orders the two: the
   start or join of a thread, a lock, a sequentially consistent atomic. Two handles of one heap may be used by two
   threads at the same time: that is what they are for. No call waits. Calls in a child forked from a process with
   threads are not allowed.

   SIGNALS AND STACK. A signal handler is to the calls like another thread: it needs handles that nothing else uses.
   Calls that take and give back no memory are async-signal-safe then: get, release, read, load, load_each, remove,
   collect, passes, chunks, capacity, bytes, layout_of, tag, untag, take_value, pages_left, slots_out, next_own_key,
   next_live, next_held, remove_if, and those that end in `_ended` or `_ended_key`.
   The others are not, because they call malloc, aligned_alloc, realloc or free. The head of each section below has the
   most stack that its calls took in a test, with the allocator of glibc and a heap of a fixed shape.

   READING. A load writes nothing to shared memory if the key has a value or was removed. It takes w + 4 atomic loads
   for a value of w words, and at most 20 if the key was removed. A get and a release each change a word that all
   readers of the key share.

   ORDER. The calls of all passes are one history of the map, in which those of each pass are in the order in which it
   made them. Between two passes only receipts order calls. When a thread inserts a key and hands it to another without
   a receipt, the contracts allow that the other finds it Gone. With one they do not: see shardheap_heed. OK of a load
   promises a little less than OK of a get, which leaves a hold. If another pass removed the key, and this one heeded no
   receipt of that, the contracts allow that the load comes before the removal, even if it was called later. With the
   receipt they do not. Each step of the library is a sequentially consistent atomic operation, and the tests rely on
   it: they find each key that was handed over, with a receipt or without.

   CANCELLED THREADS. No call is a cancellation point. A thread that is cancelled between two calls leaves its pass in
   the handle, with its holds and its shard. Any thread that is ordered after it may go on with that handle. A thread
   that is cancelled asynchronously inside a call may leave the handle empty. The pass is lost then, with its holds and
   its shard, and malloc may stay locked.

   UNWINDING. The library has no unwind information: an exception that malloc throws ends the program, and a backtrace
   from inside a call ends there.

   What the library cannot see, and the caller owes:
     - two threads do not use one handle at once;
     - a handle's bytes are not copied and used twice, and are written by nothing but these calls;
     - a pointer that is not null points to what its type says, and a room or a list of words to as many as are named;
     - a receipt is heeded by a pass of the heap of the pass that made it. Another one orders nothing, and does no harm;
     - malloc, aligned_alloc, realloc and free come from one allocator, and malloc and realloc align to 16.

   CHECKED MODE. A program that defines SHARDHEAP_CHECKED in all its files finds more of that, at a price in each call.
   It needs gcc or clang. A call that finds one of these does nothing, and returns the code that is named:
     - MOVED: the handle is full, and its bytes were copied from where it was filled;
     - BUSY: another call uses the handle at this moment;
     - OTHER_HEAP: the key or the receipt is not of the heap of this pass. Bits 56 to 63 of a key have the number of its
       heap, from 1 to 255 and then anew. A tag takes that number away, and keys of layout deep and of growing heaps
       have none: these are not recognised. Receipts of two heaps of layout deep, or of growing heaps, look alike.
   The macro SHARDHEAP_ON_MISUSE(code) is called too, also for NO_HANDLE. It does nothing unless the program defines it
   before it includes this header, for example as __builtin_trap().

   OTHER LANGUAGES. The functions of this header are inline. The static and the shared library of a package have them
   too, under the same names, for languages that call functions and compile no C. Those do what these do outside checked
   mode, and a handle is used either by those or in checked mode. The numbers of codes and layouts, and the sizes and
   offsets that this header asserts, are the same in all versions of libshardheap.so.0: a handle has 32 bytes, begins as
   zeroed bytes, and is aligned to 8.

   MEMORY is taken by open, share, take, adopt, gather, receipt_make, and by an insert or a prepare that opens a
   segment. An insert into a growing heap takes it for an adoption and a chunk too. Nothing else returns
   SHARDHEAP_MEMORY. The greatest heap of a fixed shape, of layout deep with 2,097,152 segments, takes
   26 GB, and twice that while it opens. */
#ifndef SHARDHEAP_H
#define SHARDHEAP_H

#if !defined(__x86_64__) || defined(__ILP32__) || !defined(__linux__)
#error "shardheap supports x86-64 Linux alone"
#endif

#include <stdbool.h>
#include <stddef.h>
#include <stdint.h>
#include <string.h>

#define SHARDHEAP_VERSION_MAJOR 0
#define SHARDHEAP_VERSION_MINOR 2

#if defined(SHARDHEAP_CHECKED) && !defined(__GNUC__)
#error "SHARDHEAP_CHECKED needs gcc or clang"
#endif
/* library/src/checked_calls.c leaves this empty, and so compiles the calls into the library. */
#ifndef SHARDHEAP_API
#define SHARDHEAP_API static inline
#endif
#ifndef SHARDHEAP_ON_MISUSE
#define SHARDHEAP_ON_MISUSE(code) ((void)(code))
#endif

#ifdef __cplusplus
#define SHARDHEAP_ASSERT(what, why) static_assert(what, why)
extern "C" {
#else
#define SHARDHEAP_ASSERT(what, why) _Static_assert(what, why)
#endif

/* The version of this header: 1000 for each major version, and 1 for each minor one. */
SHARDHEAP_API uint32_t shardheap_version(void) {
    return SHARDHEAP_VERSION_MAJOR * UINT32_C(1000) + SHARDHEAP_VERSION_MINOR;
}

/* What calls return. 1 to 12 are the heap's refusals: after one, map, holds and keys are as they were. */
typedef enum shardheap_code {
    SHARDHEAP_OK = 0,
    SHARDHEAP_BAD_KEY = 1,     /* the number is no key of the layout, or its place is outside the heap's shape */
    SHARDHEAP_GONE = 2,        /* the key was never issued, or it was removed */
    SHARDHEAP_CROWDED = 3,     /* the key has as many holds as a key may have */
    SHARDHEAP_HOLDS_FULL = 4,  /* the pass has 16 holds */
    SHARDHEAP_NOT_HELD = 5,    /* the pass has no hold on that key */
    SHARDHEAP_TOO_LONG = 6,    /* more than 16 words */
    SHARDHEAP_FULL = 7,        /* the shard, or a growing heap, has no room for a value of this length */
    SHARDHEAP_MEMORY = 8,      /* memory was asked for and refused */
    SHARDHEAP_TAKEN = 9,       /* the shard has an owner, or the pass owns a shard already */
    SHARDHEAP_NO_SHARD = 10,   /* there is no such shard, or the pass owns none and finds none to own */
    SHARDHEAP_WAITING = 11,    /* another pass is in the middle of a free that has to end first */
    SHARDHEAP_BAD_SHAPE = 12,  /* the numbers are outside the limits of the layout */
    SHARDHEAP_EMPTY = 14,      /* the handle holds nothing: it was never filled, or was closed */
    SHARDHEAP_OCCUPIED = 15,   /* the handle that was to be filled holds something */
    SHARDHEAP_NO_PASS = 16,    /* no pass is at home */
    SHARDHEAP_SHORT = 17,      /* the value has more words than there is room for: *length says how many */
    SHARDHEAP_NULL = 18,       /* a pointer was null: nothing was done */
    SHARDHEAP_BAD_LAYOUT = 19, /* there is no layout of this number */
    SHARDHEAP_OWNS = 20,       /* the pass owns a shard, which it has to leave first */
    SHARDHEAP_AWAY = 21,       /* a pass is away, or the heap grows: it cannot be looked at as a whole */
    SHARDHEAP_NO_PAGE = 22,    /* the heap has no such page */
    SHARDHEAP_OVERLAP = 23,    /* two pointers lead to the same bytes: nothing was done */
    SHARDHEAP_NO_HANDLE = 24,  /* the bytes are no handle, as of one that was not initialised: nothing was done */
    SHARDHEAP_MOVED = 25,      /* SHARDHEAP_CHECKED: the handle was filled at another place */
    SHARDHEAP_BUSY = 26,       /* SHARDHEAP_CHECKED: another call uses the handle */
    SHARDHEAP_OTHER_HEAP = 27, /* SHARDHEAP_CHECKED: the key or the receipt is not of this heap */
    SHARDHEAP_NO_KEY = 28,     /* there is no further key */
    SHARDHEAP_NO_PLACE = 29    /* of shardheap_table.h: the table has no place for the call */
} shardheap_code;

/* The name of a code, and "unknown" for other numbers. */
SHARDHEAP_API const char *shardheap_name(uint32_t code) {
    static const char *const names[] = {
        "Ok",     "BadKey", "Gone",    "Crowded", "HoldsFull", "NotHeld", "TooLong",
        "Full",   "Memory", "Taken",   "NoShard", "Waiting",   "BadShape", "unknown",
        "Empty",  "Occupied", "NoPass", "Short",  "Null",      "BadLayout", "Owns",   "Away",
        "NoPage", "Overlap", "NoHandle", "Moved", "Busy",    "OtherHeap", "NoKey",  "NoPlace",
    };
    return code < sizeof names / sizeof names[0] ? names[code] : "unknown";
}

/* The layouts: how many shards and pages a heap may have, and so what its keys look like. A page has 48 slots for
   values of a word, and fewer for longer ones, down to 3 for 16 words; 8 pages are a segment. */
typedef enum shardheap_layout {
    SHARDHEAP_WIDE = 0,   /* 256 shards of 1,024 pages each */
    SHARDHEAP_TAGGED = 1, /* 64 shards of 256 pages; keys are below 2^52 */
    SHARDHEAP_DEEP = 2,   /* 64 shards of 1,048,576 pages, 16,777,216 in all; keys use all 64 bits */
    SHARDHEAP_TINY = 3,   /* 4 shards of 16 pages, whose slots serve 3 values each and no more: for tests */
    SHARDHEAP_GROWING = 4 /* that of heaps that grow: layout_of writes it, and it is a BAD_LAYOUT for an open */
} shardheap_layout;

/* What the functions of this header keep in a handle. */
typedef struct shardheap_seal {
    uint64_t word; /* SHARDHEAP_SEAL, or 0 in zeroed bytes; in checked mode a full handle's place is mixed in */
    uint32_t busy; /* checked mode: 1 while a call uses the handle */
    uint32_t mark; /* checked mode: the number of the heap, and 0 if its keys have none */
} shardheap_seal;
#define SHARDHEAP_SEAL UINT64_C(0xb5d31e70c96af482)

/* Handles: shardheap heap = SHARDHEAP_INIT; */
typedef struct shardheap {
    void *at; /* the library's, as is the next */
    bool full;
    shardheap_seal seal;
} shardheap;
typedef struct shardheap_pass {
    void *at; /* the library's, as is the next */
    bool full;
    shardheap_seal seal;
} shardheap_pass;
typedef struct shardheap_receipt {
    void *at; /* the library's, as is the next */
    bool full;
    shardheap_seal seal;
} shardheap_receipt;
#define SHARDHEAP_INIT { 0, 0, { SHARDHEAP_SEAL, 0, 0 } }

/* How many slots of a page are in each state: in all as many as a page of its class has, and none without a class. */
typedef struct shardheap_page {
    uint32_t used;       /* 1 if the page has a class, and 0 otherwise */
    uint32_t size_class; /* its class, 0 to 7, whose values have at most 1, 2, 3, 4, 6, 8, 12 and 16 words; 0 without */
    uint32_t live;       /* with a value that can be got */
    uint32_t marked;     /* with a value that was removed and is held */
    uint32_t retired;    /* never used again */
    uint32_t queued;     /* empty */
} shardheap_page;

/* The sums over all pages of a heap: live is how many keys are in the map. */
typedef struct shardheap_sums {
    uint32_t live;
    uint32_t marked;
    uint32_t retired;
    uint32_t queued;
    uint32_t used_pages;  /* pages that have a class */
    uint32_t blank_pages; /* pages that have none */
} shardheap_sums;

/* A key to load, and what its load returned: see shardheap_load_each. */
typedef struct shardheap_loaded {
    uint64_t key;       /* the key, which the caller writes */
    uint64_t length;    /* how many words the value has */
    uint32_t code;      /* what the load returned */
    uint64_t words[16]; /* the value: words[0] to words[length - 1] */
} shardheap_loaded;

/* A live key that a walk met, with its value: see shardheap_next_live. */
typedef struct shardheap_live_key {
    uint64_t key;
    uint64_t behind;    /* the place behind that of the key: the walk goes on there */
    uint64_t length;    /* how many words the value has */
    uint64_t words[16]; /* the value: words[0] to words[length - 1] */
} shardheap_live_key;

/* A live key that a walk met: see shardheap_next_held. */
typedef struct shardheap_held_key {
    uint64_t key;
    uint64_t behind; /* the place behind that of the key: the walk goes on there */
    uint32_t held;   /* 1 with a hold on the key, and 0 if it has as many as it may have */
} shardheap_held_key;

/* A key that a call ended, with its value: see shardheap_release_ended. */
typedef struct shardheap_ended {
    uint64_t key;       /* 0, which is no key, if the call ended none */
    uint64_t length;    /* how many words the value has */
    uint64_t words[16]; /* the value: words[0] to words[length - 1] */
} shardheap_ended;

/* Whether shardheap_remove_if removes a key. */
typedef bool shardheap_predicate(void *context, const shardheap_live_key *met);

SHARDHEAP_ASSERT(sizeof(void *) == 8 && sizeof(size_t) == 8 && sizeof(bool) == 1, "the library is for 64 bits");
SHARDHEAP_ASSERT(offsetof(shardheap, full) == 8 && offsetof(shardheap_pass, full) == 8, "the library's part");
SHARDHEAP_ASSERT(offsetof(shardheap, seal) == 16 && offsetof(shardheap_pass, seal) == 16, "the header's part");
SHARDHEAP_ASSERT(sizeof(shardheap) == 32 && sizeof(shardheap_pass) == 32, "a handle");
SHARDHEAP_ASSERT(offsetof(shardheap_receipt, full) == 8 && sizeof(shardheap_receipt) == 32, "a handle");
SHARDHEAP_ASSERT(offsetof(shardheap_receipt, seal) == 16, "the header's part");
SHARDHEAP_ASSERT(offsetof(shardheap_loaded, words) == 24 && sizeof(shardheap_loaded) == 152, "a key and its value");
SHARDHEAP_ASSERT(offsetof(shardheap_live_key, words) == 24 && sizeof(shardheap_live_key) == 152, "a key and its value");
SHARDHEAP_ASSERT(offsetof(shardheap_ended, words) == 16 && sizeof(shardheap_ended) == 144, "a key and its value");
SHARDHEAP_ASSERT(offsetof(shardheap_held_key, held) == 16 && sizeof(shardheap_held_key) == 24, "a key that is held");
SHARDHEAP_ASSERT(sizeof(shardheap_page) == 24 && sizeof(shardheap_sums) == 24, "six numbers of 32 bits");

/* The calls of the library. They check no pointer and no handle: use the functions below, which do. */
uint32_t shardheap_raw_open(shardheap *heap, uint32_t layout, uint32_t shards, uint32_t segments, uint32_t passes);
uint32_t shardheap_raw_open_for(shardheap *heap, uint32_t layout, uint32_t owners, uint64_t values, uint32_t words,
                                uint32_t passes);
uint32_t shardheap_raw_open_growing(shardheap *heap, uint32_t owners, uint64_t values, uint32_t words, uint32_t passes,
                                    uint32_t chunks);
uint64_t shardheap_raw_passes(shardheap *heap);
uint64_t shardheap_raw_chunks(shardheap *heap);
uint64_t shardheap_raw_capacity(shardheap *heap, uint32_t words);
uint64_t shardheap_raw_bytes(shardheap *heap);
uint32_t shardheap_raw_layout_of(shardheap *heap, uint32_t *layout);
uint32_t shardheap_raw_take(shardheap *heap, shardheap_pass *pass);
uint32_t shardheap_raw_give(shardheap_pass *pass);
uint32_t shardheap_raw_share(shardheap *heap, shardheap *other);
void shardheap_raw_close(shardheap *heap);
uint32_t shardheap_raw_pass_close(shardheap_pass *pass);
uint32_t shardheap_raw_pass_lose(shardheap_pass *pass);
uint32_t shardheap_raw_gather(shardheap *heap);
uint32_t shardheap_raw_accounts(shardheap *heap, uint32_t shard, uint32_t page, shardheap_page *told);
uint32_t shardheap_raw_totals(shardheap *heap, shardheap_sums *told);
uint32_t shardheap_raw_next_key(shardheap *heap, uint64_t *place, uint64_t *key);
uint32_t shardheap_raw_tag(uint64_t key, uint32_t tag, uint64_t *number);
uint32_t shardheap_raw_untag(uint64_t number, uint64_t *key, uint32_t *tag);
uint32_t shardheap_raw_adopt(shardheap_pass *pass, uint64_t shard);
uint32_t shardheap_raw_leave(shardheap_pass *pass);
uint32_t shardheap_raw_leave_idle(shardheap_pass *pass);
uint32_t shardheap_raw_prepare(shardheap_pass *pass, uint32_t words, uint32_t *page);
uint32_t shardheap_raw_collect(shardheap_pass *pass);
uint32_t shardheap_raw_insert(shardheap_pass *pass, const uint64_t *words, size_t count, uint64_t *key);
uint32_t shardheap_raw_get(shardheap_pass *pass, uint64_t key);
uint32_t shardheap_raw_release(shardheap_pass *pass, uint64_t key);
uint32_t shardheap_raw_remove(shardheap_pass *pass, uint64_t key);
uint32_t shardheap_raw_read(shardheap_pass *pass, uint64_t key, uint64_t *words, size_t room, uint64_t *length);
uint32_t shardheap_raw_load(shardheap_pass *pass, uint64_t key, uint64_t *words, size_t room, uint64_t *length);
uint32_t shardheap_raw_load_each(shardheap_pass *pass, shardheap_loaded *loads, size_t count);
uint32_t shardheap_raw_take_value(shardheap_pass *pass, uint64_t key, uint64_t *words, size_t room, uint64_t *length);
uint32_t shardheap_raw_get_ended(shardheap_pass *pass, uint64_t key, shardheap_ended *ended);
uint32_t shardheap_raw_release_ended(shardheap_pass *pass, uint64_t key, shardheap_ended *ended);
uint32_t shardheap_raw_remove_ended(shardheap_pass *pass, uint64_t key, shardheap_ended *ended);
uint32_t shardheap_raw_get_ended_key(shardheap_pass *pass, uint64_t key, uint64_t *ended);
uint32_t shardheap_raw_release_ended_key(shardheap_pass *pass, uint64_t key, uint64_t *ended);
uint32_t shardheap_raw_remove_ended_key(shardheap_pass *pass, uint64_t key, uint64_t *ended);
uint32_t shardheap_raw_next_live(shardheap_pass *pass, uint64_t from, uint64_t before, shardheap_live_key *next);
uint32_t shardheap_raw_next_held(shardheap_pass *pass, uint64_t from, uint64_t before, shardheap_held_key *next);
uint32_t shardheap_raw_pages_left(shardheap_pass *pass, uint64_t *pages);
uint32_t shardheap_raw_slots_out(shardheap_pass *pass, uint64_t *slots);
uint32_t shardheap_raw_next_own_key(shardheap_pass *pass, uint64_t *place, uint64_t *key);
uint32_t shardheap_raw_receipt_make(shardheap_pass *pass, shardheap_receipt *receipt);
uint32_t shardheap_raw_heed(shardheap_pass *pass, shardheap_receipt *receipt);
void shardheap_raw_receipt_close(shardheap_receipt *receipt);

/* ---- What the functions below look at ---- */

/* Whether `size` bytes at one place and `length` bytes at another have a byte in common. */
static inline bool shardheap_overlap(const void *one, size_t size, const void *other, size_t length) {
    uintptr_t a = (uintptr_t)one, b = (uintptr_t)other;
    return size != 0 && (b - a < size || a - b < length);
}

/* Whether the handle, the place and the key of a walk over keys overlap. */
static inline bool shardheap_walk_overlaps(const void *handle, size_t size, const uint64_t *place,
                                           const uint64_t *key) {
    return shardheap_overlap(place, sizeof *place, key, sizeof *key) ||
           shardheap_overlap(place, sizeof *place, handle, size) || shardheap_overlap(key, sizeof *key, handle, size);
}

/* Whether a handle with this word is an empty one that began as zeroed bytes: the library's part is 9 of them. */
static inline bool shardheap_zeroed(const void *handle, uint64_t word) {
    static const unsigned char zeroed[9] = {0};
    return word == 0 && memcmp(handle, zeroed, sizeof zeroed) == 0;
}

#ifdef SHARDHEAP_CHECKED
/* How many heaps were opened: one number for all files of the program. */
__attribute__((weak)) uint32_t shardheap_opened;

static inline uint32_t shardheap_misused(uint32_t code) {
    SHARDHEAP_ON_MISUSE(code);
    return code;
}

/* Begins a call on a handle. The word of a full one has its place: MOVED means that it has another's, which is a
   multiple of 8 below 2^56. */
static inline uint32_t shardheap_begin(const void *handle, shardheap_seal *seal) {
    uint64_t word = __atomic_load_n(&seal->word, __ATOMIC_RELAXED), place = word ^ SHARDHEAP_SEAL;
    if (place != 0 && place != (uintptr_t)handle && !shardheap_zeroed(handle, word))
        return shardheap_misused(place % 8 == 0 && place >> 56 == 0 ? SHARDHEAP_MOVED : SHARDHEAP_NO_HANDLE);
    bool used = __atomic_exchange_n(&seal->busy, 1, __ATOMIC_ACQUIRE) != 0;
    return used ? shardheap_misused(SHARDHEAP_BUSY) : (uint32_t)SHARDHEAP_OK;
}

/* Ends a call that leaves the handle full or empty, as it was. */
static inline uint32_t shardheap_end(shardheap_seal *seal, uint32_t code) {
    __atomic_store_n(&seal->busy, 0, __ATOMIC_RELEASE);
    return code;
}

/* Ends a call that may have filled or emptied the handle. */
static inline uint32_t shardheap_settle(const void *handle, bool full, shardheap_seal *seal, uint32_t code) {
    if (!full) seal->mark = 0;
    __atomic_store_n(&seal->word, SHARDHEAP_SEAL ^ (full ? (uintptr_t)handle : 0), __ATOMIC_RELAXED);
    return shardheap_end(seal, code);
}

/* The mark of a heap that was opened: its number, and 256 more if keys may come without it, as a tag takes it away. */
static inline uint32_t shardheap_next_mark(uint32_t layout) {
    uint32_t number = 1 + __atomic_fetch_add(&shardheap_opened, 1, __ATOMIC_RELAXED) % 255;
    return layout == SHARDHEAP_DEEP ? 0 : layout == SHARDHEAP_TAGGED ? 256 + number : number;
}

/* A key of the heap with this mark, as the caller knows it; and a key as the library knows it. */
static inline uint64_t shardheap_marked(uint32_t mark, uint64_t key) { return key | (uint64_t)(mark % 256) << 56; }
static inline uint64_t shardheap_bare(uint64_t key) { return key & UINT64_MAX >> 8; }

/* Turns a key into what the library knows. OTHER_HEAP if it is not of the heap with this mark. */
static inline uint32_t shardheap_unmark(uint32_t mark, uint64_t *key) {
    uint64_t found = *key >> 56;
    if (mark == 0) return SHARDHEAP_OK;
    if (found != mark % 256 && (found != 0 || mark < 256)) return shardheap_misused(SHARDHEAP_OTHER_HEAP);
    *key = shardheap_bare(*key);
    return SHARDHEAP_OK;
}

/* OTHER_HEAP if a receipt with the second mark is not of the heap with the first. */
static inline uint32_t shardheap_same_mark(uint32_t mark, uint32_t other) {
    return mark == other ? (uint32_t)SHARDHEAP_OK : shardheap_misused(SHARDHEAP_OTHER_HEAP);
}
#else
static inline uint32_t shardheap_begin(const void *handle, shardheap_seal *seal) {
    return seal->word == SHARDHEAP_SEAL || shardheap_zeroed(handle, seal->word) ? SHARDHEAP_OK : SHARDHEAP_NO_HANDLE;
}
static inline uint32_t shardheap_end(shardheap_seal *seal, uint32_t code) { return (void)seal, code; }
static inline uint32_t shardheap_settle(const void *handle, bool full, shardheap_seal *seal, uint32_t code) {
    seal->word = SHARDHEAP_SEAL;
    return (void)handle, (void)full, code;
}
static inline uint32_t shardheap_next_mark(uint32_t layout) { return (void)layout, 0; }
static inline uint64_t shardheap_marked(uint32_t mark, uint64_t key) { return (void)mark, key; }
static inline uint64_t shardheap_bare(uint64_t key) { return key; }
static inline uint32_t shardheap_unmark(uint32_t mark, uint64_t *key) { return (void)mark, (void)key, SHARDHEAP_OK; }
static inline uint32_t shardheap_same_mark(uint32_t mark, uint32_t other) {
    return (void)mark, (void)other, SHARDHEAP_OK;
}
#endif

static inline uint32_t shardheap_begin_heap(shardheap *heap) {
    return heap ? shardheap_begin(heap, &heap->seal) : (uint32_t)SHARDHEAP_NULL;
}
static inline uint32_t shardheap_begin_pass(shardheap_pass *pass) {
    return pass ? shardheap_begin(pass, &pass->seal) : (uint32_t)SHARDHEAP_NULL;
}
static inline uint32_t shardheap_begin_key(shardheap_pass *pass, uint64_t *key) {
    uint32_t code = shardheap_begin_pass(pass);
    if (code != SHARDHEAP_OK) return code;
    code = shardheap_unmark(pass->seal.mark, key);
    return code == SHARDHEAP_OK ? code : shardheap_end(&pass->seal, code);
}
static inline uint32_t shardheap_settle_heap(shardheap *heap, uint32_t code) {
    return shardheap_settle(heap, heap->full, &heap->seal, code);
}
static inline uint32_t shardheap_settle_pass(shardheap_pass *pass, uint32_t code) {
    return shardheap_settle(pass, pass->full, &pass->seal, code);
}
static inline uint32_t shardheap_begin_receipt(shardheap_receipt *receipt) {
    return receipt ? shardheap_begin(receipt, &receipt->seal) : (uint32_t)SHARDHEAP_NULL;
}
static inline uint32_t shardheap_settle_receipt(shardheap_receipt *receipt, uint32_t code) {
    return shardheap_settle(receipt, receipt->full, &receipt->seal, code);
}
static inline uint32_t shardheap_settle_opened(shardheap *heap, uint32_t layout, uint32_t code) {
    if (code == SHARDHEAP_OK) heap->seal.mark = shardheap_next_mark(layout);
    return shardheap_settle_heap(heap, code);
}

/* ---- A heap ----

   Threads: any thread may use a handle, one call at a time, while others use other handles of the heap and its passes.
   Signals: only passes, chunks, capacity, bytes and layout_of are async-signal-safe, on a handle that nothing else
   uses. Stack: measured at most 8 KiB. */

/* Opens a heap into an empty handle: `shards` shards, each of `segments` segments of 8 pages, and 1 to 64 passes. There
   is at least one of each, and no more than the layout has. OCCUPIED, BAD_LAYOUT, BAD_SHAPE, MEMORY.

       code = shardheap_open(&heap, SHARDHEAP_WIDE, 4, 2, 8);    4 shards of 16 pages, and 8 passes */
SHARDHEAP_API uint32_t shardheap_open(shardheap *heap, uint32_t layout, uint32_t shards, uint32_t segments,
                                      uint32_t passes) {
    uint32_t code = shardheap_begin_heap(heap);
    if (code != SHARDHEAP_OK) return code;
    return shardheap_settle_opened(heap, layout, shardheap_raw_open(heap, layout, shards, segments, passes));
}

/* Opens a heap into an empty handle: the least one in which each of `owners` owners has a shard with room for `values`
   values of 0 to 16 words, and 1 to 64 passes. OCCUPIED, BAD_LAYOUT, MEMORY; BAD_SHAPE if no heap of the layout has the
   room.

       code = shardheap_open_for(&heap, SHARDHEAP_WIDE, 4, 20000, 2, 8);    20,000 values of 2 words for each of 4 */
SHARDHEAP_API uint32_t shardheap_open_for(shardheap *heap, uint32_t layout, uint32_t owners, uint64_t values,
                                          uint32_t words, uint32_t passes) {
    uint32_t code = shardheap_begin_heap(heap);
    if (code != SHARDHEAP_OK) return code;
    return shardheap_settle_opened(heap, layout, shardheap_raw_open_for(heap, layout, owners, values, words, passes));
}

/* Opens a growing heap into an empty handle. Its first chunk is the least one in which each of `owners` owners has a
   shard with room for `values` values of 0 to 16 words. `owners` is the number of threads that insert, 1 to 64: each
   keeps a shard. Inserts open further chunks, up to `chunks` in all, 1 to 256. It has 1 to 64 passes. The head of this
   header says what differs in a growing heap. OCCUPIED, MEMORY; BAD_SHAPE if a number is outside its limits or no chunk
   has the room.

       code = shardheap_open_growing(&heap, 4, 10000, 1, 8, 256);    4 threads insert, 10,000 values each at first */
SHARDHEAP_API uint32_t shardheap_open_growing(shardheap *heap, uint32_t owners, uint64_t values, uint32_t words,
                                              uint32_t passes, uint32_t chunks) {
    uint32_t code = shardheap_begin_heap(heap);
    if (code != SHARDHEAP_OK) return code;
    /* (its keys have no mark, as those of layout deep) */
    return shardheap_settle_opened(heap, SHARDHEAP_DEEP,
                                   shardheap_raw_open_growing(heap, owners, values, words, passes, chunks));
}

/* How many chunks of the heap are open: 1 unless it grows, and 0 of an empty handle and of what is no handle. Another
   thread may open one meanwhile.

       count = shardheap_chunks(&heap);    1, until an insert finds no room */
SHARDHEAP_API uint64_t shardheap_chunks(shardheap *heap) {
    if (shardheap_begin_heap(heap) != SHARDHEAP_OK) return 0;
    uint64_t chunks = shardheap_raw_chunks(heap);
    shardheap_end(&heap->seal, SHARDHEAP_OK);
    return chunks;
}

/* How many passes the heap has, at home or away: 0 of an empty handle, and of what is no handle.

       count = shardheap_passes(&heap);    8, of the heaps above */
SHARDHEAP_API uint64_t shardheap_passes(shardheap *heap) {
    if (shardheap_begin_heap(heap) != SHARDHEAP_OK) return 0;
    uint64_t passes = shardheap_raw_passes(heap);
    shardheap_end(&heap->seal, SHARDHEAP_OK);
    return passes;
}

/* How many values of `words` words the heap has slots for, if all its pages are for values of that length. Of a growing
   heap that is the room in the chunks that are open. It is 0 for more than 16 words, of an empty handle, and of what is
   no handle.

       count = shardheap_capacity(&heap, 2);    1,536, of 4 shards of 16 pages */
SHARDHEAP_API uint64_t shardheap_capacity(shardheap *heap, uint32_t words) {
    if (shardheap_begin_heap(heap) != SHARDHEAP_OK) return 0;
    uint64_t count = shardheap_raw_capacity(heap, words);
    shardheap_end(&heap->seal, SHARDHEAP_OK);
    return count;
}

/* How many bytes of memory the heap's words take, in the chunks that are open: 32.5 for each value of one word that it
   has room for. The lists of owners and the passes take more. It is 0 of an empty handle, and of what is no handle.

       count = shardheap_bytes(&heap);    99,904, of 4 shards of 16 pages */
SHARDHEAP_API uint64_t shardheap_bytes(shardheap *heap) {
    if (shardheap_begin_heap(heap) != SHARDHEAP_OK) return 0;
    uint64_t bytes = shardheap_raw_bytes(heap);
    shardheap_end(&heap->seal, SHARDHEAP_OK);
    return bytes;
}

/* Writes the number of the heap's layout, and SHARDHEAP_GROWING of one that grows. EMPTY, OVERLAP.

       code = shardheap_layout_of(&heap, &layout); */
SHARDHEAP_API uint32_t shardheap_layout_of(shardheap *heap, uint32_t *layout) {
    if (!heap || !layout) return SHARDHEAP_NULL;
    if (shardheap_overlap(layout, sizeof *layout, heap, sizeof *heap)) return SHARDHEAP_OVERLAP;
    uint32_t code = shardheap_begin_heap(heap);
    return code == SHARDHEAP_OK ? shardheap_end(&heap->seal, shardheap_raw_layout_of(heap, layout)) : code;
}

/* Takes a pass that is at home into an empty handle. OCCUPIED, EMPTY, NO_PASS, MEMORY, OVERLAP.

       code = shardheap_take(&heap, &pass); */
SHARDHEAP_API uint32_t shardheap_take(shardheap *heap, shardheap_pass *pass) {
    if (!heap || !pass) return SHARDHEAP_NULL;
    if (shardheap_overlap(heap, sizeof *heap, pass, sizeof *pass)) return SHARDHEAP_OVERLAP;
    uint32_t code = shardheap_begin_heap(heap);
    if (code != SHARDHEAP_OK) return code;
    code = shardheap_begin_pass(pass);
    if (code != SHARDHEAP_OK) return shardheap_end(&heap->seal, code);
    code = shardheap_raw_take(heap, pass);
    if (code == SHARDHEAP_OK) pass->seal.mark = heap->seal.mark;
    shardheap_settle_pass(pass, code);
    return shardheap_end(&heap->seal, code);
}

/* Makes a second handle of the heap, in an empty one: each of two threads then takes and gives passes by its own. The
   heap goes with the last of its handles. OCCUPIED, EMPTY, MEMORY, OVERLAP.

       shardheap other = SHARDHEAP_INIT;
       code = shardheap_share(&heap, &other);    from now on another thread uses it, and closes it */
SHARDHEAP_API uint32_t shardheap_share(shardheap *heap, shardheap *other) {
    if (!heap || !other) return SHARDHEAP_NULL;
    if (shardheap_overlap(heap, sizeof *heap, other, sizeof *other)) return SHARDHEAP_OVERLAP;
    uint32_t code = shardheap_begin_heap(heap);
    if (code != SHARDHEAP_OK) return code;
    code = shardheap_begin_heap(other);
    if (code != SHARDHEAP_OK) return shardheap_end(&heap->seal, code);
    code = shardheap_raw_share(heap, other);
    if (code == SHARDHEAP_OK) other->seal.mark = heap->seal.mark;
    shardheap_settle_heap(other, code);
    return shardheap_end(&heap->seal, code);
}

/* Empties the handle. The heap goes with the last of its handles.

       shardheap_close(&heap);    its passes serve on */
SHARDHEAP_API void shardheap_close(shardheap *heap) {
    if (shardheap_begin_heap(heap) != SHARDHEAP_OK) return;
    shardheap_raw_close(heap);
    shardheap_settle_heap(heap, SHARDHEAP_OK);
}

/* ---- A heap as a whole ----

   Threads, signals and stack: as above; none of these is async-signal-safe. Passes that are away may be in use. */

/* Joins all passes of the heap in one, if all are at home: it is at home afterwards, and may be taken and used, but
   it is the only pass that the heap has from then on. The holds of the others stay in their slots for good. What was
   joined stays joined: a second call is OK where that pass is at home.
   AWAY, with each pass at home that was, where one is not, or was lost: nothing is joined then. AWAY, always, of a heap
   that grows; so are the three calls below.
   EMPTY, MEMORY. */
SHARDHEAP_API uint32_t shardheap_gather(shardheap *heap) {
    uint32_t code = shardheap_begin_heap(heap);
    return code == SHARDHEAP_OK ? shardheap_end(&heap->seal, shardheap_raw_gather(heap)) : code;
}

/* Counts the slots of a page, which is given by the number of its shard and its number there, both from 0. AWAY if the
   pass that gather left is not at home (a heap of one pass needs no gather), NO_PAGE, EMPTY, OVERLAP. */
SHARDHEAP_API uint32_t shardheap_accounts(shardheap *heap, uint32_t shard, uint32_t page, shardheap_page *told) {
    if (!heap || !told) return SHARDHEAP_NULL;
    if (shardheap_overlap(told, sizeof *told, heap, sizeof *heap)) return SHARDHEAP_OVERLAP;
    uint32_t code = shardheap_begin_heap(heap);
    return code == SHARDHEAP_OK ? shardheap_end(&heap->seal, shardheap_raw_accounts(heap, shard, page, told)) : code;
}

/* Counts the slots of all pages. AWAY, as above; EMPTY, OVERLAP. */
SHARDHEAP_API uint32_t shardheap_totals(shardheap *heap, shardheap_sums *told) {
    if (!heap || !told) return SHARDHEAP_NULL;
    if (shardheap_overlap(told, sizeof *told, heap, sizeof *heap)) return SHARDHEAP_OVERLAP;
    uint32_t code = shardheap_begin_heap(heap);
    return code == SHARDHEAP_OK ? shardheap_end(&heap->seal, shardheap_raw_totals(heap, told)) : code;
}

/* Finds the first key of the map at the place `*place` or behind it, and writes it to `key`. Places are numbers of
   slots over the whole heap, and `*place` becomes the one behind that of the key. So a loop that begins at place 0 gets
   each key once, in the order of their places, if the map does not change meanwhile. A call looks at one word for each
   place that it passes: 48 for a page. AWAY, as above; NO_KEY, if no key is left; EMPTY, OVERLAP.

       uint64_t place = 0;
       while (shardheap_next_key(&heap, &place, &key) == SHARDHEAP_OK) count++; */
SHARDHEAP_API uint32_t shardheap_next_key(shardheap *heap, uint64_t *place, uint64_t *key) {
    if (!heap || !place || !key) return SHARDHEAP_NULL;
    if (shardheap_walk_overlaps(heap, sizeof *heap, place, key)) return SHARDHEAP_OVERLAP;
    uint32_t code = shardheap_begin_heap(heap);
    if (code != SHARDHEAP_OK) return code;
    code = shardheap_raw_next_key(heap, place, key);
    if (code == SHARDHEAP_OK) *key = shardheap_marked(heap->seal.mark, *key);
    return shardheap_end(&heap->seal, code);
}

/* ---- Tags: 8 bits of the caller's on a key of layout tagged ----

   Threads: any number at once, as they use no handle. Signals: async-signal-safe. Stack: measured at most 1 KiB. */

/* Puts a tag, 0 to 255, at bits 56 to 63 of a key below 2^52. A tagged number is no key: untag it for the calls below.
   BAD_KEY if either is out of its range. */
SHARDHEAP_API uint32_t shardheap_tag(uint64_t key, uint32_t tag, uint64_t *number) {
    return number ? shardheap_raw_tag(shardheap_bare(key), tag, number) : (uint32_t)SHARDHEAP_NULL;
}

/* Takes the key and the tag out of a number. BAD_KEY if its bits 52 to 55 are not all zero; OVERLAP. */
SHARDHEAP_API uint32_t shardheap_untag(uint64_t number, uint64_t *key, uint32_t *tag) {
    if (!key || !tag) return SHARDHEAP_NULL;
    if (shardheap_overlap(key, sizeof *key, tag, sizeof *tag)) return SHARDHEAP_OVERLAP;
    return shardheap_raw_untag(number, key, tag);
}

/* ---- A pass ----

   Threads: any thread may use a pass, one call at a time, while others use other passes. Signals: all are
   async-signal-safe, on a pass that nothing else uses, except give, pass_close and pass_lose. Stack: measured at most
   1 KiB, and 8 KiB of these three. */

/* Brings the pass home and empties the handle. The next caller that takes the pass has its holds. OWNS, with nothing
   done, if it owns a shard; in a growing heap it leaves its shards first, and may be refused as a leave is. EMPTY.
   (OCCUPIED and MEMORY only if another handle's bytes were forged.)

       code = shardheap_give(&pass);
       if (code == SHARDHEAP_OWNS) code = shardheap_leave(&pass);    then it may be given */
SHARDHEAP_API uint32_t shardheap_give(shardheap_pass *pass) {
    uint32_t code = shardheap_begin_pass(pass);
    return code == SHARDHEAP_OK ? shardheap_settle_pass(pass, shardheap_raw_give(pass)) : code;
}

/* Closes the handle of a pass: it does and returns what a give does. So the pass comes home, and after OWNS nothing was
   done. EMPTY, OWNS.

       code = shardheap_pass_close(&pass); */
SHARDHEAP_API uint32_t shardheap_pass_close(shardheap_pass *pass) {
    uint32_t code = shardheap_begin_pass(pass);
    return code == SHARDHEAP_OK ? shardheap_settle_pass(pass, shardheap_raw_pass_close(pass)) : code;
}

/* Loses the pass, and empties the handle: the heap has one pass less for good, its holds stay, and a shard that it owns
   has no other owner again. No other call loses a pass. EMPTY.

       code = shardheap_pass_lose(&pass);    only where it cannot leave its shard */
SHARDHEAP_API uint32_t shardheap_pass_lose(shardheap_pass *pass) {
    uint32_t code = shardheap_begin_pass(pass);
    return code == SHARDHEAP_OK ? shardheap_settle_pass(pass, shardheap_raw_pass_lose(pass)) : code;
}

/* Takes a hold on a key, so that its value stays readable. A pass has at most 16 holds, also several on one key.
   BAD_KEY, HOLDS_FULL, GONE, CROWDED, EMPTY.

       if (shardheap_get(&pass, key) == SHARDHEAP_OK) code = shardheap_release(&pass, key); */
SHARDHEAP_API uint32_t shardheap_get(shardheap_pass *pass, uint64_t key) {
    uint32_t code = shardheap_begin_key(pass, &key);
    return code == SHARDHEAP_OK ? shardheap_end(&pass->seal, shardheap_raw_get(pass, key)) : code;
}

/* What a read, a load and the taking of a value have in common: one of them, into the caller's own room. A room of 0
   words may be null. */
static inline uint32_t shardheap_fill(
    uint32_t (*raw)(shardheap_pass *pass, uint64_t key, uint64_t *words, size_t room, uint64_t *length),
    shardheap_pass *pass, uint64_t key, uint64_t *words, size_t room, uint64_t *length) {
    uint64_t none;
    if (!pass || !length || (!words && room)) return SHARDHEAP_NULL;
    if (shardheap_overlap(words, room * sizeof *words, length, sizeof *length) ||
        shardheap_overlap(words, room * sizeof *words, pass, sizeof *pass) ||
        shardheap_overlap(length, sizeof *length, pass, sizeof *pass))
        return SHARDHEAP_OVERLAP;
    uint32_t code = shardheap_begin_key(pass, &key);
    if (code != SHARDHEAP_OK) return code;
    return shardheap_end(&pass->seal, raw(pass, key, words ? words : &none, room, length));
}

/* Reads the value of a key that the pass holds into `words`, which has room for `room` words, and its length into
   `length`. NOT_HELD, EMPTY, OVERLAP; SHORT, with only the length read. A room of 16 is always enough.

       code = shardheap_read(&pass, key, room, 16, &length);    room[0] to room[length - 1] are the value */
SHARDHEAP_API uint32_t shardheap_read(shardheap_pass *pass, uint64_t key, uint64_t *words, size_t room,
                                      uint64_t *length) {
    return shardheap_fill(shardheap_raw_read, pass, key, words, room, length);
}

/* Gives one hold on a key back. NOT_HELD, EMPTY.

       code = shardheap_release(&pass, key); */
SHARDHEAP_API uint32_t shardheap_release(shardheap_pass *pass, uint64_t key) {
    uint32_t code = shardheap_begin_key(pass, &key);
    return code == SHARDHEAP_OK ? shardheap_end(&pass->seal, shardheap_raw_release(pass, key)) : code;
}

/* Reads the value of a key and takes no hold, in w + 4 atomic loads for w words. BAD_KEY, GONE, EMPTY, OVERLAP; SHORT,
   with only the length read. HOLDS_FULL and CROWDED come only of a key whose insert the pass neither made nor heard of
   by a receipt. The load may then go on as a get, a read and a release.

       code = shardheap_load(&pass, key, room, 16, &length);
       if (code == SHARDHEAP_GONE) length = 0;    another pass removed it */
SHARDHEAP_API uint32_t shardheap_load(shardheap_pass *pass, uint64_t key, uint64_t *words, size_t room,
                                      uint64_t *length) {
    return shardheap_fill(shardheap_raw_load, pass, key, words, room, length);
}

/* Has the library load each key of a batch as the library knows it. In checked mode the keys come without their marks,
   eight at a time, and are again what the caller wrote. */
static inline uint32_t shardheap_load_bare(shardheap_pass *pass, shardheap_loaded *loads, size_t count) {
#ifdef SHARDHEAP_CHECKED
    for (size_t n = 0; n < count; n++) {
        uint64_t key = loads[n].key;
        uint32_t code = shardheap_unmark(pass->seal.mark, &key);
        if (code != SHARDHEAP_OK) return code;
    }
    for (; count > 8; loads += 8, count -= 8) {
        uint32_t code = shardheap_load_bare(pass, loads, 8);
        if (code != SHARDHEAP_OK) return code;
    }
    uint64_t keys[8];
    for (size_t n = 0; n < count; n++) {
        keys[n] = loads[n].key;
        (void)shardheap_unmark(pass->seal.mark, &loads[n].key);
    }
    uint32_t code = shardheap_raw_load_each(pass, loads, count);
    for (size_t n = 0; n < count; n++) loads[n].key = keys[n];
    return code;
#else
    return shardheap_raw_load_each(pass, loads, count);
#endif
}

/* Loads several keys in one call, in order, and writes beside each what its load returned: the code, and with OK the
   length and the words. A load that is refused stops nothing, and leaves its length and its words as they were. In a
   heap of a fixed shape the waits for the memory of eight keys overlap: beside a million values a batch takes less time
   than its loads one by one, and beside a few thousand more. In a heap that grows a batch is its loads, one by one.
   EMPTY, OVERLAP, with nothing done.

       shardheap_loaded batch[2] = {{key, 0, 0, {0}}, {second, 0, 0, {0}}};
       code = shardheap_load_each(&pass, batch, 2);
       if (code == SHARDHEAP_OK && batch[1].code == SHARDHEAP_OK) length = batch[1].length; */
SHARDHEAP_API uint32_t shardheap_load_each(shardheap_pass *pass, shardheap_loaded *loads, size_t count) {
    shardheap_loaded none = {0, 0, 0, {0}};
    if (!pass || (!loads && count)) return SHARDHEAP_NULL;
    if (shardheap_overlap(loads, count * sizeof *loads, pass, sizeof *pass)) return SHARDHEAP_OVERLAP;
    uint32_t code = shardheap_begin_pass(pass);
    if (code != SHARDHEAP_OK) return code;
    return shardheap_end(&pass->seal, shardheap_load_bare(pass, loads ? loads : &none, count));
}

/* Removes a key: no later get finds it, and its value stays until the last hold goes. BAD_KEY, GONE, EMPTY.

       code = shardheap_remove(&pass, key); */
SHARDHEAP_API uint32_t shardheap_remove(shardheap_pass *pass, uint64_t key) {
    uint32_t code = shardheap_begin_key(pass, &key);
    return code == SHARDHEAP_OK ? shardheap_end(&pass->seal, shardheap_raw_remove(pass, key)) : code;
}

/* Takes the value of a key: a get, a read, a remove and a release in one. Of all calls that remove one key, exactly one
   is OK. The holds are as before. BAD_KEY, HOLDS_FULL, GONE, CROWDED, EMPTY, OVERLAP; SHORT, with only the length read:
   then the key is not removed.

       code = shardheap_take_value(&pass, key, room, 16, &length);
       if (code == SHARDHEAP_GONE) length = 0;    another pass has the value, or removed it */
SHARDHEAP_API uint32_t shardheap_take_value(shardheap_pass *pass, uint64_t key, uint64_t *words, size_t room,
                                            uint64_t *length) {
    return shardheap_fill(shardheap_raw_take_value, pass, key, words, room, length);
}

/* ---- The end of a value ----

   What the words of a value name, as a file, has to be freed once nobody can read the value any more. That is when its
   key ends: it was removed, and there is no hold on it and no call at its slot. Exactly one call ends a key. It may be
   the remove or a release, and also a get or a remove that is refused, since that was at the slot for a moment. So the
   key that ends may be another than that of the call. It may also be a key that another pass removed.

   Each of these calls does what the call without `_ended` does, and writes which key it ended: at most one. A call that
   ends none writes the key 0, also if it is refused; only after OVERLAP nothing is written. A call that writes the
   words of the key's value takes up to 18 atomic loads for them, only where a key ends; one with `_ended_key` writes
   the key alone.

   The calls of other sections write no such key. Of these, get, release, remove, take_value, next_held and remove_if
   may end a key, and so may a load of a key whose insert the pass neither made nor heard of by a receipt. So a program
   that has to learn of each end makes none of them. No call ends a key that is not removed before its heap goes, or
   that a pass holds which was lost.

   Threads, signals and stack: as of a pass. */

/* What the calls below have in common: one of them, and the key that it ended. */
static inline uint32_t shardheap_tell_end(
    uint32_t (*raw)(shardheap_pass *pass, uint64_t key, shardheap_ended *ended), shardheap_pass *pass, uint64_t key,
    shardheap_ended *ended) {
    if (!ended) return SHARDHEAP_NULL;
    if (shardheap_overlap(ended, sizeof *ended, pass, sizeof *pass)) return SHARDHEAP_OVERLAP;
    ended->key = ended->length = 0;
    uint32_t code = shardheap_begin_key(pass, &key);
    if (code != SHARDHEAP_OK) return code;
    code = raw(pass, key, ended);
    if (ended->key != 0) ended->key = shardheap_marked(pass->seal.mark, ended->key);
    return shardheap_end(&pass->seal, code);
}

/* The same without its value. */
static inline uint32_t shardheap_tell_end_key(uint32_t (*raw)(shardheap_pass *pass, uint64_t key, uint64_t *ended),
                                              shardheap_pass *pass, uint64_t key, uint64_t *ended) {
    if (!ended) return SHARDHEAP_NULL;
    if (shardheap_overlap(ended, sizeof *ended, pass, sizeof *pass)) return SHARDHEAP_OVERLAP;
    *ended = 0;
    uint32_t code = shardheap_begin_key(pass, &key);
    if (code != SHARDHEAP_OK) return code;
    code = raw(pass, key, ended);
    if (*ended != 0) *ended = shardheap_marked(pass->seal.mark, *ended);
    return shardheap_end(&pass->seal, code);
}

/* Gives one hold on a key back, and writes the key that this ended: its own, if the key was removed and nobody else is
   on it. NOT_HELD, EMPTY, OVERLAP.

       shardheap_ended ended;
       code = shardheap_release_ended(&pass, key, &ended);
       if (ended.key != 0) now = ended.words[0];    nobody reads the value any more: free what it names */
SHARDHEAP_API uint32_t shardheap_release_ended(shardheap_pass *pass, uint64_t key, shardheap_ended *ended) {
    return shardheap_tell_end(shardheap_raw_release_ended, pass, key, ended);
}

/* Removes a key, and writes the key that this ended: its own, if nobody else is on it. A remove that is GONE may end
   its own key or another. BAD_KEY, GONE, EMPTY, OVERLAP.

       code = shardheap_remove_ended(&pass, key, &ended);
       if (ended.key == 0) length = 0;    another pass has a hold: its last release ends the key */
SHARDHEAP_API uint32_t shardheap_remove_ended(shardheap_pass *pass, uint64_t key, shardheap_ended *ended) {
    return shardheap_tell_end(shardheap_raw_remove_ended, pass, key, ended);
}

/* Takes a hold on a key. One that is OK ends none. One that is GONE or CROWDED may end its own key or another, and
   writes that. BAD_KEY, HOLDS_FULL, GONE, CROWDED, EMPTY, OVERLAP.

       code = shardheap_get_ended(&pass, key, &ended);
       if (ended.key != 0) now = ended.words[0];    also after GONE */
SHARDHEAP_API uint32_t shardheap_get_ended(shardheap_pass *pass, uint64_t key, shardheap_ended *ended) {
    return shardheap_tell_end(shardheap_raw_get_ended, pass, key, ended);
}

/* The same as shardheap_release_ended, without the words of the value. NOT_HELD, EMPTY, OVERLAP.

       uint64_t over;
       code = shardheap_release_ended_key(&pass, key, &over);
       if (over != 0) count--;    the key of an entry in a table of the caller's own */
SHARDHEAP_API uint32_t shardheap_release_ended_key(shardheap_pass *pass, uint64_t key, uint64_t *ended) {
    return shardheap_tell_end_key(shardheap_raw_release_ended_key, pass, key, ended);
}

/* The same as shardheap_remove_ended, without the words of the value. BAD_KEY, GONE, EMPTY, OVERLAP. */
SHARDHEAP_API uint32_t shardheap_remove_ended_key(shardheap_pass *pass, uint64_t key, uint64_t *ended) {
    return shardheap_tell_end_key(shardheap_raw_remove_ended_key, pass, key, ended);
}

/* The same as shardheap_get_ended, without the words of the value. BAD_KEY, HOLDS_FULL, GONE, CROWDED, EMPTY,
   OVERLAP. */
SHARDHEAP_API uint32_t shardheap_get_ended_key(shardheap_pass *pass, uint64_t key, uint64_t *ended) {
    return shardheap_tell_end_key(shardheap_raw_get_ended_key, pass, key, ended);
}

/* ---- Walks ----

   A walk meets the live keys in the order of their places, each place once. A key that is live from its begin to its
   end is met. One that is inserted or removed meanwhile is met or not, and a key that is met was live at that moment.
   A pass that heeded a receipt meets the keys whose inserts it covers, unless they were removed.

   Places are numbers of slots over the whole heap, 48 for a page. In a growing heap bits 56 to 63 are the number of the
   chunk, and a key of a chunk that opens meanwhile is met or not. A walk over all begins at place 0, goes on at the
   place behind that of each key, and ends before UINT64_MAX.

   Threads and signals: as of a pass. Stack: measured at most 4 KiB. */

/* Finds the first live key at a place from `from` on and before `before`, and writes it with its value. It writes
   nothing to shared memory and takes no hold. It takes one atomic load for a place without a live key, at most 21 for
   each that it passes, and w + 5 for a value of w words. NO_KEY, if no key is met; EMPTY, OVERLAP.

       shardheap_live_key met = {0, 0, 0, {0}};
       while (shardheap_next_live(&pass, met.behind, UINT64_MAX, &met) == SHARDHEAP_OK) count += met.length; */
SHARDHEAP_API uint32_t shardheap_next_live(shardheap_pass *pass, uint64_t from, uint64_t before,
                                           shardheap_live_key *next) {
    if (!pass || !next) return SHARDHEAP_NULL;
    if (shardheap_overlap(next, sizeof *next, pass, sizeof *pass)) return SHARDHEAP_OVERLAP;
    uint32_t code = shardheap_begin_pass(pass);
    if (code != SHARDHEAP_OK) return code;
    code = shardheap_raw_next_live(pass, from, before, next);
    if (code == SHARDHEAP_OK) next->key = shardheap_marked(pass->seal.mark, next->key);
    return shardheap_end(&pass->seal, code);
}

/* The same with a hold on the key, in place of its value, so that the value can be read until the hold is given back.
   HOLDS_FULL, if a key is met and the pass has 16 holds, or in a growing heap 16 in the key's chunk: after a release, a
   call from the same place on goes on. NO_KEY, EMPTY, OVERLAP.

       shardheap_held_key held = {0, 0, 0};
       code = shardheap_next_held(&pass, 0, UINT64_MAX, &held);    the first live key
       if (code == SHARDHEAP_OK && held.held) code = shardheap_release(&pass, held.key); */
SHARDHEAP_API uint32_t shardheap_next_held(shardheap_pass *pass, uint64_t from, uint64_t before,
                                           shardheap_held_key *next) {
    if (!pass || !next) return SHARDHEAP_NULL;
    if (shardheap_overlap(next, sizeof *next, pass, sizeof *pass)) return SHARDHEAP_OVERLAP;
    uint32_t code = shardheap_begin_pass(pass);
    if (code != SHARDHEAP_OK) return code;
    code = shardheap_raw_next_held(pass, from, before, next);
    if (code == SHARDHEAP_OK) next->key = shardheap_marked(pass->seal.mark, next->key);
    return shardheap_end(&pass->seal, code);
}

/* Walks over all keys, and removes each key for which `predicate` is true and that nobody else removed. It writes to
   `count` how many it removed. `predicate` is called with `context` and each key that is met, and makes no call of this
   pass: in checked mode that is BUSY. EMPTY, OVERLAP, with nothing written.

       static bool is_over(void *now, const shardheap_live_key *met) { return met->words[0] <= *(uint64_t *)now; }
       ..
       code = shardheap_remove_if(&pass, is_over, &now, &count); */
SHARDHEAP_API uint32_t shardheap_remove_if(shardheap_pass *pass, shardheap_predicate *predicate, void *context,
                                           uint64_t *count) {
    if (!pass || !predicate || !count) return SHARDHEAP_NULL;
    if (shardheap_overlap(count, sizeof *count, pass, sizeof *pass)) return SHARDHEAP_OVERLAP;
    uint32_t code = shardheap_begin_pass(pass);
    if (code != SHARDHEAP_OK) return code;
    shardheap_live_key met = {0, 0, 0, {0}};
    uint64_t removed = 0;
    while ((code = shardheap_raw_next_live(pass, met.behind, UINT64_MAX, &met)) == SHARDHEAP_OK) {
        uint64_t key = met.key;
        met.key = shardheap_marked(pass->seal.mark, key);
        if (predicate(context, &met) && shardheap_raw_remove(pass, key) == SHARDHEAP_OK) removed++;
    }
    if (code != SHARDHEAP_NO_KEY) return shardheap_end(&pass->seal, code);
    *count = removed;
    return shardheap_end(&pass->seal, SHARDHEAP_OK);
}

/* ---- Receipts ----

   Threads: any thread may make, heed or close a receipt, one call at a time on its handle and on the pass. Signals:
   none is async-signal-safe. Stack: measured at most 8 KiB. */

/* Makes a receipt into an empty handle. It covers all calls of the pass until now, and what the receipts cover that the
   pass heeded. The pass is as before. A receipt orders no threads: it goes to another thread as any handle does, by
   what orders the two. OCCUPIED, EMPTY, MEMORY, OVERLAP.

       code = shardheap_receipt_make(&pass, &receipt);    after an insert: it goes with the key */
SHARDHEAP_API uint32_t shardheap_receipt_make(shardheap_pass *pass, shardheap_receipt *receipt) {
    if (!pass || !receipt) return SHARDHEAP_NULL;
    if (shardheap_overlap(pass, sizeof *pass, receipt, sizeof *receipt)) return SHARDHEAP_OVERLAP;
    uint32_t code = shardheap_begin_pass(pass);
    if (code != SHARDHEAP_OK) return code;
    code = shardheap_begin_receipt(receipt);
    if (code != SHARDHEAP_OK) return shardheap_end(&pass->seal, code);
    code = shardheap_raw_receipt_make(pass, receipt);
    if (code == SHARDHEAP_OK) receipt->seal.mark = pass->seal.mark;
    shardheap_settle_receipt(receipt, code);
    return shardheap_end(&pass->seal, code);
}

/* Heeds a receipt that a pass of the same heap made, and empties its handle: all that the receipt covers happens before
   the next calls of this pass. So a key whose insert it covers is Gone only if a call removed it, and a key whose
   removal it covers is Gone. EMPTY, of either handle; OVERLAP; TAKEN, if the receipt covers a chunk that this heap has
   not opened, so that it is of another growing heap: then its handle is empty too.

       code = shardheap_heed(&pass, &receipt);    in the other thread, before it loads the key */
SHARDHEAP_API uint32_t shardheap_heed(shardheap_pass *pass, shardheap_receipt *receipt) {
    if (!pass || !receipt) return SHARDHEAP_NULL;
    if (shardheap_overlap(pass, sizeof *pass, receipt, sizeof *receipt)) return SHARDHEAP_OVERLAP;
    uint32_t code = shardheap_begin_pass(pass);
    if (code != SHARDHEAP_OK) return code;
    code = shardheap_begin_receipt(receipt);
    if (code != SHARDHEAP_OK) return shardheap_end(&pass->seal, code);
    code = pass->full && receipt->full ? shardheap_same_mark(pass->seal.mark, receipt->seal.mark) : code;
    if (code == SHARDHEAP_OK) code = shardheap_raw_heed(pass, receipt);
    shardheap_settle_receipt(receipt, code);
    return shardheap_end(&pass->seal, code);
}

/* Empties the handle of a receipt that nobody heeds.

       shardheap_receipt_close(&receipt); */
SHARDHEAP_API void shardheap_receipt_close(shardheap_receipt *receipt) {
    if (shardheap_begin_receipt(receipt) != SHARDHEAP_OK) return;
    shardheap_raw_receipt_close(receipt);
    shardheap_settle_receipt(receipt, SHARDHEAP_OK);
}

/* ---- The owner of a shard ----

   Threads: as of a pass. A shard goes to another owner, of any thread, by a leave and an adopt. Signals: only
   collect, pages_left, slots_out and next_own_key are async-signal-safe, on a pass that nothing else uses. Stack:
   measured at most 8 KiB, and 1 KiB of these four. */

/* Makes the pass the owner of a shard, by its number from 0. NO_SHARD, TAKEN, MEMORY, EMPTY. No shard of a growing heap
   has a number, so NO_SHARD always comes there.

       code = shardheap_adopt(&pass, 3);    TAKEN, until its owner leaves */
SHARDHEAP_API uint32_t shardheap_adopt(shardheap_pass *pass, uint64_t shard) {
    uint32_t code = shardheap_begin_pass(pass);
    return code == SHARDHEAP_OK ? shardheap_end(&pass->seal, shardheap_raw_adopt(pass, shard)) : code;
}

/* Leaves the shard that the pass owns, or all of them in a growing heap, so that other passes may adopt them. NO_SHARD,
   EMPTY; WAITING, if another pass is in the middle of a free there: the shard is still owned, and serves as before.

       do code = shardheap_leave(&pass);
       while (code == SHARDHEAP_WAITING);    with a pause between, such as sched_yield() */
SHARDHEAP_API uint32_t shardheap_leave(shardheap_pass *pass) {
    uint32_t code = shardheap_begin_pass(pass);
    return code == SHARDHEAP_OK ? shardheap_end(&pass->seal, shardheap_raw_leave(pass)) : code;
}

/* Leaves the shard that the pass owns, as leave does. In a growing heap it leaves each shard of the pass in which no
   other pass is in the middle of a free, also behind one in which it has to wait: then it is WAITING, and owns only
   such shards. A pass that inserts seldom calls it between its inserts, so that others can insert in the same shard.
   NO_SHARD, of a heap of a fixed shape; EMPTY, WAITING.

       if (shardheap_insert(&pass, words, 2, &key) == SHARDHEAP_OK) code = shardheap_leave_idle(&pass); */
SHARDHEAP_API uint32_t shardheap_leave_idle(shardheap_pass *pass) {
    uint32_t code = shardheap_begin_pass(pass);
    return code == SHARDHEAP_OK ? shardheap_end(&pass->seal, shardheap_raw_leave_idle(pass)) : code;
}

/* Collects what others freed on all pages of the shard, so that pages of which nothing is used may take values of
   another length. NO_SHARD, EMPTY.

       code = shardheap_collect(&pass); */
SHARDHEAP_API uint32_t shardheap_collect(shardheap_pass *pass) {
    uint32_t code = shardheap_begin_pass(pass);
    return code == SHARDHEAP_OK ? shardheap_end(&pass->seal, shardheap_raw_collect(pass)) : code;
}

/* What the two calls below have in common: a number that the owner of a shard knows. */
static inline uint32_t shardheap_know(uint32_t (*raw)(shardheap_pass *pass, uint64_t *number), shardheap_pass *pass,
                                      uint64_t *number) {
    if (!pass || !number) return SHARDHEAP_NULL;
    if (shardheap_overlap(number, sizeof *number, pass, sizeof *pass)) return SHARDHEAP_OVERLAP;
    uint32_t code = shardheap_begin_pass(pass);
    return code == SHARDHEAP_OK ? shardheap_end(&pass->seal, raw(pass, number)) : code;
}

/* Writes how many pages of the shard have no class yet: each has room for 48 values of a word, or fewer longer ones. It
   takes no atomic step. NO_SHARD, EMPTY, OVERLAP.

       code = shardheap_pages_left(&pass, &count); */
SHARDHEAP_API uint32_t shardheap_pages_left(shardheap_pass *pass, uint64_t *pages) {
    return shardheap_know(shardheap_raw_pages_left, pass, pages);
}

/* Writes how many slots of the other pages are not free for the owner: they have a value, or had one that is held, or
   another pass freed them and they are not collected yet, or they are never used again. So the shard has at most so
   many values. It takes no atomic step. NO_SHARD, EMPTY, OVERLAP.

       code = shardheap_slots_out(&pass, &count); */
SHARDHEAP_API uint32_t shardheap_slots_out(shardheap_pass *pass, uint64_t *slots) {
    return shardheap_know(shardheap_raw_slots_out, pass, slots);
}

/* Finds the first live key of the shard at the place `*place` or behind it, and writes it to `key`. Places are numbers
   of slots in the shard, 48 for a page, and `*place` becomes the one behind that of the key. So a loop that begins at
   place 0 is a walk over the shard, as above: it meets what shardheap_next_live meets there, in as many steps. NO_KEY,
   if no key is met; NO_SHARD, EMPTY, OVERLAP.

       uint64_t next = 0;
       while (shardheap_next_own_key(&pass, &next, &key) == SHARDHEAP_OK) count++; */
SHARDHEAP_API uint32_t shardheap_next_own_key(shardheap_pass *pass, uint64_t *place, uint64_t *key) {
    if (!pass || !place || !key) return SHARDHEAP_NULL;
    if (shardheap_walk_overlaps(pass, sizeof *pass, place, key)) return SHARDHEAP_OVERLAP;
    uint32_t code = shardheap_begin_pass(pass);
    if (code != SHARDHEAP_OK) return code;
    code = shardheap_raw_next_own_key(pass, place, key);
    if (code == SHARDHEAP_OK) *key = shardheap_marked(pass->seal.mark, *key);
    return shardheap_end(&pass->seal, code);
}

/* Gives a page of the shard to values of `words` words, 0 to 16, and writes its number to `page`. NO_SHARD, TOO_LONG,
   FULL, MEMORY, EMPTY, OVERLAP.

       code = shardheap_prepare(&pass, 2, &page);    the next inserts of 2 words need not look for a page */
SHARDHEAP_API uint32_t shardheap_prepare(shardheap_pass *pass, uint32_t words, uint32_t *page) {
    if (!pass || !page) return SHARDHEAP_NULL;
    if (shardheap_overlap(page, sizeof *page, pass, sizeof *pass)) return SHARDHEAP_OVERLAP;
    uint32_t code = shardheap_begin_pass(pass);
    return code == SHARDHEAP_OK ? shardheap_end(&pass->seal, shardheap_raw_prepare(pass, words, page)) : code;
}

/* Stores a value of `count` words, 0 to 16, in the shard that the pass owns, and writes its key to `key`. NO_SHARD,
   TOO_LONG, MEMORY, EMPTY, OVERLAP; FULL, if no page that the owner knows of has room. It does not look at what others
   freed on pages of other lengths. In a growing heap it is stored in the first chunk that is found to have room, and
   NO_SHARD comes only if each shard has another owner.

       code = shardheap_insert_once(&pass, words, 2, &key);
       if (code == SHARDHEAP_FULL) code = shardheap_collect(&pass);    then try again, or not */
SHARDHEAP_API uint32_t shardheap_insert_once(shardheap_pass *pass, const uint64_t *words, size_t count, uint64_t *key) {
    uint64_t none = 0;
    if (!pass || !key || (!words && count)) return SHARDHEAP_NULL;
    if (shardheap_overlap(words, count * sizeof *words, key, sizeof *key) ||
        shardheap_overlap(words, count * sizeof *words, pass, sizeof *pass) ||
        shardheap_overlap(key, sizeof *key, pass, sizeof *pass))
        return SHARDHEAP_OVERLAP;
    uint32_t code = shardheap_begin_pass(pass);
    if (code != SHARDHEAP_OK) return code;
    code = shardheap_raw_insert(pass, words ? words : &none, count, key);
    if (code == SHARDHEAP_OK) *key = shardheap_marked(pass->seal.mark, *key);
    return shardheap_end(&pass->seal, code);
}

/* The same, but if the shard is FULL it collects once and tries again. FULL, NO_SHARD, TOO_LONG, MEMORY, EMPTY,
   OVERLAP.

       code = shardheap_insert(&pass, words, 2, &key);    the value is words[0] and words[1] */
SHARDHEAP_API uint32_t shardheap_insert(shardheap_pass *pass, const uint64_t *words, size_t count, uint64_t *key) {
    uint32_t code = shardheap_insert_once(pass, words, count, key);
    if (code != SHARDHEAP_FULL || shardheap_collect(pass) != SHARDHEAP_OK) return code;
    return shardheap_insert_once(pass, words, count, key);
}

#ifdef __cplusplus
}
#endif
#endif
