/* The places of a table for its threads. table.c alone includes this file, for its calls.

   A place is a pass of the heap with whatever shards it owns. One thread at a time has it:
     - the places 0 to 59 are for threads of their own. Two words have a bit for each that no thread has: `fresh` if it
       has no pass yet, `resting` if it has. To take a place is to clear its bit;
     - the places 60 to 63 are shared, each behind a lock.

   A thread remembers its places in a list, and the last ones by the numbers of tables. The end of the thread lets them
   rest: a destructor of one pthread key of the process does that. Each place in a list keeps the memory of its table's
   places, so that a thread may end after the table is closed, or meanwhile. */
#ifndef SHARDHEAP_PLACES_H
#define SHARDHEAP_PLACES_H

#include "shardheap_table.h"
#include <pthread.h>
#include <stdalign.h>
#include <stdatomic.h>
#include <stdlib.h>

/* How many places there are, and where a test has threads take turns: library/c/table_turns.c has its own. WAIT locks a
   mutex. */
#ifndef SHARDHEAP_MARK
#define SHARDHEAP_MARK() ((void)0)
#define SHARDHEAP_WAIT(lock) ((void)pthread_mutex_lock(lock))
enum { OWN = 60, SHARED = 4 };
#endif

enum { PLACES = OWN + SHARED, RECENT = 8, LINE_PAIR = 128 };
static const uint64_t ALL_OWN = (UINT64_C(1) << OWN) - 1;

/* A place is alone on its cache lines. */
typedef struct place {
    alignas(LINE_PAIR) shardheap_pass pass; /* empty before the first thread has the place */
    shardheap heap;                         /* what the pass is taken from: a handle is used by one call at a time */
    _Atomic int64_t count;                  /* inserts by this place less removals */
    bool busy;                              /* its thread is within an insert, whose allocator may call the table */
    shardheap_places *of;
    struct place *next; /* in the list of its thread */
} place;

struct shardheap_places {
    uint64_t number;            /* no two tables of the process have the same; from 1 */
    shardheap_end_hook *on_end; /* what is called as a key ends, or null; it does not change while calls run */
    void *context;              /* with this */
    _Atomic uint64_t fresh, resting;
    _Atomic uint32_t waited; /* how often a thread waited for a shared place */
    _Atomic uint32_t kept;   /* by the table, and by each thread that has a place */
    _Atomic bool closed;
    pthread_mutex_t locks[SHARED];
    pthread_mutex_t asks; /* for `heap`. No call that takes memory has it, so that an allocator may wait for it */
    shardheap heap;       /* what tells of the heap as a whole */
    place all[PLACES];
};

/* What a thread has. It has no destructor of its own, so that calls may come from any destructor of the thread. */
static _Thread_local __attribute__((tls_model("initial-exec"))) struct {
    struct {
        uint64_t number;
        place *place;
    } recent[RECENT];
    place *list;
    uint32_t within; /* calls of this thread that allocate, and may have a lock */
    bool ended;      /* the destructor has run */
} mine;

static pthread_mutex_t key_lock = PTHREAD_MUTEX_INITIALIZER;
static pthread_key_t key;
static bool has_key;

/* ---- Which places are free ---- */

static uint64_t bit(int number) {
    return UINT64_C(1) << number;
}

/* Takes one of these places: its number, or -1. What the thread before did with it happens before. */
static int take_one(_Atomic uint64_t *of) {
    uint64_t free_ones = atomic_load_explicit(of, memory_order_relaxed);
    do {
        if (free_ones == 0) return -1;
        SHARDHEAP_MARK();
    } while (!atomic_compare_exchange_weak_explicit(of, &free_ones, free_ones & (free_ones - 1), memory_order_acquire,
                                                    memory_order_relaxed));
    return __builtin_ctzll(free_ones);
}

/* Takes the place of this number, unless another thread has it. */
static bool take_this(_Atomic uint64_t *of, int number) {
    if (!(atomic_load_explicit(of, memory_order_relaxed) & bit(number))) return false;
    SHARDHEAP_MARK();
    return (atomic_fetch_and_explicit(of, ~bit(number), memory_order_acquire) & bit(number)) != 0;
}

/* Gives a place back that the thread took. */
static void give_back(_Atomic uint64_t *of, int number) {
    SHARDHEAP_MARK();
    atomic_fetch_or_explicit(of, bit(number), memory_order_release);
}

/* ---- The memory of places ---- */

static void keep(shardheap_places *of) {
    atomic_fetch_add_explicit(&of->kept, 1, memory_order_relaxed);
}

static void let_go(shardheap_places *of) {
    if (atomic_fetch_sub_explicit(&of->kept, 1, memory_order_acq_rel) == 1) free(of);
}

/* ---- What a thread has ---- */

/* The place of this thread in the table, if it was used lately. */
static inline place *recent(const shardheap_places *of) {
    size_t at = of->number % RECENT;
    return mine.recent[at].number == of->number ? mine.recent[at].place : NULL;
}

/* The same, unless it is busy. */
static inline place *recent_idle(const shardheap_places *of) {
    size_t at = of->number % RECENT;
    return mine.recent[at].number == of->number && !mine.recent[at].place->busy ? mine.recent[at].place : NULL;
}

static void remember(place *it) {
    size_t at = it->of->number % RECENT;
    mine.recent[at].number = it->of->number;
    mine.recent[at].place = it;
}

/* The place of this thread in the table, or null. */
static place *own(const shardheap_places *of) {
    place *it = recent(of);
    if (it) return it;
    for (it = mine.list; it && it->of != of; it = it->next) {}
    if (it) remember(it);
    return it;
}

/* Takes a place out of the list, and lets it rest. The thread does not use it any more. */
static void rest(place **link) {
    place *it = *link;
    shardheap_places *of = it->of;
    *link = it->next;
    if (recent(of) == it) mine.recent[of->number % RECENT].number = 0;
    give_back(&of->resting, (int)(it - of->all));
    let_go(of);
}

static place **link_of(const shardheap_places *of) {
    place **link = &mine.list;
    while (*link && (*link)->of != of) link = &(*link)->next;
    return link;
}

/* Lets go of the tables that were closed. */
static void forget_closed(void) {
    place **link = &mine.list;
    while (*link) {
        if (atomic_load_explicit(&(*link)->of->closed, memory_order_acquire)) rest(link);
        else link = &(*link)->next;
    }
}

/* The end of a thread. */
static void ends(void *of_thread) {
    (void)of_thread;
    mine.ended = true;
    while (mine.list) rest(&mine.list);
}

/* Takes a place with its pass: its number, or -1 with the reason. A place that rests has shards, so it comes first. */
static int take_place(shardheap_places *of, uint32_t *code) {
    int number = take_one(&of->resting);
    *code = SHARDHEAP_OK;
    if (number >= 0) return number;
    *code = SHARDHEAP_NO_PLACE;
    number = take_one(&of->fresh);
    if (number < 0) return number;
    *code = shardheap_raw_take(&of->all[number].heap, &of->all[number].pass);
    if (*code == SHARDHEAP_OK) return number;
    give_back(&of->fresh, number);
    return -1;
}

/* Takes a place for this thread, which has none in the table and is in no call that allocates. NO_PLACE, MEMORY. */
static uint32_t enter(shardheap_places *of) {
    uint32_t code = SHARDHEAP_MEMORY;
    if (mine.ended) return SHARDHEAP_NO_PLACE;
    mine.within++;
    forget_closed();
    /* (the C library may need memory for it) */
    int number = pthread_setspecific(key, &mine) == 0 ? take_place(of, &code) : -1;
    mine.within--;
    if (number < 0) return code;
    place *it = &of->all[number];
    keep(of);
    it->next = mine.list;
    mine.list = it;
    remember(it);
    return code;
}

/* ---- A place for one call ---- */

/* A place, and the lock that the call has to unlock, or the number of a place that it has to give back. */
typedef struct turn {
    place *place;
    pthread_mutex_t *lock;
    int number;
} turn;

static bool by_lock(shardheap_places *of, int n, bool waits, turn *it) {
    pthread_mutex_t *lock = &of->locks[n];
    SHARDHEAP_MARK();
    if (pthread_mutex_trylock(lock) != 0) {
        if (!waits) return false;
        SHARDHEAP_WAIT(lock);
    }
    *it = (turn){&of->all[OWN + n], lock, -1};
    return true;
}

static bool by_rest(shardheap_places *of, int n, turn *it) {
    if (!take_this(&of->resting, n)) return false;
    *it = (turn){&of->all[n], NULL, n};
    return true;
}

static void end_turn(shardheap_places *of, const turn *it) {
    if (it->lock) pthread_mutex_unlock(it->lock);
    if (it->number >= 0) give_back(&of->resting, it->number);
}

/* A place that this thread does not keep. Within a call that allocates it waits for no lock. */
static uint32_t borrow(shardheap_places *of, turn *it) {
    for (int n = 0; n < SHARED; n++)
        if (by_lock(of, n, false, it)) return SHARDHEAP_OK;
    if (mine.within == 0) {
        uint32_t before = atomic_fetch_add_explicit(&of->waited, 1, memory_order_relaxed);
        by_lock(of, (int)(before % SHARED), true, it);
        return SHARDHEAP_OK;
    }
    for (int n = 0; n < OWN; n++)
        if (by_rest(of, n, it)) return SHARDHEAP_OK;
    return SHARDHEAP_NO_PLACE;
}

/* A place for a call: the thread's own, or a borrowed one. NO_PLACE, within a call that allocates. */
static uint32_t begin_turn(shardheap_places *of, turn *it) {
    place *found = own(of);
    if (!found && mine.within == 0 && enter(of) == SHARDHEAP_OK) found = own(of);
    if (!found || found->busy) return borrow(of, it);
    *it = (turn){found, NULL, -1};
    return SHARDHEAP_OK;
}

/* ---- New places ---- */

/* The process has one pthread key for all tables. */
static bool makes_key(void) {
    pthread_mutex_lock(&key_lock);
    if (!has_key) has_key = pthread_key_create(&key, ends) == 0;
    bool made = has_key;
    pthread_mutex_unlock(&key_lock);
    return made;
}

static shardheap_places *new_places(void) {
    static _Atomic uint64_t opened;
    shardheap_places *made = aligned_alloc(LINE_PAIR, sizeof *made);
    if (!made) return NULL;
    memset(made, 0, sizeof *made);
    made->number = 1 + atomic_fetch_add_explicit(&opened, 1, memory_order_relaxed);
    made->fresh = ALL_OWN;
    made->kept = 1;
    static const shardheap_pass no_pass = SHARDHEAP_INIT;
    static const shardheap no_heap = SHARDHEAP_INIT;
    made->heap = no_heap;
    for (int n = 0; n < PLACES; n++) {
        made->all[n].pass = no_pass;
        made->all[n].heap = no_heap;
        made->all[n].of = made;
    }
    for (int n = 0; n < SHARED; n++) pthread_mutex_init(&made->locks[n], NULL);
    pthread_mutex_init(&made->asks, NULL);
    return made;
}

#endif
