/* A program under a scheduler. It was compiled with `-fsanitize=thread`, and in place of the sanitizer's library it has
 * this. Calls of the C library that start threads and wait come here too, by the linker's option `--wrap`. At each
 * atomic operation the turn may go to another thread. All threads run in one thread of the system, each on a stack of
 * its own, so a switch is a few instructions. Nothing but the seed decides who goes on. Variables of the environment:
 *
 *   SCHEDULE_SEED    the seed of all choices, 1 without it
 *   SCHEDULE_POINTS  how many points a run may have before it counts as one that does not end, 2^40 without it
 *   SCHEDULE_BROKEN  which of the heaps of broken.py runs, if the program has them; 0 for none, also without it
 *   SCHEDULE_COUNTS  if set, the points and the switches are printed on standard error at the end
 *
 * For some thousand points the same habit holds: how often the thread that has the turn keeps it. So some runs switch
 * at each point, and in others a thread does hundreds of steps before another one goes on. Now and then a thread
 * sleeps: the others take turns without it, for up to 2^14 points, as when a system stops a thread for long. */
#define _GNU_SOURCE
#include <errno.h>
#include <linux/futex.h>
#include <pthread.h>
#include <stdarg.h>
#include <stdint.h>
#include <stdio.h>
#include <stdlib.h>
#include <sys/mman.h>
#include <sys/syscall.h>
#include <unistd.h>

#define MOST_THREADS 64
#define STACK_BYTES ((size_t)16 << 20)
#define GUARD_BYTES ((size_t)4096)
/* The exit status of a run in which all threads wait, or that does not end. */
#define STATUS_STUCK 70

enum state { FREE, READY, WAITING, ENDED };

struct thread {
    enum state state;
    void *saved_stack;      /* where it goes on */
    char *stack;            /* its memory, kept for the next thread in this place */
    void *(*body)(void *);
    void *argument;
    void *result;
    int is_detached;
    const void *address;    /* what it waits at */
    uint64_t sleeps_until;  /* a point */
};

static struct thread threads[MOST_THREADS] = {{.state = READY}};
static int used = 1;    /* places of `threads` that were ever used */
static int ready = 1;   /* threads that can go on */
static struct thread *current = &threads[0];

/* What the tests of broken.py look at. */
int schedule_broken;

static uint64_t seed;
static uint64_t points, switches, most_points;
static uint64_t habit_ends; /* the point at which another habit is drawn */
static uint64_t stays;      /* of 1024 points, at how many a thread keeps the turn */

static uint64_t draw(void)
{
    seed ^= seed << 13;
    seed ^= seed >> 7;
    seed ^= seed << 17;
    return (seed * 0x2545F4914F6CDD1Dull) >> 16;
}

static uint64_t number_of(const char *name, uint64_t otherwise)
{
    const char *text = getenv(name);
    return text ? strtoull(text, NULL, 10) : otherwise;
}

__attribute__((constructor)) static void begin(void)
{
    seed = (number_of("SCHEDULE_SEED", 1) + 1) * 0x9E3779B97F4A7C15ull | 1;
    schedule_broken = (int)number_of("SCHEDULE_BROKEN", 0);
    most_points = number_of("SCHEDULE_POINTS", (uint64_t)1 << 40);
    for (int i = 0; i < 16; i++)
        draw();
}

static void stuck(const char *why)
{
    fprintf(stderr, "schedule: %s after %llu points\n", why, (unsigned long long)points);
    _exit(STATUS_STUCK);
}

/* Saves the registers that a function has to keep on this stack, and continues as the other stack left off. */
void turns_switch(void **from, void *to);
__asm__(".text\n.globl turns_switch\n.hidden turns_switch\n.type turns_switch, @function\n"
        "turns_switch:\n"
        "  pushq %rbp\n  pushq %rbx\n  pushq %r12\n  pushq %r13\n  pushq %r14\n  pushq %r15\n"
        "  movq %rsp, (%rdi)\n  movq %rsi, %rsp\n"
        "  popq %r15\n  popq %r14\n  popq %r13\n  popq %r12\n  popq %rbx\n  popq %rbp\n  ret\n"
        ".size turns_switch, . - turns_switch\n");

/* The n-th of the threads that can go on and, unless all of them sleep, do not sleep. */
static struct thread *pick(void)
{
    struct thread *awake[MOST_THREADS], *asleep[MOST_THREADS];
    uint64_t are_awake = 0, are_asleep = 0;
    for (struct thread *it = threads; it < threads + used; it++) {
        if (it->state != READY)
            continue;
        if (it->sleeps_until > points)
            asleep[are_asleep++] = it;
        else
            awake[are_awake++] = it;
    }
    if (are_awake)
        return awake[draw() % are_awake];
    if (are_asleep)
        return asleep[draw() % are_asleep];
    stuck("all threads wait");
    return NULL;
}

/* Gives the turn to a thread that can go on, maybe the same. */
static void give_turn(void)
{
    struct thread *from = current, *to = pick();
    if (to == from)
        return;
    switches++;
    current = to;
    turns_switch(&from->saved_stack, to->saved_stack);
}

static void draw_habit(void)
{
    static const uint64_t habits[] = {0, 512, 896, 1008, 1020};
    stays = habits[draw() % (sizeof habits / sizeof habits[0])];
    habit_ends = points + 500 + draw() % 4000;
}

/* The turn may go to another thread here: before each atomic operation. */
static void point(void)
{
    if (++points > most_points)
        stuck("the run had not ended");
    if (ready == 1)
        return;
    if (points >= habit_ends)
        draw_habit();
    uint64_t drawn = draw();
    if ((drawn & 1023) < stays)
        return;
    if ((drawn >> 10) % 1024 < 4)
        current->sleeps_until = points + ((uint64_t)1 << (drawn >> 20) % 15);
    give_turn();
}

/* The thread can go on no more, for now or for good. */
static void pause_as(enum state state) { current->state = state, ready--, give_turn(); }

static void resume(struct thread *thread) { thread->state = READY, ready++; }

/* Lets at most so many threads that wait at the address go on; how many. */
static long wake(const void *address, long most)
{
    long woken = 0;
    for (struct thread *it = threads; it < threads + used && woken < most; it++)
        if (it->state == WAITING && it->address == address) {
            resume(it);
            woken++;
        }
    return woken;
}

/* Waits until `wake` is called with this address. */
static void wait_at(const void *address) { current->address = address, pause_as(WAITING); }

/* The first function on a thread's stack. */
static void run(void)
{
    struct thread *mine = current;
    mine->result = mine->body(mine->argument);
    wake(mine, MOST_THREADS);
    pause_as(mine->is_detached ? FREE : ENDED);
    abort();
}

static struct thread *free_place(void)
{
    for (struct thread *it = threads + 1; it < threads + used; it++)
        if (it->state == FREE)
            return it;
    return used < MOST_THREADS ? &threads[used++] : NULL;
}

static char *new_stack(void)
{
    char *stack = mmap(NULL, STACK_BYTES, PROT_READ | PROT_WRITE, MAP_PRIVATE | MAP_ANONYMOUS | MAP_NORESERVE, -1, 0);
    if (stack == MAP_FAILED)
        return NULL;
    mprotect(stack, GUARD_BYTES, PROT_NONE);
    return stack;
}

/* Starting, joining and detaching threads, and waiting, as the program calls the C library for it. */

int __wrap_pthread_create(pthread_t *made, const pthread_attr_t *attributes, void *(*body)(void *), void *argument)
{
    (void)attributes;
    struct thread *thread = free_place();
    if (!thread || !(thread->stack || (thread->stack = new_stack())))
        return EAGAIN;
    thread->body = body, thread->argument = argument;
    thread->sleeps_until = 0, thread->is_detached = 0;
    /* `turns_switch` takes six registers and the address of `run` off it, and a function begins 8 below a multiple of
     * 16. */
    void **top = (void **)(thread->stack + STACK_BYTES - 64);
    *--top = NULL;
    *--top = (void *)run;
    for (int i = 0; i < 6; i++)
        *--top = NULL;
    thread->saved_stack = top;
    resume(thread);
    point();
    *made = (pthread_t)thread;
    return 0;
}

int __wrap_pthread_join(pthread_t joined, void **result)
{
    struct thread *thread = (struct thread *)joined;
    while (thread->state != ENDED)
        wait_at(thread);
    thread->state = FREE;
    if (result)
        *result = thread->result;
    return 0;
}

int __wrap_pthread_detach(pthread_t detached)
{
    struct thread *thread = (struct thread *)detached;
    thread->is_detached = 1;
    if (thread->state == ENDED)
        thread->state = FREE;
    return 0;
}

pthread_t __wrap_pthread_self(void) { return (pthread_t)current; }

int __wrap_sched_yield(void)
{
    point();
    return 0;
}

/* Waiting at a word, and waking those that wait. The word was looked at by the one who has the turn, so there is no
 * moment between the look and the wait. */
static long futex(const uint32_t *word, int operation, uint32_t value)
{
    switch (operation & FUTEX_CMD_MASK) {
    case FUTEX_WAIT: case FUTEX_WAIT_BITSET:
        if (*word != value) {
            errno = EAGAIN;
            return -1;
        }
        wait_at(word);
        return 0;
    case FUTEX_WAKE: case FUTEX_WAKE_BITSET: {
        long woken = wake(word, (int)value);
        point();
        return woken;
    }
    default:
        fprintf(stderr, "schedule: futex operation %d is not known\n", operation);
        abort();
    }
}

long __real_syscall(long number, ...);

long __wrap_syscall(long number, ...)
{
    long words[6];
    va_list rest;
    va_start(rest, number);
    for (int i = 0; i < 6; i++)
        words[i] = va_arg(rest, long);
    va_end(rest);
    if (number == SYS_futex)
        return futex((const uint32_t *)words[0], (int)words[1], (uint32_t)words[2]);
    return __real_syscall(number, words[0], words[1], words[2], words[3], words[4], words[5]);
}

void __real__exit(int status) __attribute__((noreturn));

void __wrap__exit(int status)
{
    if (getenv("SCHEDULE_COUNTS"))
        fprintf(stderr, "schedule: %llu points, %llu switches\n", (unsigned long long)points,
                (unsigned long long)switches);
    __real__exit(status);
}

/* The sanitizer's calls for a word of this many bits. The orders that they are given do not matter here. */
#define ONE(bits, name, does)                                                                                          \
    uint##bits##_t __tsan_atomic##bits##_##name(volatile uint##bits##_t *word, uint##bits##_t value, int order)        \
    {                                                                                                                  \
        (void)order, point();                                                                                          \
        return __atomic_##does(word, value, __ATOMIC_SEQ_CST);                                                         \
    }

#define ALL(bits)                                                                                                      \
    uint##bits##_t __tsan_atomic##bits##_load(const volatile uint##bits##_t *word, int order)                          \
    {                                                                                                                  \
        (void)order, point();                                                                                          \
        return __atomic_load_n(word, __ATOMIC_SEQ_CST);                                                                \
    }                                                                                                                  \
    void __tsan_atomic##bits##_store(volatile uint##bits##_t *word, uint##bits##_t value, int order)                   \
    {                                                                                                                  \
        (void)order, point();                                                                                          \
        __atomic_store_n(word, value, __ATOMIC_SEQ_CST);                                                               \
    }                                                                                                                  \
    uint##bits##_t __tsan_atomic##bits##_compare_exchange_val(volatile uint##bits##_t *word, uint##bits##_t wanted,    \
                                                              uint##bits##_t value, int order, int otherwise)          \
    {                                                                                                                  \
        (void)order, (void)otherwise, point();                                                                         \
        __atomic_compare_exchange_n(word, &wanted, value, 0, __ATOMIC_SEQ_CST, __ATOMIC_SEQ_CST);                      \
        return wanted;                                                                                                 \
    }                                                                                                                  \
    ONE(bits, exchange, exchange_n)                                                                                    \
    ONE(bits, fetch_add, fetch_add)                                                                                    \
    ONE(bits, fetch_sub, fetch_sub)                                                                                    \
    ONE(bits, fetch_and, fetch_and)                                                                                    \
    ONE(bits, fetch_or, fetch_or)                                                                                      \
    ONE(bits, fetch_xor, fetch_xor)

ALL(8)
ALL(16)
ALL(32)
ALL(64)

void __tsan_atomic_thread_fence(int order) { (void)order, point(); }

/* Its calls at other accesses, which need no point: nothing but atomic words is shared by threads of a program in which
 * the sanitizer itself finds no race. */
#define NOTHING(name) void __tsan_##name(void *address) { (void)address; }
#define ACCESS(bytes) NOTHING(read##bytes) NOTHING(write##bytes)
#define ANYWHERE(bytes) ACCESS(bytes) NOTHING(unaligned_read##bytes) NOTHING(unaligned_write##bytes)
#define RANGE(name) void __tsan_##name##_range(void *address, size_t length) { (void)address, (void)length; }

ACCESS(1)
ANYWHERE(2)
ANYWHERE(4)
ANYWHERE(8)
ANYWHERE(16)
NOTHING(func_entry)
RANGE(read)
RANGE(write)

void __tsan_func_exit(void) {}
void __tsan_init(void) {}
