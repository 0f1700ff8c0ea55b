/* What scripts/compiled/tsan links into a program beside ThreadSanitizer's own library. The linker's option `--wrap`
 * sends each atomic operation here, and it goes on to the sanitizer: with the order that the program asked for, or with
 * `memory_order_relaxed` if the variable TSAN_WEAK is set. Under that no operation orders what other threads do, so the
 * sanitizer has to warn. */
#include <stddef.h>
#include <stdint.h>
#include <stdlib.h>
#include <string.h>

static int is_weak;

__attribute__((constructor)) static void begin(void) { is_weak = getenv("TSAN_WEAK") != NULL; }

static int order_of(int order) { return is_weak ? 0 : order; }

#define ONE(bits, name)                                                                                                \
    uint##bits##_t __real___tsan_atomic##bits##_##name(volatile uint##bits##_t *, uint##bits##_t, int);                \
    uint##bits##_t __wrap___tsan_atomic##bits##_##name(volatile uint##bits##_t *word, uint##bits##_t value, int order) \
    {                                                                                                                  \
        return __real___tsan_atomic##bits##_##name(word, value, order_of(order));                                      \
    }

#define ALL(bits)                                                                                                      \
    uint##bits##_t __real___tsan_atomic##bits##_load(const volatile uint##bits##_t *, int);                            \
    uint##bits##_t __wrap___tsan_atomic##bits##_load(const volatile uint##bits##_t *word, int order)                   \
    {                                                                                                                  \
        return __real___tsan_atomic##bits##_load(word, order_of(order));                                               \
    }                                                                                                                  \
    void __real___tsan_atomic##bits##_store(volatile uint##bits##_t *, uint##bits##_t, int);                           \
    void __wrap___tsan_atomic##bits##_store(volatile uint##bits##_t *word, uint##bits##_t value, int order)            \
    {                                                                                                                  \
        __real___tsan_atomic##bits##_store(word, value, order_of(order));                                              \
    }                                                                                                                  \
    uint##bits##_t __real___tsan_atomic##bits##_compare_exchange_val(volatile uint##bits##_t *, uint##bits##_t,        \
                                                                     uint##bits##_t, int, int);                        \
    uint##bits##_t __wrap___tsan_atomic##bits##_compare_exchange_val(                                                  \
        volatile uint##bits##_t *word, uint##bits##_t wanted, uint##bits##_t value, int order, int otherwise)          \
    {                                                                                                                  \
        return __real___tsan_atomic##bits##_compare_exchange_val(word, wanted, value, order_of(order),                 \
                                                                 order_of(otherwise));                                 \
    }                                                                                                                  \
    ONE(bits, exchange)                                                                                                \
    ONE(bits, fetch_add)                                                                                               \
    ONE(bits, fetch_sub)                                                                                               \
    ONE(bits, fetch_and)                                                                                               \
    ONE(bits, fetch_or)                                                                                                \
    ONE(bits, fetch_xor)

ALL(8)
ALL(16)
ALL(32)
ALL(64)
