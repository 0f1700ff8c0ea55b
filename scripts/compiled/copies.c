/* clang's names for what fills and copies memory under `-fsanitize=thread`. The sanitizer's library of gcc 12 lacks
 * them, and sees these accesses in the C library's functions. */
#include <string.h>

#define WEAK __attribute__((weak))

WEAK void *__tsan_memset(void *to, int byte, size_t length) { return memset(to, byte, length); }
WEAK void *__tsan_memcpy(void *to, const void *from, size_t length) { return memcpy(to, from, length); }
WEAK void *__tsan_memmove(void *to, const void *from, size_t length) { return memmove(to, from, length); }
