/* The allocator's functions as a program has them that is linked with --wrap=malloc, --wrap=aligned_alloc,
   --wrap=realloc and --wrap=free. */
#ifndef WRAPPED_H
#define WRAPPED_H

#include <stddef.h>

void *__real_malloc(size_t size);
void *__real_aligned_alloc(size_t alignment, size_t size);
void *__real_realloc(void *at, size_t size);
void __real_free(void *at);
void *__wrap_malloc(size_t size);
void *__wrap_aligned_alloc(size_t alignment, size_t size);
void *__wrap_realloc(void *at, size_t size);
void __wrap_free(void *at);

#endif
