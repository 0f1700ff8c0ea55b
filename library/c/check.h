/* What the tests have in common: each check that fails ends the program, with its line. */
#ifndef CHECK_H
#define CHECK_H

#include "shardheap.h"
#include <stdio.h>
#include <stdlib.h>

static int checks; /* by all threads */

static void same_code(uint32_t got, uint32_t wanted, const char *call, const char *file, int line) {
    __atomic_add_fetch(&checks, 1, __ATOMIC_RELAXED);
    if (got == wanted) return;
    fprintf(stderr, "%s:%d: %s is %s and not %s\n", file, line, call, shardheap_name(got), shardheap_name(wanted));
    exit(1);
}

static void true_that(int what, const char *text, const char *file, int line) {
    __atomic_add_fetch(&checks, 1, __ATOMIC_RELAXED);
    if (what) return;
    fprintf(stderr, "%s:%d: %s\n", file, line, text);
    exit(1);
}

#define IS(call, code) same_code((call), (uint32_t)(code), #call, __FILE__, __LINE__)
#define TRUE(what) true_that(!!(what), #what, __FILE__, __LINE__)

#endif
