/* Tests in which allocations are refused, one in each run. It needs glibc, whose functions give the memory of those that are
 * defined here. */
#ifndef SNO_TESTS_REFUSALS_H
#define SNO_TESTS_REFUSALS_H

#include <stdbool.h>
#include <stdio.h>
#include <stdlib.h>

void *__libc_malloc(size_t size);
void *__libc_realloc(void *memory, size_t size);

enum { MOST_ALLOCATIONS = 5000 };

static int passed = 0, failed = 0;
/* How many allocations are given before one is refused; none is if it is negative. */
static long given = -1;

static bool is_refused(void) {
    return given >= 0 && given-- == 0;
}

void *malloc(size_t size) {
    return is_refused() ? NULL : __libc_malloc(size);
}

void *realloc(void *memory, size_t size) {
    return is_refused() ? NULL : __libc_realloc(memory, size);
}

static void expect(const char *what, bool right) {
    if (right) {
        passed++;
    } else {
        failed++;
        printf("FAILED %s\n", what);
    }
}

#endif
