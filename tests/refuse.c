/* A library for tests/refused_memory. Loaded into a program by LD_PRELOAD, it refuses one of its allocations, or all from one on.
 *
 *   REFUSE_AT      the allocation that is refused, counted from 1; 0 for none
 *   REFUSE_MODE    once: that one alone; on: that one and all after it
 *   REFUSE_COUNTS  a file of two numbers of 8 bytes: how many allocations were asked for, and how many of them were refused
 *
 * It counts from its constructor on, in all threads together, also what the C library asks for, as for a thread. A free is never refused.
 * It uses names of the GNU C library. */
#include <errno.h>
#include <fcntl.h>
#include <stdatomic.h>
#include <stdbool.h>
#include <stdint.h>
#include <stdlib.h>
#include <string.h>
#include <sys/mman.h>
#include <unistd.h>

void *__libc_malloc(size_t size);
void *__libc_calloc(size_t count, size_t size);
void *__libc_realloc(void *block, size_t size);
void *__libc_memalign(size_t alignment, size_t size);

struct counts {
    _Atomic uint64_t asked;
    _Atomic uint64_t refused;
};

static struct counts *counts;
static uint64_t refused_at;
static bool goes_on;

__attribute__((constructor)) static void prepare(void) {
    const char *at = getenv("REFUSE_AT");
    const char *mode = getenv("REFUSE_MODE");
    const char *path = getenv("REFUSE_COUNTS");
    int file = at && mode && path ? open(path, O_RDWR) : -1;
    void *mapped = file < 0 ? MAP_FAILED : mmap(NULL, sizeof *counts, PROT_READ | PROT_WRITE, MAP_SHARED, file, 0);
    if (mapped == MAP_FAILED)
        _exit(127);
    close(file);
    refused_at = strtoull(at, NULL, 10);
    goes_on = strcmp(mode, "on") == 0;
    counts = mapped;
}

static bool is_refused(void) {
    if (counts == NULL)
        return false;
    uint64_t number = atomic_fetch_add(&counts->asked, 1) + 1;
    if (refused_at == 0 || number < refused_at || (number > refused_at && !goes_on))
        return false;
    atomic_fetch_add(&counts->refused, 1);
    errno = ENOMEM;
    return true;
}

void *malloc(size_t size) {
    return is_refused() ? NULL : __libc_malloc(size);
}

void *calloc(size_t count, size_t size) {
    return is_refused() ? NULL : __libc_calloc(count, size);
}

void *realloc(void *block, size_t size) {
    return is_refused() ? NULL : __libc_realloc(block, size);
}

void *aligned_alloc(size_t alignment, size_t size) {
    return is_refused() ? NULL : __libc_memalign(alignment, size);
}

int posix_memalign(void **block, size_t alignment, size_t size) {
    void *found = aligned_alloc(alignment, size);
    if (found == NULL)
        return ENOMEM;
    *block = found;
    return 0;
}
