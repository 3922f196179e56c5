/* A library for tests/store. Loaded into a program by LD_PRELOAD, it makes one write to a place in a file, or one wait for the disk, fail.
 *
 *   REFUSE_AT      the call that fails, counted from 1; 0 for none
 *   REFUSE_ERROR   the number of its error, as 28 for a full disk
 *   REFUSE_COUNTS  a file of 8 bytes: how many such calls were made
 *
 * Only writes with an offset count, by which a store is written: listings and replies go on. It uses names of the GNU C library. */
#define _GNU_SOURCE
#include <dlfcn.h>
#include <errno.h>
#include <fcntl.h>
#include <stdatomic.h>
#include <stdint.h>
#include <stdlib.h>
#include <sys/mman.h>
#include <unistd.h>

static _Atomic uint64_t *calls;
static uint64_t refused_at;
static int error;

__attribute__((constructor)) static void prepare(void) {
    const char *at = getenv("REFUSE_AT");
    const char *number = getenv("REFUSE_ERROR");
    const char *path = getenv("REFUSE_COUNTS");
    int file = at && number && path ? open(path, O_RDWR) : -1;
    void *mapped = file < 0 ? MAP_FAILED : mmap(NULL, sizeof *calls, PROT_READ | PROT_WRITE, MAP_SHARED, file, 0);
    if (mapped == MAP_FAILED)
        _exit(127);
    close(file);
    refused_at = strtoull(at, NULL, 10);
    error = atoi(number);
    calls = mapped;
}

static int is_refused(void) {
    if (atomic_fetch_add(calls, 1) + 1 != refused_at)
        return 0;
    errno = error;
    return 1;
}

ssize_t pwrite(int file, const void *bytes, size_t count, off_t at) {
    static ssize_t (*call)(int, const void *, size_t, off_t);
    if (!call)
        call = dlsym(RTLD_NEXT, "pwrite");
    return is_refused() ? -1 : call(file, bytes, count, at);
}

ssize_t pwrite64(int file, const void *bytes, size_t count, off64_t at) {
    static ssize_t (*call)(int, const void *, size_t, off64_t);
    if (!call)
        call = dlsym(RTLD_NEXT, "pwrite64");
    return is_refused() ? -1 : call(file, bytes, count, at);
}

int fsync(int file) {
    static int (*call)(int);
    if (!call)
        call = dlsym(RTLD_NEXT, "fsync");
    return is_refused() ? -1 : call(file);
}

int fdatasync(int file) {
    static int (*call)(int);
    if (!call)
        call = dlsym(RTLD_NEXT, "fdatasync");
    return is_refused() ? -1 : call(file);
}
