/* A library for tests/store. Loaded into a program by LD_PRELOAD, it lets the program wait before one of its locks of a range of a file.
 *
 *   WAIT_AT_LOCK   a file that is made when the program waits; it goes on when the file is removed
 *   WAIT_NUMBER    which of its locks that is, counted from 1
 *
 * It uses names of the GNU C library. */
#define _GNU_SOURCE
#include <dlfcn.h>
#include <fcntl.h>
#include <stdarg.h>
#include <stdlib.h>
#include <unistd.h>

static _Atomic long locks;

static void wait_once(void) {
    const char *path = getenv("WAIT_AT_LOCK");
    const char *number = getenv("WAIT_NUMBER");
    if (!path || !number || ++locks != atol(number))
        return;
    close(open(path, O_CREAT | O_WRONLY, 0600));
    while (access(path, F_OK) == 0)
        usleep(1000);
}

/* Each argument of these calls is a pointer or fits into one. */
int fcntl(int file, int command, ...) {
    static int (*call)(int, int, ...);
    va_list rest;
    va_start(rest, command);
    void *argument = va_arg(rest, void *);
    va_end(rest);
    if (!call)
        call = dlsym(RTLD_NEXT, "fcntl");
    if (command == F_OFD_SETLK || command == F_SETLK)
        wait_once();
    return call(file, command, argument);
}
