/* Lists the document of a file or of standard input, in C.
 *
 *     list [FILE]      reads standard input if FILE is `-` or isn't given
 *
 * Writes the listing to standard output, or `list: FILE: ` and the fault to standard error. Ends with the status of the
 * call, with 3 if the arguments are wrong, and with 4 if a file can't be read or the listing can't be written. */
#include "sno_rewrite.h"

#include <errno.h>
#include <stdio.h>
#include <stdlib.h>
#include <string.h>

enum { FIRST_ROOM = 64 * 1024 };

/* Statuses that no call returned. */
enum { WRONG_USE = 3, STREAM_FAILED = 4 };

static int report(const char *name, const char *fault, int status) {
    fprintf(stderr, "list: %s: %s\n", name, fault);
    return status;
}

/* Reads to the end, or one byte past the longest document, which is enough to see that it is too long. Returns null and
 * leaves errno if that fails. */
static uint8_t *read_all(FILE *file, size_t *length) {
    size_t room = FIRST_ROOM;
    uint8_t *bytes = malloc(room);
    *length = 0;
    while (bytes) {
        *length += fread(bytes + *length, 1, room - *length, file);
        if (ferror(file)) {
            int fault = errno;
            free(bytes);
            errno = fault;
            return NULL;
        }
        if (*length < room || *length > SNO_LONGEST_DOCUMENT)
            return bytes;
        room *= 2;
        uint8_t *more = realloc(bytes, room);
        if (!more)
            free(bytes);
        bytes = more;
    }
    errno = ENOMEM;
    return NULL;
}

static uint8_t *read_document(const char *path, size_t *length) {
    FILE *file = path ? fopen(path, "rb") : stdin;
    if (!file)
        return NULL;
    uint8_t *bytes = read_all(file, length);
    int fault = errno;
    if (path)
        fclose(file);
    errno = fault;
    return bytes;
}

/* Writes the listing, or reports the fault. `output` has room for the line of any fault and one byte more. */
static int finish(const char *name, uint8_t status, uint8_t *output, size_t length) {
    switch (status) {
    case SNO_ALL_ACCEPTED:
    case SNO_SOME_REFUSED:
        if (fwrite(output, 1, length, stdout) != length || fflush(stdout))
            return report("standard output", strerror(errno), STREAM_FAILED);
        return status;
    case SNO_NO_DOCUMENT:
    case SNO_NO_MEMORY:
        output[length] = '\0';
        if (length)
            return report(name, (const char *)output, status);
        return report(name, status == SNO_NO_MEMORY ? "out of memory" : "not a document", status);
    default:
        fprintf(stderr, "list: %s: unexpected status %d\n", name, status);
        return status;
    }
}

static uint8_t list(const uint8_t *document, size_t document_length, uint8_t *output, size_t room, size_t *length) {
    return sno_rewrite(document, document_length, false, false, SNO_USUAL_TRIALS, output, room, length);
}

int main(int count, char **arguments) {
    if (count > 2) {
        fprintf(stderr, "usage: list [FILE]\n");
        return WRONG_USE;
    }
    const char *path = count == 2 && strcmp(arguments[1], "-") ? arguments[1] : NULL;
    const char *name = path ? path : "standard input";
    size_t document_length = 0, length = 0;
    uint8_t *document = read_document(path, &document_length);
    if (!document)
        return report(name, strerror(errno), STREAM_FAILED);

    static uint8_t first[FIRST_ROOM + 1];
    uint8_t *output = first, *longer = NULL;
    uint8_t status = list(document, document_length, output, FIRST_ROOM, &length);
    if (status == SNO_TOO_SHORT) {
        longer = malloc(length + 1);
        if (longer) {
            output = longer;
            status = list(document, document_length, output, length, &length);
        } else {
            status = SNO_NO_MEMORY;
            length = 0;
        }
    }
    int ending = finish(name, status, output, length);
    free(longer);
    free(document);
    return ending;
}
