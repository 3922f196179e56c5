/* Tries books in handles, in C and in C++: each kind of line with its reply, each status, short buffers, and the bytes
 * of buffers. What is wanted was worked out by hand from docs/SERVE.md. Ends with 1 if something failed. */
#include "../sno_rewrite.h"

#include <stdio.h>
#include <stdlib.h>
#include <string.h>

enum { SPACE = 4096, FILLER = '#' };

static int passed = 0, failed = 0;

static void expect(const char *what, bool right) {
    if (right) {
        passed++;
    } else {
        failed++;
        printf("FAILED %s\n", what);
    }
}

static const uint8_t *bytes_of(const char *text) {
    return (const uint8_t *)text;
}

static sno_book closed_book(void) {
    sno_book book;
    memset(&book, 0, sizeof book);
    return book;
}

static const char DOCUMENT[] = "{\"patterns\":[{\"name\":\"DIGIT\",\"pattern\":\"ANY('0123456789')\"}],"
                               "\"texts\":[{\"name\":\"T\",\"text\":\"the cat\"},{\"name\":\"N\",\"text\":\"0\"}],"
                               "\"statements\":[{\"text\":\"T\",\"pattern\":\"'the'\",\"object\":\"'a'\"},"
                               "{\"text\":\"V\",\"pattern\":\"'the'\"}]}";

static sno_book opened(void) {
    sno_book book = closed_book();
    uint8_t line[SPACE];
    size_t length = 12345;
    uint8_t status = sno_book_open(bytes_of(DOCUMENT), strlen(DOCUMENT), false, SNO_USUAL_TRIALS, line, sizeof line,
                                   &length, &book);
    expect("a book is opened", status == SNO_DONE && length == 0 && book.handle.is_open);
    return book;
}

/* The buffer begins with the bytes, and after them it is as it was. */
static bool has(const uint8_t *buffer, size_t space, const char *wanted, size_t length) {
    if (length != strlen(wanted) || memcmp(buffer, wanted, length))
        return false;
    for (size_t place = length; place < space; place++)
        if (buffer[place] != FILLER)
            return false;
    return true;
}

static bool is_filled(const uint8_t *buffer, size_t space) {
    return has(buffer, space, "", 0);
}

/* Gives a line, and wants a reply with its line feed. */
static void try_line(sno_book *book, const char *line, const char *wanted) {
    uint8_t buffer[SPACE];
    size_t length = 12345;
    memset(buffer, FILLER, sizeof buffer);
    uint8_t status = sno_book_line(book, bytes_of(line), strlen(line), buffer, sizeof buffer, &length);
    bool right = status == SNO_DONE && has(buffer, sizeof buffer, wanted, length);
    if (!right)
        printf("status %d: %.*s", status, length < SPACE ? (int)length : 0, (const char *)buffer);
    expect(line, right);
    memset(buffer, FILLER, sizeof buffer);
    status = sno_book_reply(book, buffer, sizeof buffer, &length);
    expect("the reply once more", status == SNO_DONE && has(buffer, sizeof buffer, wanted, length));
}

static void try_lines(void) {
    sno_book book = opened();
    try_line(&book, "{\"id\":1,\"text\":\"T\",\"pattern\":\"'cat'\",\"object\":\"'dog'\"}",
             "{\"after\":\"a dog\",\"bindings\":[],\"end\":5,\"entry\":1,\"id\":1,\"matched\":true,\"start\":2,"
             "\"statement\":3,\"text\":\"T\",\"version\":1}\n");
    try_line(&book, "{\"id\":\"x\",\"read\":\"T\"}\n", "{\"id\":\"x\",\"name\":\"T\",\"text\":\"a dog\",\"version\":2}\n");
    try_line(&book, "{\"read\":\"T\",\"at\":0}", "{\"name\":\"T\",\"text\":\"the cat\",\"version\":0}\n");
    try_line(&book, "{\"read\":\"T\",\"at\":1}", "{\"name\":\"T\",\"text\":\"a cat\",\"version\":1}\n");
    try_line(&book, "{\"read\":\"T\",\"at\":3}", "{\"reason\":\"no version\"}\n");
    try_line(&book, "{\"read\":\"V\"}", "{\"reason\":\"no text\"}\n");
    try_line(&book, "{\"texts\":true}",
             "{\"texts\":[{\"length\":5,\"name\":\"T\",\"version\":2},{\"length\":1,\"name\":\"N\",\"version\":0}]}\n");
    try_line(&book, "{\"text\":\"U\",\"pattern\":\"'cat'\"}", "{\"reason\":\"no text\"}\n");
    try_line(&book, "{\"text\":\"T\",\"pattern\":\"CAT\"}", "{\"error\":\"pattern: unknown name at 0\"}\n");
    try_line(&book, "", "{\"error\":\"not JSON\"}\n");
    try_line(&book, "{\"text\":\"T\",\"pattern\":\"'dog'\",\"object\":\"'cow'\",\"if_version\":1}",
             "{\"reason\":\"changed\",\"version\":2}\n");
    try_line(&book, "{\"text\":\"T\",\"pattern\":\"ARB 'z'\",\"trials\":5}", "{\"reason\":\"too many trials\"}\n");
    try_line(&book, "{\"text\":\"N\",\"pattern\":\"DIGIT . D\",\"object\":\"D W\",\"bind\":{\"W\":\"1\"},\"check\":true,\"x\":1}",
             "{\"after\":\"01\",\"bindings\":[[\"D\",\"0\"]],\"check\":true,\"end\":1,\"entry\":2,\"findings\":[],"
             "\"ignored\":[\"x\"],\"matched\":true,\"start\":0,\"statement\":7,\"text\":\"N\",\"version\":0}\n");
    try_line(&book, "{\"since\":1,\"limit\":9,\"text\":\"T\"}",
             "{\"entries\":[{\"after\":\"a dog\",\"bindings\":[],\"end\":5,\"entry\":1,\"matched\":true,\"start\":2,"
             "\"statement\":3,\"text\":\"T\",\"version\":1}]}\n");
    try_line(&book, "{\"since\":2}", "{\"entries\":[]}\n");
    sno_book_close(&book);
}

static const char LISTING[] = "{\"entries\":[{\"after\":\"a cat\",\"bindings\":[],\"end\":3,\"entry\":0,\"matched\":true,"
                              "\"start\":0,\"statement\":1,\"text\":\"T\",\"version\":0},{\"bindings\":[],\"entry\":1,"
                              "\"matched\":false,\"statement\":3,\"text\":\"N\",\"version\":0}],\"refused\":[{\"reason\":"
                              "\"no text\",\"statement\":2},{\"reason\":\"no text\",\"statement\":4}],\"texts\":[{\"name\":"
                              "\"T\",\"text\":\"a cat\",\"version\":1},{\"name\":\"N\",\"text\":\"0\",\"version\":0}]}\n";

static void try_listing(void) {
    sno_book book = opened();
    uint8_t buffer[SPACE];
    size_t length = 12345, wanted = strlen(LISTING);
    try_line(&book, "{\"text\":\"N\",\"pattern\":\"'x'\"}",
             "{\"bindings\":[],\"entry\":1,\"matched\":false,\"statement\":3,\"text\":\"N\",\"version\":0}\n");
    try_line(&book, "{\"text\":\"U\",\"pattern\":\"'x'\"}", "{\"reason\":\"no text\"}\n");
    for (int turn = 0; turn < 2; turn++) {
        memset(buffer, FILLER, sizeof buffer);
        uint8_t status = sno_book_listing(&book, buffer, sizeof buffer, &length);
        expect("the listing", status == SNO_DONE && has(buffer, sizeof buffer, LISTING, length));
        memset(buffer, FILLER, sizeof buffer);
        status = sno_book_listing(&book, buffer, wanted - 1, &length);
        expect("a buffer too short for the listing",
               status == SNO_TOO_SHORT && length == wanted && is_filled(buffer, sizeof buffer));
    }
    memset(buffer, FILLER, sizeof buffer);
    expect("a buffer just long enough", sno_book_listing(&book, buffer, wanted, &length) == SNO_DONE &&
                                            has(buffer, sizeof buffer, LISTING, length));
    sno_book_close(&book);
}

/* A line whose reply is too long for the buffer is done once. */
static void try_short(void) {
    static const char line[] = "{\"text\":\"N\",\"pattern\":\"'0'\",\"object\":\"'00'\"}";
    static const char reply[] = "{\"after\":\"00\",\"bindings\":[],\"end\":1,\"entry\":1,\"matched\":true,\"start\":0,"
                                "\"statement\":3,\"text\":\"N\",\"version\":0}\n";
    sno_book book = opened();
    uint8_t buffer[SPACE];
    size_t length = 12345;
    expect("no reply before a line", sno_book_reply(&book, buffer, sizeof buffer, &length) == SNO_NOTHING && length == 0);
    memset(buffer, FILLER, sizeof buffer);
    uint8_t status = sno_book_line(&book, bytes_of(line), strlen(line), buffer, 0, &length);
    expect("no room for the reply",
           status == SNO_TOO_SHORT && length == strlen(reply) && is_filled(buffer, sizeof buffer));
    status = sno_book_reply(&book, buffer, strlen(reply) - 1, &length);
    expect("no room either", status == SNO_TOO_SHORT && length == strlen(reply) && is_filled(buffer, sizeof buffer));
    status = sno_book_reply(&book, buffer, strlen(reply), &length);
    expect("room for the reply", status == SNO_DONE && has(buffer, sizeof buffer, reply, length));
    try_line(&book, "{\"read\":\"N\"}", "{\"name\":\"N\",\"text\":\"00\",\"version\":1}\n");
    sno_book_close(&book);
}

static void try_openings(void) {
    sno_book book = opened();
    uint8_t line[SPACE];
    size_t length = 12345;
    static const char fault[] = "statement 1: pattern: bad number at 4";
    static const char faulty[] = "{\"statements\":[{\"text\":\"T\",\"pattern\":\"LEN(x)\"}]}";
    memset(line, FILLER, sizeof line);
    uint8_t status = sno_book_open(bytes_of(faulty), strlen(faulty), false, 1, line, sizeof line, &length, &book);
    expect("a document with a fault", status == SNO_FAULT && has(line, sizeof line, fault, length));
    expect("a book is closed by a fault", !book.handle.is_open);
    memset(line, FILLER, sizeof line);
    status = sno_book_open(bytes_of(faulty), strlen(faulty), false, 1, line, 9, &length, &book);
    expect("a fault that is cut", status == SNO_FAULT && has(line, sizeof line, "statement", length));
    static const uint32_t limits[] = {0, 1000000001, UINT32_MAX};
    for (int place = 0; place < 3; place++) {
        book = opened();
        memset(line, FILLER, sizeof line);
        status = sno_book_open(bytes_of(faulty), strlen(faulty), false, limits[place], line, sizeof line, &length, &book);
        expect("a bad limit", status == SNO_BAD_LIMIT && length == 0 && is_filled(line, sizeof line));
        expect("a book is closed by a bad limit", !book.handle.is_open);
    }
    static const char anchored[] = "{\"texts\":[{\"name\":\"T\",\"text\":\"ab\"}]}";
    status = sno_book_open(bytes_of(anchored), strlen(anchored), true, 1000000000, line, sizeof line, &length, &book);
    expect("an anchored book", status == SNO_DONE);
    try_line(&book, "{\"text\":\"T\",\"pattern\":\"'b'\"}",
             "{\"bindings\":[],\"entry\":0,\"matched\":false,\"statement\":1,\"text\":\"T\",\"version\":0}\n");
    try_line(&book, "{\"text\":\"T\",\"pattern\":\"'b'\",\"anchored\":false}",
             "{\"bindings\":[],\"end\":2,\"entry\":1,\"matched\":true,\"start\":1,\"statement\":2,\"text\":\"T\",\"version\":0}\n");
    sno_book_close(&book);
    sno_book_close(&book);
    sno_book_close(NULL);
    expect("a book that is closed twice", !book.handle.is_open);
}

/* A line may have 16 MiB. */
static void try_long_line(void) {
    sno_book book = opened();
    uint8_t *line = (uint8_t *)malloc(SNO_LONGEST_LINE + 1);
    uint8_t buffer[SPACE];
    size_t length = 12345;
    if (!line) {
        expect("memory for a long line", false);
        return;
    }
    memset(line, ' ', SNO_LONGEST_LINE + 1);
    memcpy(line, "{\"read\":\"N\"}", 12);
    memset(buffer, FILLER, sizeof buffer);
    uint8_t status = sno_book_line(&book, line, SNO_LONGEST_LINE, buffer, sizeof buffer, &length);
    expect("a line of 16 MiB", status == SNO_DONE && has(buffer, sizeof buffer, "{\"name\":\"N\",\"text\":\"0\",\"version\":0}\n", length));
    memset(buffer, FILLER, sizeof buffer);
    status = sno_book_line(&book, line, SNO_LONGEST_LINE + 1, buffer, sizeof buffer, &length);
    expect("a longer line", status == SNO_DONE && has(buffer, sizeof buffer, "{\"error\":\"longer than 16777216 bytes\"}\n", length));
    free(line);
    sno_book_close(&book);
}

static void try_refusals(void) {
    sno_book book = closed_book(), open = opened();
    sno_pattern pattern;
    sno_text text;
    sno_match match;
    uint8_t buffer[SPACE];
    size_t length = 12345;
    memset(&pattern, 0, sizeof pattern);
    memset(&text, 0, sizeof text);
    memset(buffer, FILLER, sizeof buffer);
    expect("a text is opened", sno_text_open(bytes_of("abc"), 3, &text) == SNO_DONE);
    expect("a pattern is opened",
           sno_pattern_open(NULL, 0, bytes_of("'a'"), 3, buffer, 0, &length, &pattern) == SNO_DONE);
    sno_handle *others[] = {&book.handle, &pattern.handle, &text.handle};
    for (int place = 0; place < 3; place++) {
        length = 12345;
        expect("a line to no book",
               sno_handle_line(others[place], bytes_of("{}"), 2, buffer, SPACE, &length) == SNO_CLOSED && length == 0);
        length = 12345;
        expect("a reply of no book", sno_handle_reply(others[place], buffer, SPACE, &length) == SNO_CLOSED && length == 0);
        length = 12345;
        expect("a listing of no book",
               sno_handle_listing(others[place], buffer, SPACE, &length) == SNO_CLOSED && length == 0);
    }
    expect("buffers of no book", is_filled(buffer, SPACE));
    expect("a book isn't a pattern", sno_handle_next(&open.handle, &text.handle, 0, 9, &match) == SNO_CLOSED);
    expect("a book isn't a text", sno_handle_next(&pattern.handle, &open.handle, 0, 9, &match) == SNO_CLOSED);
    expect("a book isn't taken from", sno_handle_take(&open.handle, &match) == SNO_CLOSED);
    try_line(&open, "{\"read\":\"N\"}", "{\"name\":\"N\",\"text\":\"0\",\"version\":0}\n");
    const uint8_t *some = bytes_of("{}");
    expect("null", sno_book_open(NULL, 0, false, 1, buffer, 1, &length, &open) == SNO_NULL);
    expect("null", sno_book_open(some, 2, false, 1, NULL, 0, &length, &open) == SNO_NULL);
    expect("null", sno_book_open(some, 2, false, 1, buffer, 1, NULL, &open) == SNO_NULL);
    expect("null", sno_book_open(some, 2, false, 1, buffer, 1, &length, NULL) == SNO_NULL);
    expect("null", sno_book_line(NULL, some, 2, buffer, 1, &length) == SNO_NULL);
    expect("null", sno_book_line(&open, NULL, 0, buffer, 1, &length) == SNO_NULL);
    expect("null", sno_book_line(&open, some, 2, NULL, 0, &length) == SNO_NULL);
    expect("null", sno_book_line(&open, some, 2, buffer, 1, NULL) == SNO_NULL);
    expect("null", sno_book_reply(NULL, buffer, 1, &length) == SNO_NULL);
    expect("null", sno_book_reply(&open, NULL, 0, &length) == SNO_NULL);
    expect("null", sno_book_reply(&open, buffer, 1, NULL) == SNO_NULL);
    expect("null", sno_book_listing(NULL, buffer, 1, &length) == SNO_NULL);
    expect("null", sno_book_listing(&open, NULL, 0, &length) == SNO_NULL);
    expect("null", sno_book_listing(&open, buffer, 1, NULL) == SNO_NULL);
    expect("the book is still open", open.handle.is_open);
    sno_pattern_close(&pattern);
    sno_text_close(&text);
    sno_book_close(&open);
}

int main(void) {
    try_lines();
    try_listing();
    try_short();
    try_openings();
    try_long_line();
    try_refusals();
    printf("%d passed, %d failed\n", passed, failed);
    return failed != 0;
}
