/* Refuses each allocation of each call with a book in its turn: the call reports it, and the book is as it was, or has the
 * one entry of the line's statement. Ends with 1 if something failed. */
#define _GNU_SOURCE
#include "../sno_rewrite.h"

#include "refusals.h"

#include <string.h>

enum { SPACE = 65536 };

static const uint8_t *bytes_of(const char *text) {
    return (const uint8_t *)text;
}

static const char DOCUMENT[] = "{\"patterns\":[{\"name\":\"D\",\"pattern\":\"ANY('0123456789')\"}],\"texts\":[{\"name\":\"T\","
                               "\"text\":\"a1b2\"}],\"statements\":[{\"text\":\"T\",\"pattern\":\"D . N\",\"object\":\"N N\"},"
                               "{\"text\":\"U\",\"pattern\":\"D\"}]}";
static const char LISTED[] = "{\"since\":0}";

/* A line, and whether it is a statement that is accepted. */
typedef struct Case {
    const char *what;
    const char *line;
    bool is_statement;
} Case;

static const Case CASES[] = {
    {"a statement", "{\"id\":1,\"text\":\"T\",\"pattern\":\"SPAN('1') . N\",\"object\":\"N '-' W\",\"bind\":{\"W\":\"x\"}}", true},
    {"a statement for all matches", "{\"text\":\"T\",\"pattern\":\"D . N\",\"object\":\"'<' N '>'\",\"all\":true}", true},
    {"a statement at a version", "{\"text\":\"T\",\"pattern\":\"'b'\",\"object\":\"'c'\",\"if_version\":1}", true},
    {"another version", "{\"text\":\"T\",\"pattern\":\"'b'\",\"object\":\"'c'\",\"if_version\":0}", false},
    {"no text", "{\"id\":\"x\",\"text\":\"V\",\"pattern\":\"'b'\"}", false},
    {"a check", "{\"text\":\"T\",\"pattern\":\"D\",\"object\":\"X\",\"check\":true,\"more\":1}", false},
    {"a read", "{\"read\":\"T\"}", false},
    {"a read at a version", "{\"read\":\"T\",\"at\":0}", false},
    {"the texts", "{\"texts\":true}", false},
    {"entries", "{\"since\":0,\"limit\":1,\"text\":\"T\"}", false},
    {"a fault", "{\"text\":\"T\",\"pattern\":\"LEN(x)\"}", false},
    {"no JSON", "{", false},
};

static uint8_t open_book(sno_book *book) {
    uint8_t line[256];
    size_t length = 12345;
    memset(book, 0, sizeof *book);
    uint8_t status =
        sno_book_open(bytes_of(DOCUMENT), strlen(DOCUMENT), false, SNO_USUAL_TRIALS, line, sizeof line, &length, book);
    return length == 0 ? status : SNO_FAULT;
}

/* The reply to a line, if all memory is given. */
static size_t reply_to(sno_book *book, const char *line, uint8_t *reply) {
    size_t length = 0;
    given = -1;
    expect(line, sno_book_line(book, bytes_of(line), strlen(line), reply, SPACE, &length) == SNO_DONE);
    return length;
}

static bool are_same(const uint8_t *a, size_t a_length, const uint8_t *b, size_t b_length) {
    return a_length == b_length && !memcmp(a, b, a_length);
}

static uint8_t wanted[SPACE], before[SPACE], after[SPACE], found[SPACE];

/* Returns how many allocations the line takes. */
static long try_line(const Case *one) {
    sno_book book;
    given = -1;
    expect("a book", open_book(&book) == SNO_DONE);
    size_t before_length = reply_to(&book, LISTED, before);
    size_t wanted_length = reply_to(&book, one->line, wanted);
    size_t after_length = reply_to(&book, LISTED, after);
    expect(one->what, are_same(before, before_length, after, after_length) == !one->is_statement);
    sno_book_close(&book);
    for (long number = 0; number < MOST_ALLOCATIONS; number++) {
        size_t length = 12345, kept_length = 12345;
        expect("a book", open_book(&book) == SNO_DONE);
        given = number;
        uint8_t status = sno_book_line(&book, bytes_of(one->line), strlen(one->line), found, SPACE, &length);
        bool is_given = given >= 0;
        given = -1;
        if (is_given)
            expect(one->what, status == SNO_DONE && are_same(found, length, wanted, wanted_length));
        else if (status == SNO_DONE)
            expect("a refusal in words", memmem(found, length, "\"reason\":\"out of memory\"", 24));
        else
            expect("out of memory", status == SNO_NO_MEMORY && length == 0 &&
                                        sno_book_reply(&book, found, SPACE, &kept_length) == SNO_NOTHING && kept_length == 0);
        size_t now_length = reply_to(&book, LISTED, found);
        bool is_before = are_same(found, now_length, before, before_length);
        bool is_after = are_same(found, now_length, after, after_length);
        expect("no entry, or one", is_given ? is_after : is_before || (is_after && status == SNO_NO_MEMORY));
        sno_book_close(&book);
        if (is_given)
            return number;
    }
    expect("an end of the allocations", false);
    return 0;
}

static long try_open(void) {
    for (long number = 0; number < MOST_ALLOCATIONS; number++) {
        sno_book book;
        given = number;
        uint8_t status = open_book(&book);
        bool is_given = given >= 0;
        given = -1;
        expect("a book is opened, or not", status == (is_given ? SNO_DONE : SNO_NO_MEMORY) && book.handle.is_open == is_given);
        sno_book_close(&book);
        if (is_given)
            return number;
    }
    return 0;
}

static long try_listing(void) {
    sno_book book;
    size_t length, wanted_length;
    expect("a book", open_book(&book) == SNO_DONE);
    expect("a listing", sno_book_listing(&book, wanted, SPACE, &wanted_length) == SNO_DONE);
    for (long number = 0; number < MOST_ALLOCATIONS; number++) {
        given = number;
        uint8_t status = sno_book_listing(&book, found, SPACE, &length);
        bool is_given = given >= 0;
        given = -1;
        if (is_given) {
            expect("the listing", status == SNO_DONE && are_same(found, length, wanted, wanted_length));
            sno_book_close(&book);
            return number;
        }
        expect("no listing", status == SNO_NO_MEMORY && length == 0);
    }
    return 0;
}

int main(void) {
    expect("opening takes memory", try_open() > 20);
    expect("a listing takes memory", try_listing() > 5);
    for (size_t place = 0; place < sizeof CASES / sizeof *CASES; place++)
        expect("a line takes memory", try_line(&CASES[place]) > 0);
    printf("%d passed, %d failed\n", passed, failed);
    return failed != 0;
}
