/* Refuses each allocation of each call with a pattern in its turn: the call reports it, and the pattern finds the same as before
 * when there is memory again. A second search takes no memory that the first one had. Ends with 1 if something failed. */
#define _GNU_SOURCE
#include "../sno_rewrite.h"

#include "refusals.h"

#include <string.h>

enum { SPACE = 4096, MOST_GATHERED = 8 };

static const char DEFINITIONS[] = "DIGITS = SPAN(DIGIT)\nNEST = '(' ARBNO(NOTANY('()') | *NEST) ')'\n";
static const char SUBJECT[] = "a12 (b(c)) = 345, d;e;f;";

/* A rule, and whether a further search takes no memory: one that assigns at once keeps its assignments anew. */
typedef struct Case {
    const char *rule;
    bool takes_none;
} Case;

static const Case CASES[] = {
    {"'12' = '21'", true},
    {"DIGITS . N = '<' N '>'", true},
    {"BREAK('=') . K '=' REM . V = V ':' K", true},
    {"*NEST . N", true},
    {"ARBNO(BREAK(';') ';') . L RPOS(0)", true},
    {"DIGITS $ N @P ' '", false},
    {"'no such text'", true},
};

static sno_pattern closed_pattern(void) {
    sno_pattern pattern;
    memset(&pattern, 0, sizeof pattern);
    return pattern;
}

static uint8_t open_pattern(const char *rule, sno_pattern *pattern) {
    uint8_t line[256];
    size_t length = 12345;
    *pattern = closed_pattern();
    uint8_t status = sno_pattern_open((const uint8_t *)DEFINITIONS, strlen(DEFINITIONS), (const uint8_t *)rule, strlen(rule), line,
                                      sizeof line, &length, pattern);
    return length == 0 ? status : SNO_FAULT;
}

static bool are_same(sno_match a, sno_match b) {
    return a.start == b.start && a.end == b.end && a.next == b.next && a.assignments == b.assignments;
}

/* The search from a cursor, if all memory is given. */
static sno_match search(sno_pattern *pattern, sno_text *text, size_t from, uint8_t wanted) {
    sno_match match;
    given = -1;
    expect("a search", sno_pattern_next(pattern, text, from, SNO_USUAL_TRIALS, &match) == wanted);
    return match;
}

static void try_open(const char *rule) {
    for (long number = 0; number < MOST_ALLOCATIONS; number++) {
        sno_pattern pattern;
        given = number;
        uint8_t status = open_pattern(rule, &pattern);
        bool is_given = given >= 0;
        given = -1;
        expect("opened, or not", status == (is_given ? SNO_DONE : SNO_NO_MEMORY) && pattern.handle.is_open == is_given);
        sno_pattern_close(&pattern);
        if (is_given) {
            expect("opening takes memory", number > 2);
            return;
        }
    }
    expect("an end of the allocations", false);
}

static void try_search(const Case *one, sno_text *text, sno_match wanted, uint8_t wanted_status) {
    static const sno_match NONE = {0, 0, 0, 0};
    for (long number = 0; number < MOST_ALLOCATIONS; number++) {
        sno_pattern pattern;
        sno_match match;
        expect("a pattern", open_pattern(one->rule, &pattern) == SNO_DONE);
        given = number;
        uint8_t status = sno_pattern_next(&pattern, text, 0, SNO_USUAL_TRIALS, &match);
        bool is_given = given >= 0;
        if (is_given)
            expect(one->rule, status == wanted_status && are_same(match, wanted));
        else
            expect("a search without memory", status == SNO_NO_MEMORY && are_same(match, NONE));
        expect("the search again", are_same(search(&pattern, text, 0, wanted_status), wanted));
        if (one->takes_none) {
            given = 0;
            status = sno_pattern_next(&pattern, text, 0, SNO_USUAL_TRIALS, &match);
            expect("a search by the memory of the one before", given == 0 && status == wanted_status && are_same(match, wanted));
            given = -1;
        }
        sno_pattern_close(&pattern);
        if (is_given)
            return;
    }
    expect("an end of the allocations", false);
}

static void try_gather(const Case *one, sno_text *text, sno_match first, uint8_t first_status) {
    for (long number = 0; number < MOST_ALLOCATIONS; number++) {
        sno_pattern pattern;
        sno_match match;
        expect("a pattern", open_pattern(one->rule, &pattern) == SNO_DONE);
        given = number;
        uint8_t status = sno_pattern_gather(&pattern, text, 0, SNO_USUAL_TRIALS, MOST_GATHERED);
        bool is_given = given >= 0;
        given = -1;
        expect("gathered, or not", status == (is_given ? SNO_DONE : SNO_NO_MEMORY));
        if (!is_given) {
            expect("nothing is gathered", sno_pattern_take(&pattern, &match) == SNO_NOTHING_GATHERED);
            expect("gathered then", sno_pattern_gather(&pattern, text, 0, SNO_USUAL_TRIALS, MOST_GATHERED) == SNO_DONE);
        }
        expect("the first is taken", sno_pattern_take(&pattern, &match) == first_status && are_same(match, first));
        sno_pattern_close(&pattern);
        if (is_given)
            return;
    }
    expect("an end of the allocations", false);
}

static void try_replace(const Case *one, sno_text *text) {
    static uint8_t wanted[SPACE], found[SPACE], untouched[SPACE];
    sno_pattern pattern;
    sno_replaced whole, done;
    expect("a pattern", open_pattern(one->rule, &pattern) == SNO_DONE);
    uint8_t wanted_status = sno_pattern_replace(&pattern, text, SNO_USUAL_TRIALS, wanted, sizeof wanted, &whole);
    memset(untouched, '.', sizeof untouched);
    for (long number = 0; number < MOST_ALLOCATIONS; number++) {
        memset(found, '.', sizeof found);
        given = number;
        uint8_t status = sno_pattern_replace(&pattern, text, SNO_USUAL_TRIALS, found, sizeof found, &done);
        bool is_given = given >= 0;
        given = -1;
        if (is_given) {
            expect(one->rule, status == wanted_status && done.length == whole.length && done.matches == whole.matches &&
                                  !memcmp(found, wanted, whole.length));
            sno_pattern_close(&pattern);
            return;
        }
        expect("nothing is replaced without memory", status == SNO_NO_MEMORY && done.length == 0 && done.matches == 0 &&
                                                         !memcmp(found, untouched, sizeof found));
    }
    expect("an end of the allocations", false);
}

int main(void) {
    for (size_t number = 0; number < sizeof CASES / sizeof *CASES; number++) {
        const Case *one = &CASES[number];
        uint8_t status = number + 1 == sizeof CASES / sizeof *CASES ? SNO_NOTHING : SNO_DONE;
        sno_text text;
        sno_pattern pattern;
        memset(&text, 0, sizeof text);
        expect("a text", sno_text_open((const uint8_t *)SUBJECT, strlen(SUBJECT), &text) == SNO_DONE);
        expect("a pattern", open_pattern(one->rule, &pattern) == SNO_DONE);
        sno_match wanted = search(&pattern, &text, 0, status);
        sno_pattern_close(&pattern);
        try_open(one->rule);
        try_search(one, &text, wanted, status);
        try_gather(one, &text, wanted, status);
        try_replace(one, &text);
        sno_text_close(&text);
    }
    printf("%d passed, %d failed\n", passed, failed);
    return failed ? 1 : 0;
}
