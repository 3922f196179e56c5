/* Tries patterns and texts in handles, in C and in C++: each status, the cursors of matches, assignments, new texts,
 * and the bytes of buffers. What is wanted was worked out by hand from docs/LANGUAGE.md; of many gathered searches it
 * is what the same searches find one by one. Ends with 1 if something failed.
 *
 *     patterns [memory]      with `memory` it tries a lack of memory alone */
#include "../sno_rewrite.h"

#include <stdio.h>
#include <stdlib.h>
#include <string.h>
#include <sys/resource.h>

#define DIGITS "SPAN('0123456789') . N"
#define BRACKETS DIGITS " = '<' N '>'"

enum { SPACE = 2048, FILLER = '#' };

static int passed = 0, failed = 0;

static void expect(const char *what, bool right) {
    if (right) {
        passed++;
    } else {
        failed++;
        printf("FAILED %s\n", what);
    }
}

static const uint8_t *bytes_of(const char *text) {
    return (const uint8_t *)text;
}

static sno_pattern closed_pattern(void) {
    sno_pattern pattern;
    memset(&pattern, 0, sizeof pattern);
    return pattern;
}

static sno_text closed_text(void) {
    sno_text text;
    memset(&text, 0, sizeof text);
    return text;
}

static sno_pattern opened(const char *definitions, const char *rule) {
    sno_pattern pattern = closed_pattern();
    uint8_t line[SPACE];
    size_t length = 12345;
    uint8_t status = sno_pattern_open(bytes_of(definitions), strlen(definitions), bytes_of(rule), strlen(rule), line,
                                      sizeof line, &length, &pattern);
    if (status != SNO_DONE)
        printf("%s: status %d: %.*s\n", rule, status, (int)length, (const char *)line);
    expect(rule, status == SNO_DONE && length == 0);
    return pattern;
}

static sno_text text_of(const char *bytes) {
    sno_text text = closed_text();
    expect(bytes, sno_text_open(bytes_of(bytes), strlen(bytes), &text) == SNO_DONE);
    return text;
}

static bool are_same(sno_match a, sno_match b) {
    return a.start == b.start && a.end == b.end && a.next == b.next && a.assignments == b.assignments;
}

static void try_next(const char *what, sno_pattern *pattern, sno_text *text, size_t from, uint32_t trials,
                     uint8_t wanted_status, sno_match wanted) {
    sno_match match = {12345, 12345, 12345, 12345};
    uint8_t status = sno_pattern_next(pattern, text, from, trials, &match);
    bool right = status == wanted_status && are_same(match, wanted);
    if (!right)
        printf("status %d, wanted %d; %zu to %zu, then %zu, %zu assignments\n", status, wanted_status, match.start,
               match.end, match.next, match.assignments);
    expect(what, right);
}

static void try_assignment(const char *what, sno_pattern *pattern, size_t place, const char *wanted_name, size_t start,
                           size_t end, bool is_cursor) {
    uint8_t name[SNO_LONGEST_NAME + 1];
    sno_assignment found = {12345, 12345, 12345, !is_cursor};
    memset(name, FILLER, sizeof name);
    uint8_t status = sno_pattern_assignment(pattern, place, name, SNO_LONGEST_NAME, &found);
    size_t length = strlen(wanted_name);
    expect(what, status == SNO_DONE && found.name_length == length && !memcmp(name, wanted_name, length) &&
                     name[length] == FILLER && found.start == start && found.end == end &&
                     found.is_cursor == is_cursor);
}

static void try_no_assignment(const char *what, sno_pattern *pattern, size_t place, uint8_t wanted_status) {
    uint8_t name[1] = {FILLER};
    sno_assignment found = {12345, 12345, 12345, true};
    uint8_t status = sno_pattern_assignment(pattern, place, name, sizeof name, &found);
    expect(what, status == wanted_status && name[0] == FILLER && !found.name_length && !found.start && !found.end &&
                     !found.is_cursor);
}

/* Afterwards the buffer has to begin with `output`, and all bytes after it have to be unchanged. */
static void try_replace(const char *what, sno_pattern *pattern, sno_text *text, uint32_t trials, size_t room,
                        uint8_t wanted_status, size_t wanted_length, uint64_t wanted_matches, const char *output) {
    uint8_t space[SPACE], wanted[SPACE];
    sno_replaced replaced = {12345, 12345};
    memset(space, FILLER, SPACE);
    memset(wanted, FILLER, SPACE);
    memcpy(wanted, output, strlen(output));
    uint8_t status = sno_pattern_replace(pattern, text, trials, space, room, &replaced);
    bool right = status == wanted_status && replaced.length == wanted_length && replaced.matches == wanted_matches &&
                 !memcmp(space, wanted, SPACE);
    if (!right)
        printf("status %d, wanted %d; length %zu; matches %d; %.*s\n", status, wanted_status, replaced.length,
               (int)replaced.matches, 60, (const char *)space);
    expect(what, right);
}

/* The pattern has to be refused with lines that begin with `wanted`, in any room. */
static void try_fault(const char *definitions, const char *rule, const char *wanted) {
    uint8_t whole[SPACE], space[SPACE];
    size_t whole_length = 12345;
    sno_pattern pattern = closed_pattern();
    uint8_t status = sno_pattern_open(bytes_of(definitions), strlen(definitions), bytes_of(rule), strlen(rule), whole,
                                      SPACE, &whole_length, &pattern);
    bool right = status == SNO_FAULT && whole_length >= strlen(wanted) && !memcmp(whole, wanted, strlen(wanted));
    if (!right)
        printf("status %d: %.*s\n", status, (int)whole_length, (const char *)whole);
    for (size_t room = 0; room <= whole_length && right; room += 7) {
        size_t length = 12345;
        memset(space, FILLER, SPACE);
        status = sno_pattern_open(bytes_of(definitions), strlen(definitions), bytes_of(rule), strlen(rule), space, room,
                                  &length, &pattern);
        right = status == SNO_FAULT && length == room && !memcmp(space, whole, room) && space[room] == FILLER;
    }
    expect(wanted, right && !pattern.handle.is_open);
}

static void try_matches(void) {
    sno_pattern pattern = opened("", BRACKETS);
    sno_text text = text_of("a12b345");
    try_next("the first match", &pattern, &text, 0, SNO_USUAL_TRIALS, SNO_DONE, (sno_match){1, 3, 3, 1});
    try_assignment("what it assigned", &pattern, 0, "N", 1, 3, false);
    try_no_assignment("no more than one", &pattern, 1, SNO_NOTHING);
    try_no_assignment("nor at the last place", &pattern, SIZE_MAX, SNO_NOTHING);
    try_next("the second match", &pattern, &text, 3, SNO_USUAL_TRIALS, SNO_DONE, (sno_match){4, 7, 7, 1});
    try_next("a match within it", &pattern, &text, 5, SNO_USUAL_TRIALS, SNO_DONE, (sno_match){5, 7, 7, 1});
    try_next("no match", &pattern, &text, 7, SNO_USUAL_TRIALS, SNO_NOTHING, (sno_match){0, 0, 8, 0});
    try_no_assignment("none of no match", &pattern, 0, SNO_NOTHING);
    try_next("past the end", &pattern, &text, 8, SNO_USUAL_TRIALS, SNO_PAST_END, (sno_match){0, 0, 0, 0});
    try_next("far past the end", &pattern, &text, SIZE_MAX, SNO_USUAL_TRIALS, SNO_PAST_END, (sno_match){0, 0, 0, 0});
    sno_text other = text_of("7");
    try_next("another text", &pattern, &other, 0, SNO_USUAL_TRIALS, SNO_DONE, (sno_match){0, 1, 1, 1});
    sno_text_close(&other);
    sno_text empty = text_of("");
    try_next("an empty text", &pattern, &empty, 0, SNO_USUAL_TRIALS, SNO_NOTHING, (sno_match){0, 0, 1, 0});
    sno_text_close(&empty);
    sno_text_close(&text);
    sno_pattern_close(&pattern);
}

static void try_null_strings(void) {
    sno_pattern pattern = opened("", "SPAN('a') | ''");
    sno_text text = text_of("aab");
    try_next("a run", &pattern, &text, 0, SNO_USUAL_TRIALS, SNO_DONE, (sno_match){0, 2, 2, 0});
    try_next("the null string after it", &pattern, &text, 2, SNO_USUAL_TRIALS, SNO_DONE, (sno_match){2, 2, 3, 0});
    try_next("the null string at the end", &pattern, &text, 3, SNO_USUAL_TRIALS, SNO_DONE, (sno_match){3, 3, 4, 0});
    sno_pattern_close(&pattern);
    pattern = opened("", "SPAN('a') | '' :anchored");
    try_next("an anchored run", &pattern, &text, 1, SNO_USUAL_TRIALS, SNO_DONE, (sno_match){1, 2, 2, 0});
    try_next("an anchored null string", &pattern, &text, 2, SNO_USUAL_TRIALS, SNO_DONE, (sno_match){2, 2, 4, 0});
    sno_pattern_close(&pattern);
    pattern = opened("", "'b' :anchored");
    try_next("an anchored failure", &pattern, &text, 1, SNO_USUAL_TRIALS, SNO_NOTHING, (sno_match){0, 0, 4, 0});
    try_next("an anchored match", &pattern, &text, 2, SNO_USUAL_TRIALS, SNO_DONE, (sno_match){2, 3, 3, 0});
    sno_pattern_close(&pattern);
    sno_text_close(&text);
}

static void try_assignments(void) {
    sno_pattern pattern = opened("", "ARB $ V 'b'");
    sno_text text = text_of("aab");
    try_next("assignments at once", &pattern, &text, 0, SNO_USUAL_TRIALS, SNO_DONE, (sno_match){0, 3, 3, 3});
    try_assignment("the first of them", &pattern, 0, "V", 0, 0, false);
    try_assignment("the second", &pattern, 1, "V", 0, 1, false);
    try_assignment("the last", &pattern, 2, "V", 0, 2, false);
    sno_pattern_close(&pattern);
    pattern = opened("", "'a' . FIRST @C 'a' $ SECOND");
    try_next("all kinds", &pattern, &text, 0, SNO_USUAL_TRIALS, SNO_DONE, (sno_match){0, 2, 2, 3});
    try_assignment("a cursor", &pattern, 0, "C", 1, 1, true);
    try_assignment("one at once", &pattern, 1, "SECOND", 1, 2, false);
    try_assignment("a conditional one", &pattern, 2, "FIRST", 0, 1, false);
    uint8_t name[5] = {FILLER, FILLER, FILLER, FILLER, FILLER};
    sno_assignment found = {0, 0, 0, true};
    uint8_t status = sno_pattern_assignment(&pattern, 1, name, sizeof name, &found);
    expect("no room for the name", status == SNO_TOO_SHORT && found.name_length == 6 && found.start == 1 &&
                                       found.end == 2 && !found.is_cursor && !memcmp(name, "#####", 5));
    sno_pattern_close(&pattern);
    pattern = opened("", "'a' $ V 'c'");
    try_next("a failure that assigned", &pattern, &text, 0, SNO_USUAL_TRIALS, SNO_NOTHING, (sno_match){0, 0, 4, 2});
    try_assignment("the second one of it", &pattern, 1, "V", 1, 2, false);
    try_next("a refusal", &pattern, &text, 0, 1, SNO_TOO_MANY_TRIALS, (sno_match){0, 0, 0, 0});
    try_no_assignment("nothing is left after it", &pattern, 0, SNO_NOTHING);
    sno_pattern_close(&pattern);
    sno_text_close(&text);
}

static void try_limits(void) {
    sno_pattern pattern = opened("", "'b' = 'X'");
    sno_text text = text_of("aaab");
    sno_match none = {0, 0, 0, 0};
    try_next("four trials", &pattern, &text, 0, 4, SNO_DONE, (sno_match){3, 4, 4, 0});
    try_next("three trials", &pattern, &text, 0, 3, SNO_TOO_MANY_TRIALS, none);
    try_next("no trials", &pattern, &text, 0, 0, SNO_BAD_LIMIT, none);
    try_next("no trials past the end", &pattern, &text, 5, 0, SNO_BAD_LIMIT, none);
    try_next("the most trials", &pattern, &text, 0, 1000000000, SNO_DONE, (sno_match){3, 4, 4, 0});
    try_next("more trials", &pattern, &text, 0, 1000000001, SNO_BAD_LIMIT, none);
    try_replace("all trials of a pass", &pattern, &text, 5, SPACE, SNO_DONE, 4, 1, "aaaX");
    try_replace("too few for a pass", &pattern, &text, 4, SPACE, SNO_TOO_MANY_TRIALS, 0, 0, "");
    try_replace("no trials to replace", &pattern, &text, 0, SPACE, SNO_BAD_LIMIT, 0, 0, "");
    try_replace("more trials to replace", &pattern, &text, 1000000001, SPACE, SNO_BAD_LIMIT, 0, 0, "");
    sno_text_close(&text);
    sno_pattern_close(&pattern);
}

static void try_replacements(void) {
    sno_pattern pattern = opened("", BRACKETS);
    sno_text text = text_of("a12b345");
    for (size_t room = 0; room < 11; room++)
        try_replace("a short buffer", &pattern, &text, SNO_USUAL_TRIALS, room, SNO_TOO_SHORT, 11, 2, "");
    try_replace("enough room", &pattern, &text, SNO_USUAL_TRIALS, 11, SNO_DONE, 11, 2, "a<12>b<345>");
    try_replace("more room", &pattern, &text, SNO_USUAL_TRIALS, SPACE, SNO_DONE, 11, 2, "a<12>b<345>");
    sno_pattern_close(&pattern);
    pattern = opened("", BRACKETS " :first");
    try_replace("the first match alone", &pattern, &text, SNO_USUAL_TRIALS, SPACE, SNO_DONE, 9, 1, "a<12>b345");
    sno_pattern_close(&pattern);
    pattern = opened("", DIGITS);
    try_replace("no object", &pattern, &text, SNO_USUAL_TRIALS, SPACE, SNO_NOTHING, 0, 2, "");
    sno_pattern_close(&pattern);
    pattern = opened("", DIGITS " = ");
    try_replace("an empty object", &pattern, &text, SNO_USUAL_TRIALS, SPACE, SNO_DONE, 2, 2, "ab");
    sno_pattern_close(&pattern);
    pattern = opened("", "'x' = 'y'");
    try_replace("no match to replace", &pattern, &text, SNO_USUAL_TRIALS, SPACE, SNO_NOTHING, 0, 0, "");
    sno_pattern_close(&pattern);
    pattern = opened("", "ANY('0123456789') = :repeat 3");
    try_replace("three rounds", &pattern, &text, SNO_USUAL_TRIALS, SPACE, SNO_DONE, 4, 3, "ab45");
    sno_pattern_close(&pattern);
    sno_text_close(&text);
    text = text_of("\303\251\377");
    pattern = opened("", "'\303\251' = 'e'");
    try_replace("bytes above 127", &pattern, &text, SNO_USUAL_TRIALS, SPACE, SNO_DONE, 2, 1, "e\377");
    sno_pattern_close(&pattern);
    sno_text_close(&text);
}

static void try_definitions(void) {
    const char *lines = "* words\nWORD = SPAN(LETTER)\nPAIR = *WORD '='\n+ *WORD\nUNUSED = LEN(x)\n";
    sno_pattern pattern = opened(lines, "*PAIR . P = '(' P ')'");
    sno_text text = text_of("a=b 1=2 cc=d");
    try_next("a definition", &pattern, &text, 0, SNO_USUAL_TRIALS, SNO_DONE, (sno_match){0, 3, 3, 1});
    try_replace("definitions", &pattern, &text, SNO_USUAL_TRIALS, SPACE, SNO_DONE, 16, 2, "(a=b) 1=2 (cc=d)");
    sno_text_close(&text);
    sno_pattern_close(&pattern);
}

static void try_faults(void) {
    try_fault("", "LEN(x)", "statement 1: pattern: bad number at 4\n    LEN(x)\n        ^ ");
    try_fault("", "'a' | = 'b'", "statement 1: pattern: unexpected at 6\n    'a' | = 'b'\n          ^ this ends too soon");
    try_fault("", "'a' = (", "statement 1: object: ");
    try_fault("", "", "statement 1: pattern: empty at 0\n");
    try_fault("", "'a' = 'b' :frist", "rule 1: unknown field at 11\n    'a' = 'b' :frist\n               ^ :first");
    try_fault("", "SPAN(VOWEL) =", "rule 1: unknown set at 5\n    SPAN(VOWEL) =\n         ^ no set has this name");
    try_fault("", "'\377'", "rule 1: not UTF-8\n");
    try_fault("\nA = LEN(x)\n", "*A", "definitions:2: pattern 1: bad number at ");
    try_fault("A = *A\n", "*A", "patterns: unguarded");
    try_fault("A = 'a'\n 'b'\n", "*A", "definitions: a line begins with a blank, as a rule does\n");
    try_fault("A = 'a'\n#\n", "*A", "definitions: line 2: neither a rule nor a definition\n");
}

static void try_handles(void) {
    sno_pattern pattern = closed_pattern();
    sno_text text = closed_text();
    sno_match none = {0, 0, 0, 0};
    try_next("both closed", &pattern, &text, 0, SNO_USUAL_TRIALS, SNO_CLOSED, none);
    try_no_assignment("no pattern", &pattern, 0, SNO_CLOSED);
    try_replace("both closed to replace", &pattern, &text, SNO_USUAL_TRIALS, SPACE, SNO_CLOSED, 0, 0, "");
    text = text_of("a");
    try_next("the pattern closed", &pattern, &text, 0, SNO_USUAL_TRIALS, SNO_CLOSED, none);
    try_replace("no pattern to replace", &pattern, &text, SNO_USUAL_TRIALS, SPACE, SNO_CLOSED, 0, 0, "");
    pattern = opened("", "'a' = 'b'");
    sno_text_close(&text);
    try_next("the text closed", &pattern, &text, 0, 0, SNO_CLOSED, none);
    try_replace("no text to replace", &pattern, &text, 0, SPACE, SNO_CLOSED, 0, 0, "");
    sno_match match = {12345, 12345, 12345, 12345};
    sno_handle other = {NULL, false};
    expect("a pattern as a text",
           sno_handle_next(&other, &pattern.handle, 0, 1, &match) == SNO_CLOSED && are_same(match, none));
    expect("it stays open", sno_text_open(bytes_of("a"), 1, &text) == SNO_DONE && pattern.handle.is_open);
    try_next("and can be used", &pattern, &text, 0, SNO_USUAL_TRIALS, SNO_DONE, (sno_match){0, 1, 1, 0});
    expect("a text as a pattern",
           sno_handle_next(&text.handle, &pattern.handle, 0, 1, &match) == SNO_CLOSED && are_same(match, none));
    /* What a handle holds is freed when something else is put into it. */
    uint8_t line[SPACE];
    size_t length = 12345;
    expect("opened again", sno_pattern_open(NULL, 0, bytes_of("'b'"), 3, line, SPACE, &length, &pattern) == SNO_DONE);
    try_next("another pattern", &pattern, &text, 0, SNO_USUAL_TRIALS, SNO_NOTHING, (sno_match){0, 0, 2, 0});
    expect("another text", sno_text_open(bytes_of("b"), 1, &text) == SNO_DONE);
    try_next("then there is a match", &pattern, &text, 0, SNO_USUAL_TRIALS, SNO_DONE, (sno_match){0, 1, 1, 0});
    expect("a fault closes it", sno_pattern_open(NULL, 0, bytes_of("("), 1, line, SPACE, &length, &pattern) == SNO_FAULT);
    try_next("then it is closed", &pattern, &text, 0, SNO_USUAL_TRIALS, SNO_CLOSED, none);
    sno_pattern_close(&pattern);
    sno_pattern_close(&pattern);
    sno_text_close(&text);
    sno_text_close(&text);
    expect("closed handles are all 0", !pattern.handle.is_open && !text.handle.is_open);
}

static void try_long_texts(void) {
    static uint8_t bytes[SNO_LONGEST_TEXT + 1];
    sno_text text = closed_text();
    memset(bytes, 'a', sizeof bytes);
    expect("a text that is too long", sno_text_open(bytes, SNO_LONGEST_TEXT + 1, &text) == SNO_TOO_LONG);
    expect("it is closed", !text.handle.is_open);
    expect("the longest text", sno_text_open(bytes, SNO_LONGEST_TEXT, &text) == SNO_DONE);
    sno_pattern pattern = opened("", "RPOS(1) 'a' = 'bc'");
    try_next("a match at its end", &pattern, &text, 0, 1000000000, SNO_DONE,
             (sno_match){SNO_LONGEST_TEXT - 1, SNO_LONGEST_TEXT, SNO_LONGEST_TEXT, 0});
    try_replace("a new text that is too long", &pattern, &text, 1000000000, SPACE, SNO_TOO_LONG, 0, 0, "");
    expect("too long again", sno_text_open(bytes, SNO_LONGEST_TEXT + 1, &text) == SNO_TOO_LONG);
    try_next("then it is closed", &pattern, &text, 0, SNO_USUAL_TRIALS, SNO_CLOSED, (sno_match){0, 0, 0, 0});
    sno_pattern_close(&pattern);
}

static void try_null(void) {
    sno_pattern pattern = closed_pattern();
    sno_text text = closed_text();
    sno_match match = {1, 2, 3, 4};
    sno_assignment assignment = {1, 2, 3, true};
    sno_replaced replaced = {1, 2};
    uint8_t buffer[4] = "abc";
    size_t length = 12345;
    const uint8_t *rule = bytes_of("'a'");
    expect("no rule", sno_pattern_open(NULL, 0, NULL, 0, buffer, 4, &length, &pattern) == SNO_NULL);
    expect("no definitions", sno_pattern_open(NULL, 1, rule, 3, buffer, 4, &length, &pattern) == SNO_NULL);
    expect("no line", sno_pattern_open(NULL, 0, rule, 3, NULL, 0, &length, &pattern) == SNO_NULL);
    expect("no length", sno_pattern_open(NULL, 0, rule, 3, buffer, 4, NULL, &pattern) == SNO_NULL);
    expect("no pattern to open", sno_pattern_open(NULL, 0, rule, 3, buffer, 4, &length, NULL) == SNO_NULL);
    expect("no bytes", sno_text_open(NULL, 0, &text) == SNO_NULL);
    expect("no text to open", sno_text_open(rule, 3, NULL) == SNO_NULL);
    expect("no pattern to seek", sno_pattern_next(NULL, &text, 0, 1, &match) == SNO_NULL);
    expect("no text to seek in", sno_pattern_next(&pattern, NULL, 0, 1, &match) == SNO_NULL);
    expect("no match", sno_pattern_next(&pattern, &text, 0, 1, NULL) == SNO_NULL);
    expect("no pattern of an assignment", sno_pattern_assignment(NULL, 0, buffer, 4, &assignment) == SNO_NULL);
    expect("no name", sno_pattern_assignment(&pattern, 0, NULL, 0, &assignment) == SNO_NULL);
    expect("no assignment", sno_pattern_assignment(&pattern, 0, buffer, 4, NULL) == SNO_NULL);
    expect("no pattern to replace", sno_pattern_replace(NULL, &text, 1, buffer, 4, &replaced) == SNO_NULL);
    expect("no text to replace in", sno_pattern_replace(&pattern, NULL, 1, buffer, 4, &replaced) == SNO_NULL);
    expect("no buffer", sno_pattern_replace(&pattern, &text, 1, NULL, 0, &replaced) == SNO_NULL);
    expect("no numbers", sno_pattern_replace(&pattern, &text, 1, buffer, 4, NULL) == SNO_NULL);
    sno_pattern_close(NULL);
    sno_text_close(NULL);
    expect("nothing was changed", length == 12345 && !memcmp(buffer, "abc", 4) && match.end == 2 &&
                                      assignment.end == 3 && replaced.matches == 2);
}

/* ---- Searches that are gathered ---- */

enum { MOST_SEARCHES = 64, MOST_ASSIGNMENTS = 8 };

/* All that can be seen of a search. */
typedef struct seen {
    uint8_t status;
    sno_match match;
    size_t count;
    uint8_t names[MOST_ASSIGNMENTS][SNO_LONGEST_NAME];
    sno_assignment assignments[MOST_ASSIGNMENTS];
} seen;

static seen seen_of(sno_pattern *pattern, uint8_t status, sno_match match) {
    seen all;
    memset(&all, 0, sizeof all);
    all.status = status;
    all.match = match;
    while (all.count < MOST_ASSIGNMENTS &&
           sno_pattern_assignment(pattern, all.count, all.names[all.count], SNO_LONGEST_NAME,
                                  &all.assignments[all.count]) == SNO_DONE)
        all.count++;
    return all;
}

static bool is_same_seen(const seen *a, const seen *b) {
    bool same = a->status == b->status && are_same(a->match, b->match) && a->count == b->count;
    for (size_t place = 0; same && place < a->count; place++) {
        const sno_assignment *one = &a->assignments[place], *other = &b->assignments[place];
        same = one->name_length == other->name_length && one->start == other->start && one->end == other->end &&
               one->is_cursor == other->is_cursor && !memcmp(a->names[place], b->names[place], SNO_LONGEST_NAME);
    }
    return same;
}

/* The least limit of trials with which the search isn't refused. */
static uint32_t trials_of(sno_pattern *pattern, sno_text *text, size_t from) {
    sno_match match;
    uint32_t trials = 1;
    while (sno_pattern_next(pattern, text, from, trials, &match) == SNO_TOO_MANY_TRIALS)
        trials++;
    return trials;
}

/* What at most `most` searches by sno_pattern_next find, each from `next` of the one before, and in `*trials` how many
 * trials they take together. */
static size_t by_next(sno_pattern *pattern, sno_text *text, size_t from, size_t most, seen *all, uint32_t *trials) {
    size_t count = 0;
    sno_match match;
    uint8_t status = SNO_DONE;
    *trials = 0;
    while (count < most && count < MOST_SEARCHES && status == SNO_DONE) {
        uint32_t needed = trials_of(pattern, text, from);
        status = sno_pattern_next(pattern, text, from, SNO_USUAL_TRIALS, &match);
        if (status == SNO_PAST_END)
            break;
        *trials += needed;
        all[count++] = seen_of(pattern, status, match);
        from = match.next;
    }
    return count;
}

static void try_take(const char *what, sno_pattern *pattern, uint8_t wanted_status, sno_match wanted) {
    sno_match match = {12345, 12345, 12345, 12345};
    uint8_t status = sno_pattern_take(pattern, &match);
    bool right = status == wanted_status && are_same(match, wanted);
    if (!right)
        printf("status %d, wanted %d; %zu to %zu, then %zu, %zu assignments\n", status, wanted_status, match.start,
               match.end, match.next, match.assignments);
    expect(what, right);
}

static void try_none_left(const char *what, sno_pattern *pattern) {
    try_take(what, pattern, SNO_NOTHING_GATHERED, (sno_match){0, 0, 0, 0});
}

static void try_gather(const char *what, sno_pattern *pattern, sno_text *text, size_t from, uint32_t trials,
                       size_t most, uint8_t wanted_status) {
    uint8_t status = sno_pattern_gather(pattern, text, from, trials, most);
    if (status != wanted_status)
        printf("status %d, wanted %d\n", status, wanted_status);
    expect(what, status == wanted_status);
}

/* Takes as many searches, and compares them with those that were done one by one. The last one stays. */
static void try_all_taken(const char *what, sno_pattern *pattern, const seen *wanted, size_t count) {
    sno_match match;
    bool right = true;
    for (size_t place = 0; right && place < count; place++) {
        uint8_t status = sno_pattern_take(pattern, &match);
        seen found = seen_of(pattern, status, match);
        right = is_same_seen(&found, &wanted[place]);
    }
    expect(what, right);
    try_none_left(what, pattern);
    if (count) {
        seen last = seen_of(pattern, wanted[count - 1].status, wanted[count - 1].match);
        expect(what, is_same_seen(&last, &wanted[count - 1]));
    }
}

/* Gathers searches with just enough trials, and with one too few. */
static void try_beside_next(const char *rule, const char *bytes, size_t from, size_t most) {
    static seen wanted[MOST_SEARCHES];
    sno_pattern pattern = opened("", rule);
    sno_text text = text_of(bytes);
    uint32_t trials;
    size_t count = by_next(&pattern, &text, from, most, wanted, &trials);
    try_gather(rule, &pattern, &text, from, SNO_USUAL_TRIALS, most, SNO_DONE);
    try_all_taken(rule, &pattern, wanted, count);
    if (count) {
        try_gather(rule, &pattern, &text, from, trials, most, SNO_DONE);
        try_all_taken(rule, &pattern, wanted, count);
    }
    if (trials > 1) {
        try_gather(rule, &pattern, &text, from, trials, most, SNO_DONE);
        try_gather(rule, &pattern, &text, from, trials - 1, most, SNO_TOO_MANY_TRIALS);
        try_none_left(rule, &pattern);
    }
    sno_text_close(&text);
    sno_pattern_close(&pattern);
}

static void try_gathered(void) {
    const char *rules[] = {DIGITS, BRACKETS, "SPAN('a') | ''", "''", "'b'", "'z'", "LEN(1) . X", "'a' $ V 'c'",
                           "@C ANY('ab') . X @D", "SPAN('a') | '' :anchored", "ANY('a1') . X :anchored",
                           "'b' :anchored", "RPOS(0)", "ARB . V 'b' | '3' $ W", "LEN(2) LEN(1) . X"};
    const char *texts[] = {"", "a", "b", "aab", "aabab", "a12b345", "1a2b3c4d5e6f7g8h9", "aaaaaaaaaaaaaaaaaaaab"};
    size_t most[] = {0, 1, 2, 3, 5, 50, SIZE_MAX};
    for (size_t rule = 0; rule < sizeof rules / sizeof *rules; rule++)
        for (size_t text = 0; text < sizeof texts / sizeof *texts; text++)
            for (size_t number = 0; number < sizeof most / sizeof *most; number++) {
                size_t length = strlen(texts[text]);
                try_beside_next(rules[rule], texts[text], 0, most[number]);
                try_beside_next(rules[rule], texts[text], length / 2, most[number]);
                try_beside_next(rules[rule], texts[text], length, most[number]);
            }
}

static void try_takes(void) {
    sno_pattern pattern = opened("", DIGITS);
    sno_text text = text_of("a12b345");
    try_none_left("nothing is gathered at first", &pattern);
    try_gather("all searches", &pattern, &text, 0, SNO_USUAL_TRIALS, 5, SNO_DONE);
    try_no_assignment("before the first is taken", &pattern, 0, SNO_NOTHING);
    try_take("the first match", &pattern, SNO_DONE, (sno_match){1, 3, 3, 1});
    try_assignment("its assignment", &pattern, 0, "N", 1, 3, false);
    try_no_assignment("it has no more than one", &pattern, 1, SNO_NOTHING);
    try_next("a search in between", &pattern, &text, 5, SNO_USUAL_TRIALS, SNO_DONE, (sno_match){5, 7, 7, 1});
    try_assignment("the assignment of that", &pattern, 0, "N", 5, 7, false);
    try_next("a refusal in between", &pattern, &text, 8, SNO_USUAL_TRIALS, SNO_PAST_END, (sno_match){0, 0, 0, 0});
    try_take("the second match", &pattern, SNO_DONE, (sno_match){4, 7, 7, 1});
    try_assignment("the assignment of it", &pattern, 0, "N", 4, 7, false);
    try_take("no further match", &pattern, SNO_NOTHING, (sno_match){0, 0, 8, 0});
    try_no_assignment("no assignment either", &pattern, 0, SNO_NOTHING);
    try_none_left("all is taken", &pattern);
    try_none_left("all is still taken", &pattern);
    try_gather("one search", &pattern, &text, 2, SNO_USUAL_TRIALS, 1, SNO_DONE);
    try_take("its match", &pattern, SNO_DONE, (sno_match){2, 3, 3, 1});
    try_none_left("it was the only one", &pattern);
    try_assignment("it still has its assignment", &pattern, 0, "N", 2, 3, false);
    try_gather("no search", &pattern, &text, 0, SNO_USUAL_TRIALS, 0, SNO_DONE);
    try_none_left("no search is none", &pattern);
    try_assignment("the last search is as before", &pattern, 0, "N", 2, 3, false);
    try_gather("at the end", &pattern, &text, 7, SNO_USUAL_TRIALS, 5, SNO_DONE);
    try_take("no match there", &pattern, SNO_NOTHING, (sno_match){0, 0, 8, 0});
    try_none_left("only one search there", &pattern);
    sno_text_close(&text);
    sno_pattern_close(&pattern);
    pattern = opened("", "'a' $ V 'c'");
    text = text_of("aab");
    try_gather("a failure that assigned", &pattern, &text, 0, SNO_USUAL_TRIALS, 5, SNO_DONE);
    try_take("the failure", &pattern, SNO_NOTHING, (sno_match){0, 0, 4, 2});
    try_assignment("the second of its assignments", &pattern, 1, "V", 1, 2, false);
    sno_text_close(&text);
    sno_pattern_close(&pattern);
    pattern = opened("", "SPAN('a') | ''");
    text = text_of("aab");
    try_gather("null strings", &pattern, &text, 0, SNO_USUAL_TRIALS, 5, SNO_DONE);
    try_take("a run of them", &pattern, SNO_DONE, (sno_match){0, 2, 2, 0});
    try_take("the null string after it", &pattern, SNO_DONE, (sno_match){2, 2, 3, 0});
    try_take("the null string at the end", &pattern, SNO_DONE, (sno_match){3, 3, 4, 0});
    try_none_left("there can be no match after it", &pattern);
    sno_text_close(&text);
    sno_pattern_close(&pattern);
}

static void try_drops(void) {
    sno_pattern pattern = opened("", DIGITS);
    sno_text text = text_of("a12b345"), other = text_of("7"), none = closed_text();
    sno_match first = {1, 3, 3, 1};
    try_gather("the first text", &pattern, &text, 0, SNO_USUAL_TRIALS, 5, SNO_DONE);
    try_gather("another text", &pattern, &other, 0, SNO_USUAL_TRIALS, 5, SNO_DONE);
    try_take("the match in the other text", &pattern, SNO_DONE, (sno_match){0, 1, 1, 1});
    try_take("and no further one", &pattern, SNO_NOTHING, (sno_match){0, 0, 2, 0});
    try_none_left("the first text was dropped", &pattern);
    const struct {
        const char *what;
        size_t from;
        uint32_t trials;
        uint8_t status;
    } refusals[] = {{"no trials", 0, 0, SNO_BAD_LIMIT},
                    {"no trials past the end", 8, 0, SNO_BAD_LIMIT},
                    {"more trials", 0, 1000000001, SNO_BAD_LIMIT},
                    {"past the end", 8, SNO_USUAL_TRIALS, SNO_PAST_END},
                    {"far past the end", SIZE_MAX, SNO_USUAL_TRIALS, SNO_PAST_END},
                    {"past the end with one trial", 8, 1, SNO_PAST_END},
                    {"one trial", 0, 1, SNO_TOO_MANY_TRIALS}};
    for (size_t number = 0; number < sizeof refusals / sizeof *refusals; number++) {
        try_gather("what is dropped", &pattern, &text, 0, 1000000000, 5, SNO_DONE);
        try_take("the first of it", &pattern, SNO_DONE, first);
        try_gather(refusals[number].what, &pattern, &text, refusals[number].from, refusals[number].trials, 5,
                   refusals[number].status);
        try_none_left(refusals[number].what, &pattern);
        try_assignment("the last search stays", &pattern, 0, "N", 1, 3, false);
    }
    try_gather("no search past the end", &pattern, &text, 8, SNO_USUAL_TRIALS, 0, SNO_PAST_END);
    try_gather("no search needs no trial", &pattern, &text, 0, 1, 0, SNO_DONE);
    try_gather("what stays", &pattern, &text, 0, SNO_USUAL_TRIALS, 5, SNO_DONE);
    try_gather("a closed text", &pattern, &none, 0, 0, 5, SNO_CLOSED);
    sno_text_close(&text);
    try_take("what was gathered is left", &pattern, SNO_DONE, first);
    try_assignment("with its assignment", &pattern, 0, "N", 1, 3, false);
    sno_text_close(&other);
    uint8_t line[SPACE];
    size_t length;
    expect("opened again", sno_pattern_open(NULL, 0, bytes_of("'a'"), 3, line, SPACE, &length, &pattern) == SNO_DONE);
    try_none_left("another pattern has nothing gathered", &pattern);
    sno_pattern_close(&pattern);
}

static void try_gather_handles(void) {
    sno_pattern pattern = closed_pattern();
    sno_text text = closed_text();
    sno_match none = {0, 0, 0, 0}, match = {12345, 12345, 12345, 12345};
    try_gather("both closed to gather", &pattern, &text, 0, SNO_USUAL_TRIALS, 5, SNO_CLOSED);
    try_take("no pattern to take from", &pattern, SNO_CLOSED, none);
    text = text_of("ab");
    try_gather("no pattern to gather", &pattern, &text, 0, 0, 5, SNO_CLOSED);
    expect("a text to take from", sno_handle_take(&text.handle, &match) == SNO_CLOSED && are_same(match, none));
    pattern = opened("", "'a'");
    expect("a text as a pattern to gather",
           sno_handle_gather(&text.handle, &pattern.handle, 0, SNO_USUAL_TRIALS, 5) == SNO_CLOSED);
    expect("a text as both", sno_handle_gather(&text.handle, &text.handle, 0, 0, 5) == SNO_CLOSED);
    expect("a pattern is null", sno_pattern_gather(NULL, &text, 0, 1, 1) == SNO_NULL);
    expect("a text is null", sno_pattern_gather(&pattern, NULL, 0, 1, 1) == SNO_NULL);
    expect("no pattern to take", sno_pattern_take(NULL, &match) == SNO_NULL);
    expect("no match to take", sno_pattern_take(&pattern, NULL) == SNO_NULL);
    try_gather("then it gathers", &pattern, &text, 0, SNO_USUAL_TRIALS, 5, SNO_DONE);
    expect("no match to take what is there", sno_pattern_take(&pattern, NULL) == SNO_NULL);
    try_take("it is still there", &pattern, SNO_DONE, (sno_match){0, 1, 1, 0});
    sno_text_close(&text);
    sno_pattern_close(&pattern);
}

static void try_many_gathered(void) {
    static uint8_t bytes[100000];
    sno_text text = closed_text();
    memset(bytes, 'a', sizeof bytes);
    expect("a text of many matches", sno_text_open(bytes, sizeof bytes, &text) == SNO_DONE);
    sno_pattern pattern = opened("", "LEN(1) . X");
    try_gather("many searches", &pattern, &text, 0, SNO_USUAL_TRIALS, SIZE_MAX, SNO_DONE);
    bool right = true;
    for (size_t place = 0; place < sizeof bytes; place++) {
        sno_match match;
        uint8_t status = sno_pattern_take(&pattern, &match);
        right = right && status == SNO_DONE && are_same(match, (sno_match){place, place + 1, place + 1, 1});
    }
    expect("many matches", right);
    try_take("the end of many", &pattern, SNO_NOTHING, (sno_match){0, 0, sizeof bytes + 1, 0});
    try_none_left("none is left of many", &pattern);
    /* What is gathered is freed with the pattern. */
    try_gather("many searches again", &pattern, &text, 0, SNO_USUAL_TRIALS, 1000, SNO_DONE);
    sno_pattern_close(&pattern);
    sno_text_close(&text);
}

/* No memory can be had that isn't there already. */
static void try_no_memory(void) {
    uint8_t *bytes = (uint8_t *)malloc(SNO_LONGEST_TEXT);
    sno_text text = closed_text();
    struct rlimit none = {1 << 20, 1 << 20};
    if (!bytes || setrlimit(RLIMIT_AS, &none)) {
        expect("memory can be limited", false);
        return;
    }
    memset(bytes, 'a', SNO_LONGEST_TEXT);
    expect("a lack of memory", sno_text_open(bytes, SNO_LONGEST_TEXT, &text) == SNO_NO_MEMORY);
    expect("the text is closed", !text.handle.is_open);
    free(bytes);
}

int main(int count, char **arguments) {
    if (count == 2 && !strcmp(arguments[1], "memory")) {
        try_no_memory();
    } else {
        try_matches();
        try_null_strings();
        try_assignments();
        try_limits();
        try_replacements();
        try_definitions();
        try_faults();
        try_handles();
        try_long_texts();
        try_null();
        try_gathered();
        try_takes();
        try_drops();
        try_gather_handles();
        try_many_gathered();
    }
    printf("%d passed, %d failed\n", passed, failed);
    return failed ? 1 : 0;
}
