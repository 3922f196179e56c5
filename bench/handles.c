/* A pattern by a handle of the library for C:
 *
 *     handles RULE DEFINITIONS TIMES < text
 *
 * Prints the nanoseconds of opening and closing the pattern, those of its first match in the text, those of that match with
 * all assignments, and those of each match with its assignments if up to 32 are gathered: each the least of five runs of
 * TIMES. bench/python compiles it. */
#include "sno_rewrite.h"

#include <stdio.h>
#include <stdlib.h>
#include <string.h>
#include <time.h>

/* As many searches the package for Python gathers. */
enum { RUNS = 5, ROOM = 1 << 20, AT_ONCE = 32 };

static sno_pattern pattern;
static sno_text text;
static size_t taken;

static double nanoseconds(void) {
    struct timespec now;
    clock_gettime(CLOCK_MONOTONIC, &now);
    return now.tv_sec * 1e9 + now.tv_nsec;
}

/* Opens the pattern, for which it is closed first if it is open. */
static bool opening(char **words) {
    uint8_t line[1024];
    size_t length;
    return sno_pattern_open((const uint8_t *)words[2], strlen(words[2]), (const uint8_t *)words[1], strlen(words[1]),
                            line, sizeof line, &length, &pattern) == SNO_DONE;
}

/* Whether there is a match or not, the search has to come to its end. */
static bool assignments(uint8_t status, size_t count) {
    for (size_t place = 0; place < count; place++) {
        uint8_t name[SNO_LONGEST_NAME];
        sno_assignment assignment;
        if (sno_pattern_assignment(&pattern, place, name, sizeof name, &assignment) != SNO_DONE)
            return false;
    }
    return status == SNO_DONE || status == SNO_NOTHING;
}

static bool matching(char **words) {
    sno_match match;
    (void)words;
    return sno_pattern_next(&pattern, &text, 0, SNO_USUAL_TRIALS, &match) <= SNO_NOTHING;
}

static bool reading(char **words) {
    sno_match match;
    (void)words;
    uint8_t status = sno_pattern_next(&pattern, &text, 0, SNO_USUAL_TRIALS, &match);
    return assignments(status, match.assignments);
}

/* There is one search or more, since the text has an end. */
static bool gathering(char **words) {
    sno_match match;
    (void)words;
    if (sno_pattern_gather(&pattern, &text, 0, SNO_USUAL_TRIALS, AT_ONCE) != SNO_DONE)
        return false;
    for (taken = 0;; taken++) {
        uint8_t status = sno_pattern_take(&pattern, &match);
        if (status == SNO_NOTHING_GATHERED)
            return taken > 0;
        if (!assignments(status, match.assignments))
            return false;
    }
}

/* The least time of some runs of `times`; less than 0 if the work fails. */
static double least(bool (*work)(char **), char **words, long times) {
    double found = 1e18;
    for (int run = 0; run < RUNS; run++) {
        double begun = nanoseconds();
        for (long time = 0; time < times; time++)
            if (!work(words))
                return -1;
        double taken = (nanoseconds() - begun) / (double)times;
        if (taken < found)
            found = taken;
    }
    return found;
}

int main(int count, char **words) {
    static uint8_t bytes[ROOM];
    long times = count == 4 ? atol(words[3]) : 0;
    if (times < 1)
        return 3;
    size_t length = fread(bytes, 1, sizeof bytes, stdin);
    if (sno_text_open(bytes, length, &text) != SNO_DONE)
        return 1;
    double opened = least(opening, words, times);
    double matched = opened < 0 ? -1 : least(matching, words, times);
    double read = matched < 0 ? -1 : least(reading, words, times);
    double gathered = read < 0 ? -1 : least(gathering, words, times);
    sno_text_close(&text);
    sno_pattern_close(&pattern);
    if (gathered < 0)
        return 1;
    printf("%.1f %.1f %.1f %.1f\n", opened, matched, read, gathered / (double)taken);
    return 0;
}
