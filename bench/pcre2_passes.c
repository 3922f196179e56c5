/* All matches of an expression, one after the other, by PCRE2's JIT:
 *
 *     pcre2_passes EXPRESSION TIMES < text
 *
 * Prints how many matches there are, and the nanoseconds of one pass: the least of five runs of TIMES. The captures of each
 * match are looked at. bench/passes compiles it.
 */
#define PCRE2_CODE_UNIT_WIDTH 8
#include <pcre2.h>
#include <stdio.h>
#include <stdlib.h>
#include <time.h>

static double nanoseconds(void)
{
    struct timespec now;
    clock_gettime(CLOCK_MONOTONIC, &now);
    return now.tv_sec * 1e9 + now.tv_nsec;
}

/* Goes through the text once. Adds the lengths of the captures to `captured`, and returns how many matches there are. */
static long pass(const pcre2_code *code, const unsigned char *text, size_t length, pcre2_match_data *data, size_t *captured)
{
    const PCRE2_SIZE *ends = pcre2_get_ovector_pointer(data);
    long matches = 0;
    size_t at = 0;
    while (at <= length) {
        int groups = pcre2_match(code, text, length, at, 0, data, NULL);
        if (groups < 0)
            break;
        for (int group = 1; group < groups; group++)
            *captured += ends[2 * group + 1] - ends[2 * group];
        matches++;
        at = ends[1] + (ends[0] == ends[1]);
    }
    return matches;
}

int main(int count, char **words)
{
    static unsigned char text[1 << 20];
    int error;
    PCRE2_SIZE place;
    if (count != 3)
        return 3;
    int times = atoi(words[2]);
    size_t length = fread(text, 1, sizeof text, stdin);
    pcre2_code *code = pcre2_compile((PCRE2_SPTR)words[1], PCRE2_ZERO_TERMINATED, 0, &error, &place, NULL);
    if (!code || pcre2_jit_compile(code, PCRE2_JIT_COMPLETE) != 0)
        return 1;
    pcre2_match_data *data = pcre2_match_data_create_from_pattern(code, NULL);
    double least = 1e18;
    size_t captured = 0;
    long matches = 0;
    for (int run = 0; run < 5; run++) {
        double begun = nanoseconds();
        for (int time = 0; time < times; time++)
            matches = pass(code, text, length, data, &captured);
        double taken = (nanoseconds() - begun) / times;
        if (taken < least)
            least = taken;
    }
    printf("%ld %.0f\n", matches, least);
    return captured == (size_t)-1;
}
