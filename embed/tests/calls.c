/* Tries single calls of sno_rewrite, in C and in C++: each status except SNO_NO_MEMORY, and the bytes of the buffer.
 * The listings were worked out by hand from docs/FORMAT.md. Ends with 1 if something failed. */
#include "../sno_rewrite.h"

#include <stdio.h>
#include <string.h>

#define DOCUMENT                                                                                                       \
    "{\"texts\":[{\"name\":\"T\",\"text\":\"abc\"}],"                                                                  \
    "\"statements\":[{\"text\":\"T\",\"pattern\":\"'b'\",\"object\":\"'X'\"}]}"
#define LISTING "texts 1\nT 1 |aXc|\nentries 1\n0 statement 1 T 0 matched 1 2\n  -> |aXc|\nrefused 0\n"
#define FAILED "texts 1\nT 0 |abc|\nentries 1\n0 statement 1 T 0 failed\nrefused 0\n"
#define REFUSED "texts 1\nT 0 |abc|\nentries 0\nrefused 1\nstatement 1 too many trials\n"
#define JSON                                                                                                           \
    "{\"entries\":[{\"after\":\"aXc\",\"bindings\":[],\"end\":2,\"entry\":0,\"matched\":true,\"start\":1,"             \
    "\"statement\":1,\"text\":\"T\",\"version\":0}],\"refused\":[],"                                                   \
    "\"texts\":[{\"name\":\"T\",\"text\":\"aXc\",\"version\":1}]}\n"
#define FAULT "input: not JSON"

enum { SPACE = 512, FILLER = '#' };

static int passed = 0, failed = 0;

static void expect(const char *what, bool right) {
    if (right) {
        passed++;
    } else {
        failed++;
        printf("FAILED %s\n", what);
    }
}

typedef struct {
    const char *document;
    bool anchor, json;
    uint32_t trials;
    size_t room;
} Call;

/* Makes the call with a buffer at the beginning of a larger space. Afterwards the space has to begin with `output`, and
 * all bytes after it have to be unchanged. */
static void try_call(const char *what, Call call, uint8_t wanted_status, size_t wanted_length, const char *output) {
    uint8_t space[SPACE], wanted[SPACE];
    size_t length = 12345;
    memset(space, FILLER, SPACE);
    memset(wanted, FILLER, SPACE);
    memcpy(wanted, output, strlen(output));
    uint8_t status = sno_rewrite((const uint8_t *)call.document, strlen(call.document), call.anchor, call.json,
                                 call.trials, space, call.room, &length);
    bool right = status == wanted_status && length == wanted_length && !memcmp(space, wanted, SPACE);
    if (!right)
        printf("status %d, wanted %d; length %zu, wanted %zu; %.*s\n", status, wanted_status, length, wanted_length,
               (int)SPACE, (const char *)space);
    expect(what, right);
}

static void try_rooms(void) {
    const size_t whole = strlen(LISTING);
    for (size_t room = 0; room < whole; room++) {
        Call call = {DOCUMENT, false, false, SNO_USUAL_TRIALS, room};
        try_call("a buffer that is too short", call, SNO_TOO_SHORT, whole, "");
    }
    Call exact = {DOCUMENT, false, false, SNO_USUAL_TRIALS, whole};
    try_call("a buffer of the listing's length", exact, SNO_ALL_ACCEPTED, whole, LISTING);
    Call larger = {DOCUMENT, false, false, SNO_USUAL_TRIALS, whole + 1};
    try_call("a buffer of one byte more", larger, SNO_ALL_ACCEPTED, whole, LISTING);
}

static void try_options(void) {
    Call json = {DOCUMENT, false, true, SNO_USUAL_TRIALS, SPACE};
    try_call("JSON", json, SNO_ALL_ACCEPTED, strlen(JSON), JSON);
    Call anchored = {DOCUMENT, true, false, SNO_USUAL_TRIALS, SPACE};
    try_call("anchored", anchored, SNO_ALL_ACCEPTED, strlen(FAILED), FAILED);
}

static void try_limits(void) {
    const uint32_t bad[] = {0, 1000000001, UINT32_MAX};
    for (size_t place = 0; place < sizeof bad / sizeof *bad; place++) {
        Call call = {DOCUMENT, false, false, bad[place], SPACE};
        try_call("a bad limit of trials", call, SNO_BAD_LIMIT, 0, "");
    }
    Call one = {DOCUMENT, false, false, 1, SPACE};
    try_call("a limit of one trial", one, SNO_SOME_REFUSED, strlen(REFUSED), REFUSED);
    Call two = {DOCUMENT, false, false, 2, SPACE};
    try_call("a limit of two trials", two, SNO_ALL_ACCEPTED, strlen(LISTING), LISTING);
    Call highest = {DOCUMENT, false, false, 1000000000, SPACE};
    try_call("the highest limit of trials", highest, SNO_ALL_ACCEPTED, strlen(LISTING), LISTING);
}

static void try_faults(void) {
    Call whole = {"[", false, false, SNO_USUAL_TRIALS, SPACE};
    try_call("a fault", whole, SNO_NO_DOCUMENT, strlen(FAULT), FAULT);
    Call empty = {"", false, false, SNO_USUAL_TRIALS, SPACE};
    try_call("a document of no bytes", empty, SNO_NO_DOCUMENT, strlen(FAULT), FAULT);
    Call cut = {"[", false, false, SNO_USUAL_TRIALS, 5};
    try_call("a fault whose line is cut", cut, SNO_NO_DOCUMENT, 5, "input");
    Call none = {"[", false, false, SNO_USUAL_TRIALS, 0};
    try_call("a fault without room for its line", none, SNO_NO_DOCUMENT, 0, "");
}

static void try_null(void) {
    const uint8_t *document = (const uint8_t *)DOCUMENT;
    uint8_t buffer[1] = {FILLER};
    size_t length = 12345;
    expect("a null document", sno_rewrite(NULL, 0, false, false, 1, buffer, 1, &length) == SNO_NULL);
    expect("a null buffer", sno_rewrite(document, strlen(DOCUMENT), false, false, 1, NULL, 0, &length) == SNO_NULL);
    expect("a null length", sno_rewrite(document, strlen(DOCUMENT), false, false, 1, buffer, 1, NULL) == SNO_NULL);
    expect("nothing is done with a null pointer", length == 12345 && buffer[0] == FILLER);
}

int main(void) {
    try_rooms();
    try_options();
    try_limits();
    try_faults();
    try_null();
    printf("%d passed, %d failed\n", passed, failed);
    return failed != 0;
}
