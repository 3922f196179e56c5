/* Nomyake for C and C++: performs the statements of a document in order and lists what they did; reads a pattern once,
 * seeks it in any number of texts, and replaces its matches; and keeps a book, whose texts are read and rewritten line
 * by line.
 *
 * The functions are part of the static library that crates/sno_c makes. They are proved to do what this header says
 * about statuses, numbers and buffers. The text of a fault's line is only tested.
 *
 * The caller must guarantee four things, which no proof can check:
 * - A pointer with a length points to that many bytes, and each other one to a value of its type.
 * - No pointer is null, even if its length is 0. The functions that are defined here check this first.
 * - What the pointers of a call point to doesn't overlap.
 * - During a call no other thread writes to what the call reads, or uses what it writes.
 *
 * A call starts no thread and waits for nobody. Several threads may call at once, each with its own buffer. A thread
 * that calls needs a stack of 2 MiB or more: with 768 KiB the deepest patterns ended the program. */
#ifndef SNO_REWRITE_H
#define SNO_REWRITE_H

#include <stddef.h>
#include <stdint.h>

#ifdef __cplusplus
extern "C" {
#else
#include <stdbool.h>
#endif

/* What a call returns. The output is the first `*output_length` bytes of the buffer. */
enum sno_status {
    SNO_ALL_ACCEPTED = 0, /* The output is the listing. No statement was refused. */
    SNO_SOME_REFUSED = 1, /* The output is the listing. It names the statements that were refused. */
    SNO_NO_DOCUMENT = 2,  /* The bytes aren't a document. The output is the line of the first fault. */
    SNO_BAD_LIMIT = 3,    /* `trials` isn't from 1 to 1,000,000,000. The output is empty. */
    SNO_NO_MEMORY = 4,    /* The call ran out of memory. The output is a line that says so, or empty. */
    SNO_TOO_SHORT = 5,    /* The listing has `*output_length` bytes and the buffer fewer. The buffer is unchanged. */
    SNO_NULL = 6          /* Only from sno_rewrite: a pointer is null. Nothing was done. */
};

/* The limit of trials that the program has without an option. */
#define SNO_USUAL_TRIALS 1000000

/* A longer document is always a fault. */
#define SNO_LONGEST_DOCUMENT 16777216

/* `anchor`: whether a statement without the member `anchored` is anchored.
 * `json`: whether the listing is JSON.
 * `trials`: how many trials the match of a statement may take.
 *
 * The line of a fault is cut if the buffer is too short for it; 128 bytes are enough. It has no line feed.
 * The bytes of the buffer after the output are unchanged. */
uint8_t sno_rewrite_list(const uint8_t *document, size_t document_length, bool anchor, bool json, uint32_t trials,
                         uint8_t *buffer, size_t buffer_length, size_t *output_length);

/* The same, but returns SNO_NULL if a pointer is null. */
static inline uint8_t sno_rewrite(const uint8_t *document, size_t document_length, bool anchor, bool json,
                                  uint32_t trials, uint8_t *buffer, size_t buffer_length, size_t *output_length) {
    if (!document || !buffer || !output_length)
        return SNO_NULL;
    return sno_rewrite_list(document, document_length, anchor, json, trials, buffer, buffer_length, output_length);
}

/* ---- Patterns that are read once ----
 *
 * A rule is read once, and its pattern is then sought in any number of texts:
 *
 *     sno_pattern pattern = {{NULL, false}};
 *     sno_text text = {{NULL, false}};
 *     sno_match match;
 *     ...
 *     status = sno_pattern_open(NULL, 0, rule, rule_length, line, sizeof line, &line_length, &pattern);
 *     status = sno_text_open(bytes, length, &text);
 *     for (size_t from = 0; (status = sno_pattern_next(&pattern, &text, from, SNO_USUAL_TRIALS, &match)) == SNO_DONE;
 *          from = match.next)
 *         ... the bytes from match.start up to match.end ...
 *     sno_text_close(&text);
 *     sno_pattern_close(&pattern);
 *
 * A text is copied when it is opened. Places in it are cursors: how many bytes come before them. A match takes each
 * byte as a character.
 *
 * Handles are in the memory of the caller. One whose bytes are all 0 is closed, and so it has to be before its first
 * use. An open one must not be copied and then used twice. Its memory is freed when it is closed. A handle is used by
 * one call at a time; different handles may be used by different threads at once.
 *
 * The functions named sno_handle_.. are those of the library, which are proved to do what is said here about
 * statuses, cursors, numbers and buffers. The functions over them check that no pointer is null. What is said above
 * about pointers and stacks holds for all of them. */

/* What these functions return. SNO_BAD_LIMIT, SNO_NO_MEMORY, SNO_TOO_SHORT and SNO_NULL are returned, too. */
enum sno_pattern_status {
    SNO_DONE = 0,              /* It is done; of a search, there is a match. */
    SNO_NOTHING = 1,           /* There is no match, no assignment at this place, no new text, or no reply. */
    SNO_FAULT = 2,             /* The rule or a definition can't be read; of a book, its document. */
    SNO_CLOSED = 7,            /* A handle is closed, or holds something else. Nothing was done. */
    SNO_TOO_MANY_TRIALS = 8,   /* The search takes more trials than the limit. */
    SNO_TOO_LONG = 9,          /* A text would have more than SNO_LONGEST_TEXT bytes. */
    SNO_PAST_END = 10,         /* The cursor lies past the end of the text. */
    SNO_HISTORY_TOO_LONG = 11, /* The search would have to keep more than 4,194,304 places to back up to. */
    SNO_NOTHING_GATHERED = 12  /* No search is gathered, or none is left. */
};

/* A longer text is refused. */
#define SNO_LONGEST_TEXT 16777216

/* The name of a variable has at most this many bytes. */
#define SNO_LONGEST_NAME 64

typedef struct sno_handle {
    void *memory;
    bool is_open;
} sno_handle;

typedef struct sno_pattern {
    sno_handle handle;
} sno_pattern;

typedef struct sno_text {
    sno_handle handle;
} sno_text;

typedef struct sno_book {
    sno_handle handle;
} sno_book;

/* What a search found. */
typedef struct sno_match {
    size_t start;       /* The cursor from which the match began. */
    size_t end;         /* The cursor at which it ended. */
    size_t next;        /* Where to go on for the next match; one past the end of the text if there can be none. */
    size_t assignments; /* How many assignments the search did. */
} sno_match;

/* An assignment of a variable. Its value is the text between the two cursors or, if `is_cursor`, the number `start`. */
typedef struct sno_assignment {
    size_t name_length;
    size_t start;
    size_t end;
    bool is_cursor;
} sno_assignment;

/* What was replaced. */
typedef struct sno_replaced {
    size_t length;    /* How many bytes the new text has. */
    uint64_t matches; /* How many matches there were; of a repeated rule, in how many rounds there was one. */
} sno_replaced;

uint8_t sno_handle_open_pattern(const uint8_t *definitions, size_t definitions_length, const uint8_t *rule,
                                size_t rule_length, uint8_t *line, size_t line_room, size_t *line_length,
                                sno_handle *pattern);
uint8_t sno_handle_open_text(const uint8_t *bytes, size_t length, sno_handle *text);
uint8_t sno_handle_next(sno_handle *pattern, sno_handle *text, size_t from, uint32_t trials, sno_match *match);
uint8_t sno_handle_gather(sno_handle *pattern, sno_handle *text, size_t from, uint32_t trials, size_t most);
uint8_t sno_handle_take(sno_handle *pattern, sno_match *match);
uint8_t sno_handle_assignment(sno_handle *pattern, size_t place, uint8_t *name, size_t name_room,
                              sno_assignment *assignment);
uint8_t sno_handle_replace(sno_handle *pattern, sno_handle *text, uint32_t trials, uint8_t *buffer, size_t room,
                           sno_replaced *replaced);
uint8_t sno_handle_open_book(const uint8_t *document, size_t document_length, bool anchor, uint32_t trials,
                             uint8_t *line, size_t line_room, size_t *line_length, sno_handle *book);
uint8_t sno_handle_line(sno_handle *book, const uint8_t *line, size_t line_length, uint8_t *reply, size_t room,
                        size_t *reply_length);
uint8_t sno_handle_reply(sno_handle *book, uint8_t *reply, size_t room, size_t *reply_length);
uint8_t sno_handle_listing(sno_handle *book, uint8_t *listing, size_t room, size_t *listing_length);
void sno_handle_close(sno_handle *handle);

/* Reads a rule in a line, `PATTERN` or `PATTERN = OBJECT` and perhaps fields, as `sno edit -e` does (docs/FORMAT.md
 * has rules in lines). `definitions` has the definitions that the rule may refer to, each on a line of its own, as a
 * file of them has them; those that the rule doesn't need are left out. It may be null if its length is 0.
 *
 * - SNO_DONE: `pattern` is open. `*line_length` is 0.
 * - SNO_FAULT: the first `*line_length` bytes of `line` are what is wrong, with its place, the characters around it and
 *   what to write instead, in lines; as much of them as there is room for. 1,024 bytes are enough.
 * - SNO_NO_MEMORY: `*line_length` is 0.
 *
 * What the handle held before is closed first. Except for SNO_DONE it is then closed. After the first `*line_length`
 * bytes the buffer is unchanged. */
static inline uint8_t sno_pattern_open(const uint8_t *definitions, size_t definitions_length, const uint8_t *rule,
                                       size_t rule_length, uint8_t *line, size_t line_room, size_t *line_length,
                                       sno_pattern *pattern) {
    static const uint8_t nothing[1] = {0};
    if (!definitions && !definitions_length)
        definitions = nothing;
    if (!definitions || !rule || !line || !line_length || !pattern)
        return SNO_NULL;
    return sno_handle_open_pattern(definitions, definitions_length, rule, rule_length, line, line_room, line_length,
                                   &pattern->handle);
}

/* Copies bytes as a text: SNO_DONE, SNO_NO_MEMORY, or SNO_TOO_LONG. What the handle held before is closed first. Except
 * for SNO_DONE it is then closed. */
static inline uint8_t sno_text_open(const uint8_t *bytes, size_t length, sno_text *text) {
    if (!bytes || !text)
        return SNO_NULL;
    return sno_handle_open_text(bytes, length, &text->handle);
}

/* Seeks the first match whose start is the cursor `from` or lies past it; of an anchored rule, one that starts at
 * `from`. The search may take `trials` trials.
 *
 * - SNO_DONE: `*match` has the match. A search from its `next` goes on after it, as `sno edit` does: the next match
 *   that counts is the next one that isn't the null string at the end of this one.
 * - SNO_NOTHING: there is no match. `*match` has how many assignments the search did nonetheless.
 * - SNO_CLOSED, SNO_BAD_LIMIT, SNO_PAST_END, SNO_TOO_MANY_TRIALS, the first that applies; or SNO_HISTORY_TOO_LONG or
 *   SNO_NO_MEMORY, which may come instead of all but the first three: `*match` is all 0.
 *
 * The assignments stay with the pattern until its next search. */
static inline uint8_t sno_pattern_next(sno_pattern *pattern, sno_text *text, size_t from, uint32_t trials,
                                       sno_match *match) {
    if (!pattern || !text || !match)
        return SNO_NULL;
    return sno_handle_next(&pattern->handle, &text->handle, from, trials, match);
}

/* Does up to `most` searches at once, each from where the match of the one before leaves off, and gathers what they
 * find: the same as that many calls of sno_pattern_next, each with its cursor from `next` of the one before,
 * in a part of the time. A search without a match is the last one. All of them together may take `trials` trials.
 * What was gathered with the pattern before is dropped; each search takes some memory until it is taken.
 *
 * - SNO_DONE: sno_pattern_take takes the searches, one after the other.
 * - SNO_CLOSED: nothing is changed.
 * - SNO_BAD_LIMIT, SNO_PAST_END, SNO_TOO_MANY_TRIALS, the first that applies; or SNO_HISTORY_TOO_LONG or
 *   SNO_NO_MEMORY, which may come instead of SNO_DONE and SNO_TOO_MANY_TRIALS: nothing is gathered. */
static inline uint8_t sno_pattern_gather(sno_pattern *pattern, sno_text *text, size_t from, uint32_t trials,
                                         size_t most) {
    if (!pattern || !text)
        return SNO_NULL;
    return sno_handle_gather(&pattern->handle, &text->handle, from, trials, most);
}

/* Takes the first of the searches that were gathered. Its assignments are with the pattern then.
 *
 * - SNO_DONE: `*match` has its match.
 * - SNO_NOTHING: it found no match. `*match` has how many assignments it did nonetheless.
 * - SNO_NOTHING_GATHERED: none is left. With the pattern nothing is changed, and `*match` is all 0.
 * - SNO_CLOSED: `*match` is all 0. */
static inline uint8_t sno_pattern_take(sno_pattern *pattern, sno_match *match) {
    if (!pattern || !match)
        return SNO_NULL;
    return sno_handle_take(&pattern->handle, match);
}

/* An assignment of the last search, by its place from 0 on: first those by `$` and `@`, which are done at once and
 * stay done when the match backs up, and after them those by `.`, in the order in which their parts ended. A variable
 * has the value of its last assignment.
 *
 * - SNO_DONE: `*assignment` has it, and the first `name_length` bytes of `name` are the name of its variable.
 * - SNO_TOO_SHORT: the same, but the name has more than `name_room` bytes, and `name` is unchanged.
 * - SNO_NOTHING: there is no assignment at this place.
 * - SNO_CLOSED. */
static inline uint8_t sno_pattern_assignment(sno_pattern *pattern, size_t place, uint8_t *name, size_t name_room,
                                             sno_assignment *assignment) {
    if (!pattern || !name || !assignment)
        return SNO_NULL;
    return sno_handle_assignment(&pattern->handle, place, name, name_room, assignment);
}

/* Performs the rule on the text, which stays as it is, and puts the new text in `buffer`: by its object all matches are
 * replaced, or what the rule's fields say. All searches of a round together may take `trials` trials.
 *
 * - SNO_DONE: the buffer begins with the new text.
 * - SNO_NOTHING: there is no new text, since there was no match or the rule has no object; the length is 0.
 * - SNO_TOO_SHORT: the new text has `replaced->length` bytes, which is more than `room`.
 * - SNO_CLOSED, SNO_BAD_LIMIT, SNO_TOO_MANY_TRIALS, SNO_TOO_LONG, SNO_HISTORY_TOO_LONG or SNO_NO_MEMORY: both
 *   numbers are 0.
 *
 * Except for SNO_DONE the buffer is unchanged, and always after the new text. */
static inline uint8_t sno_pattern_replace(sno_pattern *pattern, sno_text *text, uint32_t trials, uint8_t *buffer,
                                          size_t room, sno_replaced *replaced) {
    if (!pattern || !text || !buffer || !replaced)
        return SNO_NULL;
    return sno_handle_replace(&pattern->handle, &text->handle, trials, buffer, room, replaced);
}

/* Frees what a handle holds. A closed one stays closed, and null is ignored. */
static inline void sno_pattern_close(sno_pattern *pattern) {
    if (pattern)
        sno_handle_close(&pattern->handle);
}

static inline void sno_text_close(sno_text *text) {
    if (text)
        sno_handle_close(&text->handle);
}

/* ---- Books ----
 *
 * A book has the texts of a document, and a journal of the statements that were accepted on them. It takes the lines of
 * JSON that `sno serve` takes (docs/SERVE.md has them), and returns the replies that it writes, byte for byte:
 *
 *     sno_book book = {{NULL, false}};
 *     uint8_t reply[65536];
 *     ...
 *     status = sno_book_open(document, document_length, false, SNO_USUAL_TRIALS, line, sizeof line, &length, &book);
 *     status = sno_book_line(&book, statement, statement_length, reply, sizeof reply, &length);
 *     ... the first `length` bytes of `reply` ...
 *     sno_book_close(&book);
 *
 * What is said of handles above holds for books: one call at a time uses a book. */

/* A longer line gets a reply that says so. */
#define SNO_LONGEST_LINE 16777216

/* Reads a document, as sno_rewrite does, and performs its statements on its texts. What `anchor` and `trials` say holds
 * for the statements of lines too.
 *
 * - SNO_DONE: `book` is open. Statements of the document that were refused are in its listing. `*line_length` is 0.
 * - SNO_FAULT: the bytes aren't a document. The first `*line_length` bytes of `line` are the line of the first fault, as
 *   much of it as there is room for; 128 bytes are enough.
 * - SNO_BAD_LIMIT, SNO_NO_MEMORY: `*line_length` is 0.
 *
 * What the handle held before is closed first. Except for SNO_DONE it is then closed. After the first `*line_length`
 * bytes the buffer is unchanged. */
static inline uint8_t sno_book_open(const uint8_t *document, size_t document_length, bool anchor, uint32_t trials,
                                    uint8_t *line, size_t line_room, size_t *line_length, sno_book *book) {
    if (!document || !line || !line_length || !book)
        return SNO_NULL;
    return sno_handle_open_book(document, document_length, anchor, trials, line, line_room, line_length, &book->handle);
}

/* Does what a line asks for, once, and puts the reply in `reply`. A statement that is accepted is one entry of the
 * journal; one that is refused, and each other line, changes nothing. The reply ends in a line feed, which a line needs
 * not have, and is kept with the book until the next line.
 *
 * - SNO_DONE: the first `*reply_length` bytes of `reply` are the reply.
 * - SNO_TOO_SHORT: the line is done, but the reply has `*reply_length` bytes, which is more than `room`. Don't send the
 *   line again: sno_book_reply puts the reply in a longer buffer.
 * - SNO_NO_MEMORY: the journal has one entry more if the line's statement was accepted before memory ran out; a line
 *   `{"since": N}` shows it. Else texts and journal are unchanged. No reply is kept.
 * - SNO_CLOSED: nothing was done.
 *
 * Except for SNO_DONE the buffer is unchanged, and always after the reply. For the last two `*reply_length` is 0. */
static inline uint8_t sno_book_line(sno_book *book, const uint8_t *line, size_t line_length, uint8_t *reply, size_t room,
                                    size_t *reply_length) {
    if (!book || !line || !reply || !reply_length)
        return SNO_NULL;
    return sno_handle_line(&book->handle, line, line_length, reply, room, reply_length);
}

/* Puts the reply to the last line in `reply` once more. Nothing is done again, and the reply stays.
 *
 * - SNO_DONE: the first `*reply_length` bytes of `reply` are the reply.
 * - SNO_TOO_SHORT: the reply has `*reply_length` bytes, which is more than `room`.
 * - SNO_NOTHING: there was no line yet, or the last one ran out of memory.
 * - SNO_CLOSED.
 *
 * Except for SNO_DONE the buffer is unchanged, and always after the reply. For the last two `*reply_length` is 0. */
static inline uint8_t sno_book_reply(sno_book *book, uint8_t *reply, size_t room, size_t *reply_length) {
    if (!book || !reply || !reply_length)
        return SNO_NULL;
    return sno_handle_reply(&book->handle, reply, room, reply_length);
}

/* Puts the listing as JSON in `listing`: the texts with their versions, the journal, and the statements that were
 * refused, of the document and of lines. It ends in a line feed.
 *
 * - SNO_DONE: the first `*listing_length` bytes of `listing` are the listing.
 * - SNO_TOO_SHORT: the listing has `*listing_length` bytes, which is more than `room`.
 * - SNO_NO_MEMORY, SNO_CLOSED: `*listing_length` is 0.
 *
 * Except for SNO_DONE the buffer is unchanged, and always after the listing. The book is always unchanged. */
static inline uint8_t sno_book_listing(sno_book *book, uint8_t *listing, size_t room, size_t *listing_length) {
    if (!book || !listing || !listing_length)
        return SNO_NULL;
    return sno_handle_listing(&book->handle, listing, room, listing_length);
}

/* Frees the book, as sno_pattern_close frees a pattern. */
static inline void sno_book_close(sno_book *book) {
    if (book)
        sno_handle_close(&book->handle);
}

#ifdef __cplusplus
}
#endif

#endif
