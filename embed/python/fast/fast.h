/* The module `sno_rewrite._fast`: seeks patterns that were read once without going through ctypes. It does what
 * ../src/sno_rewrite/_plain.py does, which is taken if this isn't built.
 *
 * It links with no library: it takes the functions of the shared object that the package has found. So a process has
 * only one, which may be that of a call's `library` or of SNO_REWRITE_LIBRARY, and none is needed to build this. A
 * call by an address takes as long as one that is linked.
 *
 * It keeps to the limited interface of Python 3.11, so that what is built is for all later versions. Built for one
 * version a search takes a twentieth fewer instructions. */
#ifndef SNO_REWRITE_FAST_H
#define SNO_REWRITE_FAST_H

#define PY_SSIZE_T_CLEAN
#define Py_LIMITED_API 0x030B0000
#include <Python.h>

#include <structmember.h>

#include <stdbool.h>

#include "sno_rewrite.h"

#define METHOD(function) ((PyCFunction)(void (*)(void))(function))

enum {
    /* For as many trials a search keeps the interpreter's lock, since to release it takes about as long as a short
     * search. In texts that aren't long they took less than a millisecond. */
    FEW_TRIALS = 1000,
    /* In a text of as many bytes even one trial may take long, and so may copying it. */
    LONG_TEXT = 1 << 17,
    /* The matches of a text of as many bytes mostly take more trials than few. */
    LONG_TO_REPLACE = 1024,
    /* Enough for the lines of a fault. */
    LINE_ROOM = 1024,
    /* A new text has room for twice the text and as many bytes. If that isn't enough, a second run is needed. */
    SPARE_ROOM = 1024,
    /* A match with more variables takes memory for them while it is made. */
    FEW_VARIABLES = 8,
    /* As many searches are done at once. The pattern is compiled once for all of them, which takes longer than a short
     * search. More of them would gain little, and those after the last match that a program asks for are in vain. */
    SEARCHES_AT_ONCE = 32
};

/* ---- library.c: the functions of a library ---- */

typedef struct Functions {
    __typeof__(sno_handle_open_pattern) *open_pattern;
    __typeof__(sno_handle_open_text) *open_text;
    __typeof__(sno_handle_next) *next;
    /* Both are null if an older library lacks one of them. */
    __typeof__(sno_handle_gather) *gather;
    __typeof__(sno_handle_take) *take;
    __typeof__(sno_handle_assignment) *assignment;
    __typeof__(sno_handle_replace) *replace;
    __typeof__(sno_handle_close) *close;
} Functions;

/* The function `functions` of the module: those of the shared object with a path, in a capsule. */
PyObject *functions_of_path(PyObject *module, PyObject *path);

/* What is in such a capsule; null with an exception if it is another object. */
const Functions *functions_in(PyObject *capsule);

/* ---- match.c: the type FoundMatch ---- */

/* A part of a string, in characters, or a place in it twice. */
typedef struct Part {
    Py_ssize_t start;
    Py_ssize_t end;
    bool is_cursor;
} Part;

typedef struct Group {
    PyObject *name;
    Part part;
} Group;

/* Its references were there before it, and it never changes them. So a cycle has some other object that the collector
 * can clear, as with tuples. */
typedef struct FoundMatch {
    PyObject_VAR_HEAD
    PyObject *pattern;
    PyObject *string;
    Py_ssize_t pos;
    Part whole;
    Group groups[];
} FoundMatch;

extern PyType_Spec match_spec;

/* Frees the memory of an object of one of the module's types, which keeps its type as long. */
void free_object(PyObject *object);

/* ---- text.c: strings that are sought in ---- */

/* A string that is sought in. Its bytes are those of the string object, which is kept as long as this is used. */
typedef struct Text {
    const uint8_t *bytes;
    size_t length;
    size_t characters;
    /* A cursor and its index, from which the next index is counted. */
    size_t cursor;
    size_t index;
    sno_handle handle;
} Text;

/* Takes the bytes of a string; false with an exception. A `str` keeps its UTF-8 for the next call. */
bool take_string(Text *text, PyObject *string);

/* Opens the handle, and returns the status. */
uint8_t open_text(const Functions *functions, Text *text);

/* The index of a cursor, in `*index`; false with an exception. */
bool index_of(Text *text, size_t cursor, Py_ssize_t *index);

/* The cursor of an index from 0 on; of one past the end that of the end. */
size_t cursor_of(const Text *text, size_t index);

/* ---- search.c: searches, which may go on without the interpreter's lock ---- */

/* The name of a variable. It stays where it is as long as its finder. */
typedef struct Name {
    PyObject *object;
    /* The last search that assigned it, and its place among the variables of that search. */
    uint64_t search;
    size_t place;
    size_t length;
    uint8_t bytes[SNO_LONGEST_NAME];
} Name;

typedef struct Variable {
    Name *name;
    size_t start;
    size_t end;
    bool is_cursor;
} Variable;

/* What a search found: a match, and the last assignment of each variable, in the order of the first ones. */
typedef struct Found {
    sno_match match;
    size_t count;
    size_t room;
    Variable *variables;
    Variable few[FEW_VARIABLES];
} Found;

/* A pattern that was read once. */
typedef struct Finder {
    PyObject_HEAD
    Functions functions;
    PyTypeObject *kind;
    allocfunc allocate;
    PyObject *refusal;
    uint32_t trials;
    /* Only whoever holds it uses what follows, or the handle of a text in a search. It may wait for the interpreter's
     * lock, so no Python code runs meanwhile. */
    PyThread_type_lock turn;
    sno_handle handle;
    uint64_t searches;
    Name **names;
    size_t name_count;
    size_t name_room;
    size_t next_name;
} Finder;

void take_turn(Finder *self);
void give_turn(Finder *self);

void begin_found(Found *found);
void end_found(Found *found);

/* Adds a variable; false if there is no memory. */
bool add_variable(Found *found, Variable variable);

/* Adds what the last search assigned, whose match is in there, and returns the status. Called in the finder's turn. */
uint8_t add_assignments(Finder *self, Found *found);

/* With how many trials a search is tried before the interpreter's lock is released; 0 if it isn't tried. */
uint32_t tried_trials(const Finder *self, const Text *text);

/* Seeks the next match whose start is this cursor or lies past it, and returns the status. A search of more than a few
 * trials begins again without the interpreter's lock. Called in the finder's turn. */
uint8_t seek(Finder *self, Text *text, size_t from, Found *found);

/* Puts what the rule makes of the text in a buffer, which the caller frees, and returns the status. Called in the
 * finder's turn. */
uint8_t replace(Finder *self, Text *text, uint8_t **buffer, sno_replaced *replaced);

/* ---- batch.c: searches that are done at once ---- */

/* A match, and which of the variables of its batch are its own. */
typedef struct Kept {
    sno_match match;
    size_t first;
    size_t count;
} Kept;

/* The matches that were sought at once, in their order, and the variables of all of them. */
typedef struct Batch {
    size_t count;
    /* One that was sought before took more than a few trials, and so probably does the next. */
    bool is_slow;
    Kept kept[SEARCHES_AT_ONCE];
    Found all;
} Batch;

/* A batch without matches; null if there is no memory. Its memory isn't moved. */
Batch *new_batch(void);

/* Frees it, and ignores null. */
void free_batch(Batch *batch);

/* Seeks as many matches as are sought at once, from this cursor on, and keeps them in the batch. They all together take
 * no more trials than a search may take; with more than a few they are sought without the interpreter's lock. Called in
 * the finder's turn.
 *
 * - SNO_NOTHING_GATHERED: the batch has the matches.
 * - SNO_NOTHING: it has the matches, and there is no further one.
 * - Others: something was refused. The batch has the matches before it, if there are any. */
uint8_t seek_batch(Finder *self, Text *text, size_t from, Batch *batch);

/* Copies a match of the batch; false if there is no memory. */
bool copy_kept(const Batch *batch, size_t place, Found *found);

/* ---- finder.c: the type Finder ---- */

/* What a search is asked for. The references are those of the caller. */
typedef struct Search {
    PyObject *pattern;
    PyObject *string;
    Py_ssize_t pos;
    Text text;
} Search;

extern PyType_Spec finder_spec;

/* Takes the arguments `pattern`, `string` and `pos` of a search, and opens the text; false with an exception. A number
 * before the first place or past the last one is as in a slice. */
bool begin_search(Finder *self, PyObject *const *args, Py_ssize_t count, Search *search);

/* The match that was found; null with an exception. */
PyObject *match_of(Finder *self, Search *search, const Found *found);

/* Whether it says that there is no match. */
bool is_nothing(uint8_t status);

/* Raises what another status means, with the lines of a fault. Returns null. */
PyObject *refuse(Finder *self, uint8_t status, const char *lines, size_t length);

/* ---- matches.c: the type Matches, all matches of a string ---- */

extern PyType_Spec matches_spec;

/* The method `matches` of a finder. */
PyObject *finder_matches(Finder *self, PyObject *const *args, Py_ssize_t count);

/* ---- module.c ---- */

typedef struct State {
    PyTypeObject *match;
    PyTypeObject *matches;
    PyObject *refusal;
} State;

#endif
