/* All matches of a string, one after the other. */
#include "fast.h"

/* The first match is sought alone, since in a short text it is mostly the only one, and the further ones in batches.
 *
 * What comes after `search` is changed under the interpreter's lock. While somebody seeks without it, in the finder's
 * turn, no match of the batch is left, and so the others wait for the turn. */
typedef struct Matches {
    PyObject_HEAD
    Finder *finder;
    Search search;
    /* Where the next search begins, and where the last match ended. */
    size_t from;
    size_t before;
    /* How many searches are done alone before the next batch; and how many there will be if that is refused. */
    size_t alone;
    size_t pause;
    /* The matches of the batch from `place` on, up to `count`, are still to come. */
    Batch *batch;
    size_t place;
    size_t count;
} Matches;

static const size_t NOWHERE = (size_t)-1;

static int matches_traverse(Matches *self, visitproc visit, void *arg) {
    Py_VISIT(Py_TYPE((PyObject *)self));
    Py_VISIT(self->finder);
    Py_VISIT(self->search.pattern);
    Py_VISIT(self->search.string);
    return 0;
}

static void matches_dealloc(Matches *self) {
    PyObject_GC_UnTrack(self);
    self->finder->functions.close(&self->search.text.handle);
    free_batch(self->batch);
    Py_DECREF((PyObject *)self->finder);
    Py_DECREF(self->search.pattern);
    Py_DECREF(self->search.string);
    free_object((PyObject *)self);
}

/* Called under the finder's turn. */
static void close_text(Matches *self) {
    self->finder->functions.close(&self->search.text.handle);
}

/* Whether a match counts; the null string at the end of the match before doesn't. The next search goes on after it. */
static bool counts(Matches *self, const sno_match *match) {
    bool is_other = match->start != self->before || match->end != self->before;
    self->from = match->next;
    self->before = match->end;
    return is_other;
}

/* The next match of the batch that counts; SNO_NOTHING_GATHERED if none is left. It is copied, since the batch may be
 * another one before the match is made. Called with or without the finder's turn. */
static uint8_t next_of_batch(Matches *self, Found *found) {
    while (self->place < self->count) {
        size_t place = self->place++;
        if (counts(self, &self->batch->kept[place].match))
            return copy_kept(self->batch, place, found) ? SNO_DONE : SNO_NO_MEMORY;
    }
    return SNO_NOTHING_GATHERED;
}

/* Whether the next matches are to be sought at once. */
static bool is_for_batch(Matches *self) {
    if (self->alone || !self->finder->functions.gather)
        return false;
    if (!self->batch)
        self->batch = new_batch();
    return self->batch;
}

/* Seeks the next matches at once. The searches of a batch have one limit of trials together, and each may take all of it.
 * So if the batch is refused, searches are done alone, which find out whether one of them is. Each time that it happens
 * again there are twice as many of them, so that few trials are in vain. */
static void next_batch(Matches *self) {
    uint8_t status = seek_batch(self->finder, &self->search.text, self->from, self->batch);
    self->place = 0;
    self->count = self->batch->count;
    if (status == SNO_NOTHING) {
        close_text(self);
    } else if (status == SNO_NOTHING_GATHERED && self->count) {
        self->pause = SEARCHES_AT_ONCE;
    } else {
        self->alone = self->pause;
        self->pause *= 2;
    }
}

/* The next match, if it counts, and else SNO_NOTHING_GATHERED. */
static uint8_t next_alone(Matches *self, Found *found) {
    uint8_t status = seek(self->finder, &self->search.text, self->from, found);
    if (self->alone)
        self->alone--;
    return status != SNO_DONE || counts(self, &found->match) ? status : SNO_NOTHING_GATHERED;
}

/* The next match that counts. Without one the text is closed, so that whoever asks after the end, or after a refusal,
 * finds nothing more. Called in the finder's turn. */
static uint8_t next_in_turn(Matches *self, Found *found) {
    /* Another thread may have sought a batch while this one waited. */
    uint8_t status = next_of_batch(self, found);
    while (status == SNO_NOTHING_GATHERED) {
        if (!self->search.text.handle.is_open) {
            status = SNO_NOTHING;
        } else if (is_for_batch(self)) {
            next_batch(self);
            status = next_of_batch(self, found);
        } else {
            status = next_alone(self, found);
        }
    }
    if (status != SNO_DONE)
        close_text(self);
    return status;
}

static uint8_t next_that_counts(Matches *self, Found *found) {
    uint8_t status = next_of_batch(self, found);
    if (status == SNO_NOTHING_GATHERED) {
        take_turn(self->finder);
        status = next_in_turn(self, found);
        give_turn(self->finder);
    }
    return status;
}

/* Drops all further matches. */
static void end_matches(Matches *self) {
    take_turn(self->finder);
    close_text(self);
    self->place = self->count;
    give_turn(self->finder);
}

static PyObject *matches_next(Matches *self) {
    Found found;
    begin_found(&found);
    uint8_t status = next_that_counts(self, &found);
    PyObject *match = NULL;
    if (status == SNO_DONE) {
        match = match_of(self->finder, &self->search, &found);
    } else if (!is_nothing(status)) {
        refuse(self->finder, status, "", 0);
    }
    end_found(&found);
    if (!match && !is_nothing(status))
        end_matches(self);
    return match;
}

static PyType_Slot matches_slots[] = {
    {Py_tp_dealloc, matches_dealloc}, {Py_tp_traverse, matches_traverse}, {Py_tp_iter, PyObject_SelfIter},
    {Py_tp_iternext, matches_next},   {0, NULL},
};

PyType_Spec matches_spec = {
    "sno_rewrite._fast.Matches",
    sizeof(Matches),
    0,
    Py_TPFLAGS_DEFAULT | Py_TPFLAGS_HAVE_GC | Py_TPFLAGS_DISALLOW_INSTANTIATION,
    matches_slots,
};

PyObject *finder_matches(Finder *self, PyObject *const *args, Py_ssize_t count) {
    State *state = PyType_GetModuleState(Py_TYPE((PyObject *)self));
    Search search;
    if (!begin_search(self, args, count, &search))
        return NULL;
    allocfunc allocate = (allocfunc)PyType_GetSlot(state->matches, Py_tp_alloc);
    Matches *matches = (Matches *)allocate(state->matches, 0);
    if (!matches) {
        self->functions.close(&search.text.handle);
        return NULL;
    }
    Py_INCREF((PyObject *)self);
    matches->finder = self;
    Py_INCREF(search.pattern);
    Py_INCREF(search.string);
    /* From here on the handle of the text is the one in here. */
    matches->search = search;
    matches->from = cursor_of(&search.text, (size_t)search.pos);
    matches->before = NOWHERE;
    matches->alone = 1;
    matches->pause = SEARCHES_AT_ONCE;
    return (PyObject *)matches;
}
