/* Patterns that were read once. */
#include "fast.h"

#include <stdlib.h>

PyObject *refuse(Finder *self, uint8_t status, const char *lines, size_t length) {
    PyObject *text = PyUnicode_DecodeUTF8(lines, (Py_ssize_t)length, "replace");
    PyObject *raised = text ? PyObject_CallFunction(self->refusal, "iOI", (int)status, text, self->trials) : NULL;
    Py_XDECREF(text);
    if (raised)
        PyErr_SetObject((PyObject *)Py_TYPE(raised), raised);
    Py_XDECREF(raised);
    return NULL;
}

static PyObject *object_of(Name *name) {
    if (!name->object) {
        name->object = PyUnicode_DecodeUTF8((const char *)name->bytes, (Py_ssize_t)name->length, NULL);
        if (name->object)
            PyUnicode_InternInPlace(&name->object);
    }
    return name->object;
}

static bool set_group(Group *group, Text *text, const Variable *variable) {
    PyObject *name = object_of(variable->name);
    if (!name)
        return false;
    Py_INCREF(name);
    group->name = name;
    group->part.is_cursor = variable->is_cursor;
    return index_of(text, variable->start, &group->part.start) && index_of(text, variable->end, &group->part.end);
}

bool begin_search(Finder *self, PyObject *const *args, Py_ssize_t count, Search *search) {
    if (count != 3) {
        PyErr_Format(PyExc_TypeError, "expected 3 arguments, got %zd", count);
        return false;
    }
    search->pattern = args[0];
    search->string = args[1];
    if (!take_string(&search->text, args[1]))
        return false;
    search->pos = PyNumber_AsSsize_t(args[2], NULL);
    if (search->pos == -1 && PyErr_Occurred())
        return false;
    if (search->pos < 0)
        search->pos = 0;
    uint8_t status = open_text(&self->functions, &search->text);
    if (status != SNO_DONE)
        refuse(self, status, "", 0);
    return status == SNO_DONE;
}

PyObject *match_of(Finder *self, Search *search, const Found *found) {
    FoundMatch *match = (FoundMatch *)self->allocate(self->kind, (Py_ssize_t)found->count);
    if (!match)
        return NULL;
    Py_INCREF(search->pattern);
    match->pattern = search->pattern;
    Py_INCREF(search->string);
    match->string = search->string;
    match->pos = search->pos;
    match->whole.is_cursor = false;
    bool is_whole = index_of(&search->text, found->match.start, &match->whole.start) &&
                    index_of(&search->text, found->match.end, &match->whole.end);
    for (size_t place = 0; is_whole && place < found->count; place++)
        is_whole = set_group(&match->groups[place], &search->text, &found->variables[place]);
    if (!is_whole)
        Py_CLEAR(match);
    return (PyObject *)match;
}

bool is_nothing(uint8_t status) {
    return status == SNO_NOTHING || status == SNO_PAST_END;
}

static PyObject *finder_first(Finder *self, PyObject *const *args, Py_ssize_t count) {
    Search search;
    if (!begin_search(self, args, count, &search))
        return NULL;
    Found found;
    begin_found(&found);
    take_turn(self);
    uint8_t status = seek(self, &search.text, cursor_of(&search.text, (size_t)search.pos), &found);
    give_turn(self);
    self->functions.close(&search.text.handle);
    PyObject *result = NULL;
    if (status == SNO_DONE) {
        result = match_of(self, &search, &found);
    } else if (is_nothing(status)) {
        Py_INCREF(Py_None);
        result = Py_None;
    } else {
        refuse(self, status, "", 0);
    }
    end_found(&found);
    return result;
}

/* The new text, or the string itself if there is none, with the number of matches; null with an exception. */
static PyObject *replaced_pair(Finder *self, PyObject *string, uint8_t status, const uint8_t *buffer,
                               const sno_replaced *replaced) {
    PyObject *after = NULL;
    const char *bytes = (const char *)buffer;
    if (status == SNO_NOTHING) {
        Py_INCREF(string);
        after = string;
    } else if (status != SNO_DONE) {
        refuse(self, status, "", 0);
    } else if (PyUnicode_Check(string)) {
        after = PyUnicode_DecodeUTF8(bytes, (Py_ssize_t)replaced->length, NULL);
    } else {
        after = PyBytes_FromStringAndSize(bytes, (Py_ssize_t)replaced->length);
    }
    return after ? Py_BuildValue("NK", after, (unsigned long long)replaced->matches) : NULL;
}

static PyObject *finder_replaced(Finder *self, PyObject *string) {
    Text text;
    if (!take_string(&text, string))
        return NULL;
    uint8_t status = open_text(&self->functions, &text);
    if (status != SNO_DONE)
        return refuse(self, status, "", 0);
    uint8_t *buffer = NULL;
    sno_replaced replaced;
    take_turn(self);
    status = replace(self, &text, &buffer, &replaced);
    give_turn(self);
    self->functions.close(&text.handle);
    PyObject *pair = replaced_pair(self, string, status, buffer, &replaced);
    free(buffer);
    return pair;
}

static int finder_traverse(Finder *self, visitproc visit, void *arg) {
    Py_VISIT(Py_TYPE((PyObject *)self));
    Py_VISIT(self->kind);
    Py_VISIT(self->refusal);
    return 0;
}

static void finder_dealloc(Finder *self) {
    PyObject_GC_UnTrack(self);
    if (self->functions.close)
        self->functions.close(&self->handle);
    for (size_t place = 0; place < self->name_count; place++) {
        Py_XDECREF(self->names[place]->object);
        free(self->names[place]);
    }
    free(self->names);
    if (self->turn)
        PyThread_free_lock(self->turn);
    Py_XDECREF((PyObject *)self->kind);
    Py_XDECREF(self->refusal);
    free_object((PyObject *)self);
}

/* Opens the pattern; false with an exception. */
static bool open_pattern(Finder *self, PyObject *rule, PyObject *definitions) {
    Py_ssize_t rule_length, definitions_length;
    const char *rule_bytes = PyUnicode_AsUTF8AndSize(rule, &rule_length);
    const char *definition_bytes = PyUnicode_AsUTF8AndSize(definitions, &definitions_length);
    if (!rule_bytes || !definition_bytes)
        return false;
    uint8_t line[LINE_ROOM], status;
    size_t length = 0;
    Py_BEGIN_ALLOW_THREADS
    status = self->functions.open_pattern((const uint8_t *)definition_bytes, (size_t)definitions_length,
                                          (const uint8_t *)rule_bytes, (size_t)rule_length, line, sizeof line,
                                          &length, &self->handle);
    Py_END_ALLOW_THREADS
    if (status != SNO_DONE)
        refuse(self, status, (const char *)line, length);
    return status == SNO_DONE;
}

/* Finder(functions, rule, definitions, trials, kind): `kind` is the class of the matches. */
static PyObject *finder_new(PyTypeObject *type, PyObject *args, PyObject *keywords) {
    State *state = PyType_GetModuleState(type);
    PyObject *capsule, *rule, *definitions, *kind;
    unsigned int trials;
    if (keywords && PyDict_Size(keywords))
        return PyErr_Format(PyExc_TypeError, "Finder takes no keyword arguments");
    if (!PyArg_ParseTuple(args, "OUUIO!:Finder", &capsule, &rule, &definitions, &trials, &PyType_Type, &kind))
        return NULL;
    const Functions *functions = functions_in(capsule);
    if (!functions)
        return NULL;
    if (!PyType_IsSubtype((PyTypeObject *)kind, state->match))
        return PyErr_Format(PyExc_TypeError, "expected a kind of FoundMatch, and not %R", kind);
    allocfunc allocate = (allocfunc)PyType_GetSlot(type, Py_tp_alloc);
    Finder *self = (Finder *)allocate(type, 0);
    if (!self)
        return NULL;
    self->functions = *functions;
    self->trials = trials;
    Py_INCREF(kind);
    self->kind = (PyTypeObject *)kind;
    self->allocate = (allocfunc)PyType_GetSlot(self->kind, Py_tp_alloc);
    Py_INCREF(state->refusal);
    self->refusal = state->refusal;
    self->turn = PyThread_allocate_lock();
    if (!self->turn)
        PyErr_NoMemory();
    if (!self->turn || !open_pattern(self, rule, definitions))
        Py_CLEAR(self);
    return (PyObject *)self;
}

static PyMethodDef finder_methods[] = {
    {"first", METHOD(finder_first), METH_FASTCALL,
     "first($self, pattern, string, pos, /)\n--\n\nThe first match at or after a place, or None."},
    {"matches", METHOD(finder_matches), METH_FASTCALL,
     "matches($self, pattern, string, pos, /)\n--\n\nAll matches that count, from a place on."},
    {"replaced", METHOD(finder_replaced), METH_O,
     "replaced($self, string, /)\n--\n\nWhat the rule makes of the string, and the number of matches."},
    {NULL, NULL, 0, NULL},
};

static PyType_Slot finder_slots[] = {
    {Py_tp_new, finder_new},         {Py_tp_dealloc, finder_dealloc}, {Py_tp_traverse, finder_traverse},
    {Py_tp_methods, finder_methods}, {0, NULL},
};

PyType_Spec finder_spec = {
    "sno_rewrite._fast.Finder", sizeof(Finder), 0, Py_TPFLAGS_DEFAULT | Py_TPFLAGS_HAVE_GC, finder_slots,
};
