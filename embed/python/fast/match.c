/* What a search found, as programs see it. */
#include "fast.h"

static Py_ssize_t group_count(FoundMatch *self) {
    return Py_SIZE((PyObject *)self);
}

static int match_traverse(FoundMatch *self, visitproc visit, void *arg) {
    Py_VISIT(Py_TYPE((PyObject *)self));
    Py_VISIT(self->pattern);
    Py_VISIT(self->string);
    return 0;
}

void free_object(PyObject *object) {
    PyTypeObject *type = Py_TYPE(object);
    freefunc release = (freefunc)PyType_GetSlot(type, Py_tp_free);
    release(object);
    Py_DECREF(type);
}

static void match_dealloc(FoundMatch *self) {
    PyObject_GC_UnTrack(self);
    for (Py_ssize_t number = 0; number < group_count(self); number++)
        Py_XDECREF(self->groups[number].name);
    Py_XDECREF(self->pattern);
    Py_XDECREF(self->string);
    free_object((PyObject *)self);
}

/* The part of the group with a name, or null, without an exception. */
static const Part *named_part(FoundMatch *self, PyObject *name) {
    for (Py_ssize_t number = 0; number < group_count(self); number++)
        if (self->groups[number].name == name)
            return &self->groups[number].part;
    for (Py_ssize_t number = 0; number < group_count(self); number++)
        if (PyUnicode_Compare(self->groups[number].name, name) == 0)
            return &self->groups[number].part;
    return NULL;
}

/* The part of a group, which is 0 or the name of a variable; null with an exception. */
static const Part *part_of(FoundMatch *self, PyObject *group) {
    const Part *part = NULL;
    if (PyUnicode_Check(group)) {
        part = named_part(self, group);
    } else if (PyLong_Check(group)) {
        int overflow;
        long number = PyLong_AsLongAndOverflow(group, &overflow);
        part = number || overflow ? NULL : &self->whole;
    }
    if (!part)
        PyErr_Format(PyExc_IndexError, "no such group: %R", group);
    return part;
}

static PyObject *value_of(FoundMatch *self, const Part *part) {
    if (part->is_cursor)
        return PyLong_FromSsize_t(part->start);
    if (PyUnicode_Check(self->string))
        return PyUnicode_Substring(self->string, part->start, part->end);
    const char *bytes = PyBytes_AsString(self->string);
    return bytes ? PyBytes_FromStringAndSize(bytes + part->start, part->end - part->start) : NULL;
}

static PyObject *match_item(FoundMatch *self, PyObject *group) {
    const Part *part = part_of(self, group);
    return part ? value_of(self, part) : NULL;
}

/* The part of the only argument, `group`, which may be missing and may have its name; null with an exception. */
static const Part *argument_part(FoundMatch *self, PyObject *const *args, Py_ssize_t count, PyObject *names) {
    Py_ssize_t named = names ? PyTuple_Size(names) : 0;
    if (count + named > 1) {
        PyErr_Format(PyExc_TypeError, "expected at most 1 argument, got %zd", count + named);
        return NULL;
    }
    if (named) {
        PyObject *name = PyTuple_GetItem(names, 0);
        if (PyUnicode_CompareWithASCIIString(name, "group")) {
            PyErr_Format(PyExc_TypeError, "unexpected keyword argument %R", name);
            return NULL;
        }
    }
    return count + named ? part_of(self, args[0]) : &self->whole;
}

static PyObject *match_start(FoundMatch *self, PyObject *const *args, Py_ssize_t count, PyObject *names) {
    const Part *part = argument_part(self, args, count, names);
    return part ? PyLong_FromSsize_t(part->start) : NULL;
}

static PyObject *match_end(FoundMatch *self, PyObject *const *args, Py_ssize_t count, PyObject *names) {
    const Part *part = argument_part(self, args, count, names);
    return part ? PyLong_FromSsize_t(part->end) : NULL;
}

static PyObject *match_span(FoundMatch *self, PyObject *const *args, Py_ssize_t count, PyObject *names) {
    const Part *part = argument_part(self, args, count, names);
    if (!part)
        return NULL;
    PyObject *start = PyLong_FromSsize_t(part->start);
    PyObject *end = PyLong_FromSsize_t(part->end);
    PyObject *span = start && end ? PyTuple_Pack(2, start, end) : NULL;
    Py_XDECREF(start);
    Py_XDECREF(end);
    return span;
}

/* Puts a new reference into a new tuple; false with an exception. Without a value there is one already. */
static bool put_item(PyObject *tuple, Py_ssize_t place, PyObject *value) {
    return value && PyTuple_SetItem(tuple, place, value) == 0;
}

static PyObject *match_group(FoundMatch *self, PyObject *const *args, Py_ssize_t count) {
    if (count == 0)
        return value_of(self, &self->whole);
    if (count == 1)
        return match_item(self, args[0]);
    PyObject *values = PyTuple_New(count);
    for (Py_ssize_t place = 0; values && place < count; place++)
        if (!put_item(values, place, match_item(self, args[place])))
            Py_CLEAR(values);
    return values;
}

static PyObject *match_groups(FoundMatch *self, PyObject *unused) {
    (void)unused;
    PyObject *values = PyTuple_New(group_count(self));
    for (Py_ssize_t place = 0; values && place < group_count(self); place++)
        if (!put_item(values, place, value_of(self, &self->groups[place].part)))
            Py_CLEAR(values);
    return values;
}

static PyObject *match_shown(FoundMatch *self, PyObject *unused) {
    if (group_count(self) > 1)
        return match_groups(self, unused);
    return value_of(self, group_count(self) ? &self->groups[0].part : &self->whole);
}

static PyObject *match_groupdict(FoundMatch *self, PyObject *unused) {
    (void)unused;
    PyObject *values = PyDict_New();
    for (Py_ssize_t place = 0; values && place < group_count(self); place++) {
        PyObject *value = value_of(self, &self->groups[place].part);
        if (!value || PyDict_SetItem(values, self->groups[place].name, value) < 0)
            Py_CLEAR(values);
        Py_XDECREF(value);
    }
    return values;
}

static PyMethodDef match_methods[] = {
    {"start", METHOD(match_start), METH_FASTCALL | METH_KEYWORDS, "start($self, /, group=0)\n--\n\n"},
    {"end", METHOD(match_end), METH_FASTCALL | METH_KEYWORDS, "end($self, /, group=0)\n--\n\n"},
    {"span", METHOD(match_span), METH_FASTCALL | METH_KEYWORDS, "span($self, /, group=0)\n--\n\n"},
    {"group", METHOD(match_group), METH_FASTCALL,
     "group($self, /, *groups)\n--\n\n"
     "The value of a group, or a tuple of the values of several; without arguments the whole match."},
    {"groups", METHOD(match_groups), METH_NOARGS,
     "groups($self, /)\n--\n\nThe values of the variables, in the order of their first assignment."},
    {"groupdict", METHOD(match_groupdict), METH_NOARGS,
     "groupdict($self, /)\n--\n\n"
     "The variables that the match assigned, with their values. One that it didn't assign is missing."},
    {"_shown", METHOD(match_shown), METH_NOARGS,
     "_shown($self, /)\n--\n\nWhat `findall` has of it: its variable or variables, or without one the whole match."},
    {"__class_getitem__", Py_GenericAlias, METH_O | METH_CLASS, NULL},
    {NULL, NULL, 0, NULL},
};

static PyMemberDef match_members[] = {
    {"re", T_OBJECT_EX, offsetof(FoundMatch, pattern), READONLY, NULL},
    {"string", T_OBJECT_EX, offsetof(FoundMatch, string), READONLY, NULL},
    {"pos", T_PYSSIZET, offsetof(FoundMatch, pos), READONLY, NULL},
    {NULL, 0, 0, 0, NULL},
};

static PyType_Slot match_slots[] = {
    {Py_tp_dealloc, match_dealloc},   {Py_tp_traverse, match_traverse}, {Py_tp_methods, match_methods},
    {Py_tp_members, match_members},   {Py_mp_subscript, match_item},    {0, NULL},
};

PyType_Spec match_spec = {
    "sno_rewrite._fast.FoundMatch",
    offsetof(FoundMatch, groups),
    sizeof(Group),
    Py_TPFLAGS_DEFAULT | Py_TPFLAGS_BASETYPE | Py_TPFLAGS_HAVE_GC | Py_TPFLAGS_DISALLOW_INSTANTIATION,
    match_slots,
};
