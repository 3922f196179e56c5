/* Strings that are sought in: cursors of their bytes, and indexes of their characters. */
#include "fast.h"

bool take_string(Text *text, PyObject *string) {
    const char *bytes;
    Py_ssize_t length, characters;
    if (PyUnicode_Check(string)) {
        bytes = PyUnicode_AsUTF8AndSize(string, &length);
        characters = PyUnicode_GetLength(string);
    } else if (PyBytes_Check(string)) {
        bytes = PyBytes_AsString(string);
        characters = length = PyBytes_Size(string);
    } else {
        PyObject *name = PyType_GetName(Py_TYPE(string));
        if (name)
            PyErr_Format(PyExc_TypeError, "expected str or bytes, and not %U", name);
        Py_XDECREF(name);
        return false;
    }
    if (!bytes)
        return false;
    *text = (Text){(const uint8_t *)bytes, (size_t)length, (size_t)characters, 0, 0, {NULL, false}};
    return true;
}

static bool is_within_character(const Text *text, size_t cursor) {
    return cursor < text->length && (text->bytes[cursor] & 0xC0) == 0x80;
}

static size_t characters_between(const Text *text, size_t start, size_t end) {
    size_t count = 0;
    for (size_t cursor = start; cursor < end; cursor++)
        count += (text->bytes[cursor] & 0xC0) != 0x80;
    return count;
}

bool index_of(Text *text, size_t cursor, Py_ssize_t *index) {
    if (text->characters == text->length) {
        *index = (Py_ssize_t)cursor;
        return true;
    }
    if (is_within_character(text, cursor)) {
        PyErr_Format(PyExc_ValueError, "the cursor %zu is within a character", cursor);
        return false;
    }
    if (cursor >= text->cursor)
        text->index += characters_between(text, text->cursor, cursor);
    else
        text->index -= characters_between(text, cursor, text->cursor);
    text->cursor = cursor;
    *index = (Py_ssize_t)text->index;
    return true;
}

size_t cursor_of(const Text *text, size_t index) {
    if (index >= text->characters)
        return text->length;
    if (text->characters == text->length)
        return index;
    size_t cursor = 0;
    while (index > 0) {
        cursor++;
        if (!is_within_character(text, cursor))
            index--;
    }
    return cursor;
}

uint8_t open_text(const Functions *functions, Text *text) {
    if (text->length < LONG_TEXT)
        return functions->open_text(text->bytes, text->length, &text->handle);
    uint8_t status;
    Py_BEGIN_ALLOW_THREADS
    status = functions->open_text(text->bytes, text->length, &text->handle);
    Py_END_ALLOW_THREADS
    return status;
}
