/* The functions of a library that is loaded. */
#include "fast.h"

#include <dlfcn.h>
#include <stdlib.h>
#include <string.h>

static const char FUNCTIONS[] = "sno_rewrite._fast.functions";

/* Puts the function with a name at a place; false if the library has none. */
static bool find_function(void *library, const char *name, void *place) {
    void *found = dlsym(library, name);
    if (found)
        memcpy(place, &found, sizeof found);
    return found;
}

static bool find_functions(void *library, Functions *functions) {
    const struct {
        const char *name;
        void *place;
    } wanted[] = {
        {"sno_handle_open_pattern", &functions->open_pattern},
        {"sno_handle_open_text", &functions->open_text},
        {"sno_handle_next", &functions->next},
        {"sno_handle_assignment", &functions->assignment},
        {"sno_handle_replace", &functions->replace},
        {"sno_handle_close", &functions->close},
    };
    for (size_t number = 0; number < sizeof wanted / sizeof *wanted; number++)
        if (!find_function(library, wanted[number].name, wanted[number].place))
            return false;
    if (!find_function(library, "sno_handle_gather", &functions->gather) ||
        !find_function(library, "sno_handle_take", &functions->take)) {
        functions->gather = NULL;
        functions->take = NULL;
    }
    return true;
}

static void free_functions(PyObject *capsule) {
    free(PyCapsule_GetPointer(capsule, FUNCTIONS));
}

static PyObject *capsule_of(PyObject *path) {
    /* It stays loaded, as one that ctypes loads does. */
    void *library = dlopen(PyBytes_AsString(path), RTLD_NOW | RTLD_LOCAL);
    if (!library)
        return PyErr_Format(PyExc_OSError, "%s", dlerror());
    Functions *functions = malloc(sizeof *functions);
    if (!functions)
        return PyErr_NoMemory();
    PyObject *capsule = NULL;
    if (find_functions(library, functions))
        capsule = PyCapsule_New(functions, FUNCTIONS, free_functions);
    else
        PyErr_Format(PyExc_AttributeError, "%s", dlerror());
    if (!capsule)
        free(functions);
    return capsule;
}

PyObject *functions_of_path(PyObject *module, PyObject *path) {
    (void)module;
    PyObject *bytes = NULL;
    if (!PyUnicode_FSConverter(path, &bytes))
        return NULL;
    PyObject *capsule = capsule_of(bytes);
    Py_DECREF(bytes);
    return capsule;
}

const Functions *functions_in(PyObject *capsule) {
    return PyCapsule_GetPointer(capsule, FUNCTIONS);
}
