/* The module itself. */
#include "fast.h"

/* A new type in the module; null with an exception. */
static PyTypeObject *add_type(PyObject *module, PyType_Spec *spec) {
    PyTypeObject *type = (PyTypeObject *)PyType_FromModuleAndSpec(module, spec, NULL);
    if (type && PyModule_AddType(module, type) < 0)
        Py_CLEAR(type);
    return type;
}

/* What makes the exception for a status, of its lines and of the limit of trials; null with an exception. */
static PyObject *refusal_of_package(void) {
    PyObject *module = PyImport_ImportModule("sno_rewrite._refusals");
    PyObject *refusal = module ? PyObject_GetAttrString(module, "refusal") : NULL;
    Py_XDECREF(module);
    return refusal;
}

static int fast_exec(PyObject *module) {
    State *state = PyModule_GetState(module);
    if (!(state->match = add_type(module, &match_spec)) || !(state->matches = add_type(module, &matches_spec)))
        return -1;
    PyTypeObject *finder = add_type(module, &finder_spec);
    Py_XDECREF((PyObject *)finder);
    if (!finder || !(state->refusal = refusal_of_package()))
        return -1;
    return 0;
}

static int fast_traverse(PyObject *module, visitproc visit, void *arg) {
    State *state = PyModule_GetState(module);
    Py_VISIT(state->match);
    Py_VISIT(state->matches);
    Py_VISIT(state->refusal);
    return 0;
}

static int fast_clear(PyObject *module) {
    State *state = PyModule_GetState(module);
    Py_CLEAR(state->match);
    Py_CLEAR(state->matches);
    Py_CLEAR(state->refusal);
    return 0;
}

static PyMethodDef fast_methods[] = {
    {"functions", functions_of_path, METH_O,
     "functions($module, path, /)\n--\n\nThe functions of the shared object with this path."},
    {NULL, NULL, 0, NULL},
};

static PyModuleDef_Slot fast_slots[] = {{Py_mod_exec, fast_exec}, {0, NULL}};

static PyModuleDef fast_module = {
    PyModuleDef_HEAD_INIT, "sno_rewrite._fast", "Patterns without ctypes.", sizeof(State), fast_methods, fast_slots,
    fast_traverse,         fast_clear,          NULL,
};

PyMODINIT_FUNC PyInit__fast(void) {
    return PyModuleDef_Init(&fast_module);
}
