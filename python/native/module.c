/* The module bestore._native: the most frequent calls on handles of the library that bestore._library has loaded. */
#include "native.h"

#include <string.h>

Library library;
Known known;

/* The name of one of the library's calls, and where its address is stored. */
typedef struct Named {
    const char *name;
    size_t offset;
} Named;

#define CALL(field) { "bes_" #field, offsetof(Library, field) }

static const Named calls[] = {
    CALL(pin), CALL(unpin), CALL(close), CALL(release), CALL(build_close), CALL(dismiss), CALL(next), CALL(apply), CALL(apply_if),
    CALL(query), CALL(query_items), CALL(query_prepared), CALL(ordered), CALL(first), CALL(any), CALL(found), CALL(refresh),
    CALL(refresh_changed), CALL(changes), CALL(nodes), CALL(get), CALL(check_name), CALL(columns), CALL(attributes), CALL(indices),
    CALL(is_held), CALL(build_index), CALL(build_node), CALL(build_attribute), CALL(journal_from),
    CALL(begin_change), CALL(change_any_kind), CALL(change_add), CALL(change_get), CALL(change_batch), CALL(end_change),
    CALL(abandon_change),
};

/* Stores the loaded library's calls, which are passed as a dict from names to addresses. */
static PyObject *use(PyObject *module, PyObject *addresses)
{
    (void)module;
    for (size_t at = 0; at < sizeof calls / sizeof *calls; at++) {
        PyObject *address = PyMapping_GetItemString(addresses, calls[at].name);
        void *call = address == NULL ? NULL : PyLong_AsVoidPtr(address);
        Py_XDECREF(address);
        if (PyErr_Occurred())
            return NULL;
        memcpy((char *)&library + calls[at].offset, &call, sizeof call);
    }
    Py_RETURN_NONE;
}

/* Stores one of the package's objects, and releases the previous one. */
static void keep(PyObject **place, PyObject *object)
{
    PyObject *before = *place;
    *place = Py_XNewRef(object);
    Py_XDECREF(before);
}

/* Stores the package's objects that the module needs. The package's modules pass them as they are imported. */
static PyObject *know(PyObject *module, PyObject *arguments, PyObject *names)
{
    static char *parameters[] = { "refusal", "forked", "encoded_query", "encode_value", "typed", "batch", "page",
                                  "user", "wrong_kind", "bad_bytes", "kinds", NULL };
    PyObject **places[] = {
        &known.refusal, &known.forked, &known.encoded_query, &known.encode_value, &known.typed, &known.batch, &known.page,
        &known.user, &known.wrong_kind, &known.bad_bytes,
    };
    enum { PLACES = sizeof places / sizeof *places };
    PyObject *given[PLACES + 1] = { NULL };
    (void)module;
    if (!PyArg_ParseTupleAndKeywords(arguments, names, "|$OOOOOOOOOOO:know", parameters, &given[0], &given[1], &given[2], &given[3],
                                     &given[4], &given[5], &given[6], &given[7], &given[8], &given[9], &given[PLACES]))
        return NULL;
    for (size_t at = 0; at < PLACES; at++)
        if (given[at] != NULL)
            keep(places[at], given[at]);
    for (Py_ssize_t at = 0; given[PLACES] != NULL && at < KINDS; at++) {
        PyObject *kind = PySequence_GetItem(given[PLACES], at);
        if (kind == NULL)
            return NULL;
        keep(&known.kinds[at], kind);
        Py_DECREF(kind);
    }
    Py_RETURN_NONE;
}

static PyMethodDef functions[] = {
    { "use", use, METH_O, "Takes the calls of the library that was loaded: a dict of their names and addresses." },
    { "know", (PyCFunction)(void (*)(void))know, METH_VARARGS | METH_KEYWORDS,
      "Takes what the module knows about the package. The kinds are in the order of values.py." },
    { "after_fork", after_fork, METH_NOARGS, "In a forked child: all handles are dead from now on." },
    { NULL, NULL, 0, NULL },
};

/* Creates a type and adds it to the module. */
static PyTypeObject *add_type(PyObject *module, PyType_Spec *spec)
{
    PyObject *type = PyType_FromSpec(spec);
    const char *name = strrchr(spec->name, '.') + 1;
    if (type != NULL && PyModule_AddObjectRef(module, name, type) < 0)
        Py_CLEAR(type);
    return (PyTypeObject *)type;
}

static int fill(PyObject *module)
{
    static bool is_filled;
    PyTypeObject *reader;
    if (is_filled) {
        PyErr_SetString(PyExc_ImportError, "only one interpreter in a process can import bestore");
        return -1;
    }
    handle_type = add_type(module, &handle_spec);
    batch_type = add_type(module, &batch_spec);
    reader = add_type(module, &reader_spec);
    if (handle_type == NULL || batch_type == NULL || reader == NULL)
        return -1;
    Py_DECREF(reader);
    is_filled = true;
    return 0;
}

static PyModuleDef_Slot slots[] = { { Py_mod_exec, (void *)fill }, { 0, NULL } };

static struct PyModuleDef definition = {
    PyModuleDef_HEAD_INIT,
    .m_name = "bestore._native",
    .m_doc = "The most frequent calls, on the library's handles.",
    .m_methods = functions,
    .m_slots = slots,
};

PyMODINIT_FUNC PyInit__native(void) { return PyModuleDef_Init(&definition); }
