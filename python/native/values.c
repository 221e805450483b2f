/* Converts values, numbers, strings and errors between Python and the library. */
#include "native.h"

/* Raises the error that these arguments describe. Takes ownership of them. */
static PyObject *raise_refusal(PyObject *arguments)
{
    PyObject *error = arguments == NULL ? NULL : PyObject_CallObject(known.refusal, arguments);
    Py_XDECREF(arguments);
    if (error != NULL) {
        PyErr_SetObject((PyObject *)Py_TYPE(error), error);
        Py_DECREF(error);
    }
    return NULL;
}

PyObject *refused(uint32_t answer) { return raise_refusal(Py_BuildValue("(I)", answer)); }

PyObject *refused_at(uint32_t answer, uint64_t carried, const char *listed)
{
    return raise_refusal(Py_BuildValue("(IKOz)", answer, (unsigned long long)carried, Py_None, listed));
}

/* Raises the error for an attribute whose kind differs from its index's kind. */
PyObject *refused_kind(PyObject *name, uint32_t kind, uint32_t index_kind)
{
    PyObject *error = PyObject_CallFunction(known.wrong_kind, "OII", name, kind, index_kind);
    if (error != NULL) {
        PyErr_SetObject((PyObject *)Py_TYPE(error), error);
        Py_DECREF(error);
    }
    return NULL;
}

/* Reads a 64-bit integer. If this fails without an exception, the integer is out of range. */
bool read_in_range(PyObject *object, uint64_t *number)
{
    PyObject *index = PyLong_Check(object) ? Py_NewRef(object) : PyNumber_Index(object);
    if (index == NULL)
        return false;
    *number = PyLong_AsUnsignedLongLong(index);
    Py_DECREF(index);
    if (*number != UINT64_MAX || !PyErr_Occurred())
        return true;
    if (PyErr_ExceptionMatches(PyExc_OverflowError))
        PyErr_Clear();
    return false;
}

bool read_number(PyObject *object, uint64_t *number)
{
    if (read_in_range(object, number))
        return true;
    if (!PyErr_Occurred())
        PyErr_SetString(PyExc_OverflowError, "the number doesn't fit in 64 bits");
    return false;
}

/* Reads a 64-bit node number. If this fails without an exception, the number is out of range. */
bool read_node_in_range(PyObject *object, uint64_t *node)
{
    if (read_in_range(object, node))
        return true;
    if (PyErr_Occurred() && PyErr_ExceptionMatches(PyExc_TypeError)) {
        PyErr_Clear();
        PyErr_Format(PyExc_TypeError, "%R isn't a node: a node is an int", object);
    }
    return false;
}

bool read_node(PyObject *object, uint64_t *node)
{
    if (read_node_in_range(object, node))
        return true;
    if (!PyErr_Occurred())
        raise_refusal(Py_BuildValue("(IO)", BES_NO_NODE, object));
    return false;
}

bool read_code(PyObject *object, uint32_t *code)
{
    uint64_t number = UINT64_MAX;
    if (!read_in_range(object, &number) && PyErr_Occurred())
        return false;
    *code = (uint32_t)number;
    return number <= UINT32_MAX || refused(BES_NO_KIND) != NULL;
}

bool read_text(PyObject *object, const uint8_t **bytes, size_t *length)
{
    Py_ssize_t size;
    const char *text = PyUnicode_AsUTF8AndSize(object, &size);
    if (text == NULL) {
        if (PyErr_ExceptionMatches(PyExc_UnicodeEncodeError)) {
            PyErr_Clear();
            refused(BES_NOT_UTF8);
        } else if (!PyUnicode_Check(object)) {
            PyErr_Clear();
            PyErr_Format(PyExc_TypeError, "%R isn't a str", object);
        }
        return false;
    }
    *bytes = (const uint8_t *)text;
    *length = (size_t)size;
    return true;
}

static int kind_index(uint32_t code)
{
    switch (code) {
    /* surface.toml: kinds */
    case BES_STRING_TYPE: return 0;
    case BES_INT32_TYPE: return 1;
    case BES_INT64_TYPE: return 2;
    case BES_MIME_STRING_TYPE: return 3;
    case BES_RAW_TYPE: return 4;
    case BES_UINT32_TYPE: return 5;
    case BES_UINT64_TYPE: return 6;
    /* surface.toml: end */
    default: return -1;
    }
}

bool is_kind(uint32_t code) { return kind_index(code) >= 0; }

PyObject *kind_object(uint32_t code)
{
    int index = kind_index(code);
    return index < 0 ? refused(BES_NO_KIND) : Py_NewRef(known.kinds[index]);
}

static PyObject *text_object(const uint8_t *bytes, size_t length)
{
    PyObject *text = PyUnicode_DecodeUTF8((const char *)bytes, (Py_ssize_t)length, NULL);
    if (text == NULL && PyErr_ExceptionMatches(PyExc_UnicodeDecodeError)) {
        PyErr_Clear();
        return refused(BES_NOT_UTF8);
    }
    return text;
}

/* Returns whether a kind is one of numbers with a sign. */
static bool has_sign(uint32_t code)
{
    switch (code) {
    /* surface.toml: kinds with a sign */
    case BES_INT32_TYPE:
    case BES_INT64_TYPE:
    /* surface.toml: end */
        return true;
    default: return false;
    }
}

bool is_number(uint32_t code)
{
    switch (code) {
    /* surface.toml: kinds without a sign */
    case BES_UINT32_TYPE:
    case BES_UINT64_TYPE:
    /* surface.toml: end */
        return true;
    default: return has_sign(code);
    }
}

PyObject *value_object(uint32_t code, uint64_t number, const uint8_t *bytes, size_t length)
{
    if (code == BES_STRING_TYPE || code == BES_MIME_STRING_TYPE)
        return text_object(bytes, length);
    if (!is_number(code))
        return PyBytes_FromStringAndSize((const char *)bytes, (Py_ssize_t)length);
    return has_sign(code) ? PyLong_FromLongLong((long long)number) : PyLong_FromUnsignedLongLong(number);
}

/* Makes a Typed pair with tuple's constructor, which Typed's own constructor calls too. */
PyObject *typed_object(uint32_t code, uint64_t number, const uint8_t *bytes, size_t length)
{
    newfunc new_tuple = (newfunc)PyType_GetSlot(&PyTuple_Type, Py_tp_new);
    PyObject *kind = kind_object(code), *value, *arguments, *typed;
    if (kind == NULL)
        return NULL;
    value = value_object(code, number, bytes, length);
    arguments = value == NULL ? NULL : Py_BuildValue("((OO))", value, kind);
    Py_DECREF(kind);
    Py_XDECREF(value);
    if (arguments == NULL)
        return NULL;
    typed = new_tuple((PyTypeObject *)known.typed, arguments, NULL);
    Py_DECREF(arguments);
    return typed;
}

PyObject *list_of(const uint64_t *numbers, size_t count)
{
    PyObject *list = PyList_New((Py_ssize_t)count);
    for (size_t at = 0; list != NULL && at < count; at++) {
        PyObject *number = PyLong_FromUnsignedLongLong(numbers[at]);
        if (number == NULL)
            Py_CLEAR(list);
        else
            PyList_SetItem(list, (Py_ssize_t)at, number);
    }
    return list;
}

/* Returns the position of the parameter with this name, or -1. */
static int parameter_of(const Signature *signature, PyObject *name)
{
    for (int at = 0; at < signature->count; at++)
        if (PyUnicode_CompareWithASCIIString(name, signature->names[at]) == 0)
            return at;
    return -1;
}

static bool read_named(const Signature *signature, PyObject *const *given, PyObject *names, PyObject **read)
{
    Py_ssize_t count = PyTuple_Size(names);
    for (Py_ssize_t at = 0; at < count; at++) {
        PyObject *name = PyTuple_GetItem(names, at);
        int place = parameter_of(signature, name);
        if (place < 0 || read[place] != NULL) {
            PyErr_Format(PyExc_TypeError, "%s() got %s '%U'", signature->function,
                         place < 0 ? "an unexpected keyword argument" : "multiple values for argument", name);
            return false;
        }
        read[place] = given[at];
    }
    return true;
}

/* Reads a function's arguments. A missing optional argument is NULL. */
bool read_arguments(const Signature *signature, PyObject *const *given, Py_ssize_t count, PyObject *names, PyObject **read)
{
    if (count > signature->count) {
        PyErr_Format(PyExc_TypeError, "%s() takes up to %d arguments, and %zd were given", signature->function, signature->count,
                     count);
        return false;
    }
    for (int at = 0; at < signature->count; at++)
        read[at] = at < count ? given[at] : NULL;
    if (names != NULL && !read_named(signature, given + count, names, read))
        return false;
    for (int at = 0; at < signature->least; at++)
        if (read[at] == NULL) {
            PyErr_Format(PyExc_TypeError, "%s() missing the argument '%s'", signature->function, signature->names[at]);
            return false;
        }
    return true;
}

bool has_arguments(Py_ssize_t given, Py_ssize_t wanted)
{
    if (given == wanted)
        return true;
    PyErr_Format(PyExc_TypeError, "the call takes %zd arguments, and %zd were given", wanted, given);
    return false;
}
