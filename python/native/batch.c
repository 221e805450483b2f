/* Batches: operations in the library's form, and the bytes of their names and values. */
#include "native.h"

#include <string.h>

PyTypeObject *batch_type;

/* Makes room for this many elements in total, by doubling the capacity until they fit. */
static void *grown(void *kept, size_t *room, size_t needed, size_t size)
{
    size_t more = *room == 0 ? 4 : *room;
    void *grown;
    while (more < needed)
        more *= 2;
    grown = PyMem_Realloc(kept, more * size);
    if (grown != NULL)
        *room = more;
    else
        PyErr_NoMemory();
    return grown;
}

static bool make_room(Batch *batch, size_t length)
{
    void *moved;
    if (length > UINT32_MAX - batch->length) {
        PyErr_SetString(PyExc_OverflowError, "the names and values of a batch can have at most 2^32 bytes");
        return false;
    }
    if (batch->count == batch->room) {
        moved = grown(batch->operations, &batch->room, batch->count + 1, sizeof(bes_operation));
        if (moved == NULL)
            return false;
        batch->operations = moved;
    }
    if (batch->length + length > batch->bytes_room) {
        moved = grown(batch->bytes, &batch->bytes_room, batch->length + length, 1);
        if (moved == NULL)
            return false;
        batch->bytes = moved;
    }
    return true;
}

/* Adds an operation, with its name and the bytes of its value. */
bool add_operation(Batch *batch, bes_operation operation, const uint8_t *name, size_t name_length, const uint8_t *value,
                   size_t value_length)
{
    if (name_length > UINT32_MAX || value_length > UINT32_MAX || !make_room(batch, name_length + value_length)) {
        if (!PyErr_Occurred())
            PyErr_SetString(PyExc_OverflowError, "a name and a value have less than 2^32 bytes");
        return false;
    }
    operation.name_at = (uint32_t)batch->length;
    operation.name_length = (uint32_t)name_length;
    operation.value_at = (uint32_t)(batch->length + name_length);
    operation.value_length = (uint32_t)value_length;
    if (name_length != 0)
        memcpy(batch->bytes + operation.name_at, name, name_length);
    if (value_length != 0)
        memcpy(batch->bytes + operation.value_at, value, value_length);
    batch->operations[batch->count++] = operation;
    batch->length += name_length + value_length;
    return true;
}

/* Adds an operation to a batch and returns the batch, as every call that adds an operation does. */
static PyObject *added(PyObject *self, bes_operation operation, PyObject *name, const uint8_t *value, size_t value_length)
{
    const uint8_t *bytes = NULL;
    size_t length = 0;
    if (name != NULL && !read_text(name, &bytes, &length))
        return NULL;
    return add_operation((Batch *)self, operation, bytes, length, value, value_length) ? Py_NewRef(self) : NULL;
}

static bool keep_bytes(Encoded *encoded, PyObject *bytes)
{
    char *at;
    Py_ssize_t length;
    if (PyBytes_AsStringAndSize(bytes, &at, &length) < 0)
        return false;
    encoded->bytes = (const uint8_t *)at;
    encoded->length = (size_t)length;
    encoded->keeper = Py_NewRef(bytes);
    return true;
}

/* Encodes a value with the package's Python function. */
static bool encode_slowly(PyObject *value, PyObject *kind, Encoded *encoded)
{
    PyObject *parts = PyObject_CallFunctionObjArgs(known.encode_value, value, kind == NULL ? Py_None : kind, NULL);
    uint64_t code;
    bool is_done = false;
    if (parts == NULL)
        return false;
    if (PyTuple_Check(parts) && PyTuple_Size(parts) == 3 && read_number(PyTuple_GetItem(parts, 0), &code) &&
        read_number(PyTuple_GetItem(parts, 1), &encoded->number)) {
        encoded->code = (uint32_t)code;
        is_done = keep_bytes(encoded, PyTuple_GetItem(parts, 2));
    }
    Py_DECREF(parts);
    return is_done;
}

/* Encodes a value. Common types are encoded here, with the same kinds that encode_value gives them. */
bool encode(PyObject *value, PyObject *kind, Encoded *encoded)
{
    PyTypeObject *type = Py_TYPE(value);
    *encoded = (Encoded){ .bytes = (const uint8_t *)"" };
    if (kind != NULL && kind != Py_None)
        return encode_slowly(value, kind, encoded);
    if (type == &PyUnicode_Type) {
        encoded->code = BES_STRING_TYPE;
        return read_text(value, &encoded->bytes, &encoded->length);
    }
    if (type == &PyBytes_Type) {
        encoded->code = BES_RAW_TYPE;
        return keep_bytes(encoded, value);
    }
    if (type == &PyLong_Type) {
        long long number = PyLong_AsLongLong(value);
        if (number != -1 || !PyErr_Occurred()) {
            encoded->code = BES_INT64_TYPE;
            encoded->number = (uint64_t)number;
            return true;
        }
        PyErr_Clear();
    }
    return encode_slowly(value, kind, encoded);
}

static const Signature of_node = { "remove_node", { "node" }, 1, 1 };
static const Signature of_set = { "set", { "node", "name", "value", "kind" }, 4, 3 };
static const Signature of_unset = { "unset", { "node", "name" }, 2, 2 };
static const Signature of_index = { "make_index", { "name", "kind" }, 2, 2 };
static const Signature of_name = { "remove_index", { "name" }, 1, 1 };

static PyObject *batch_new_node(PyObject *self, PyObject *nothing)
{
    (void)nothing;
    return added(self, (bes_operation){ .kind = BES_NEW_NODE }, NULL, NULL, 0);
}

static PyObject *batch_remove_node(PyObject *self, PyObject *const *given, Py_ssize_t count, PyObject *names)
{
    PyObject *read[1];
    bes_operation operation = { .kind = BES_REMOVE_NODE };
    if (!read_arguments(&of_node, given, count, names, read) || !read_node(read[0], &operation.node))
        return NULL;
    return added(self, operation, NULL, NULL, 0);
}

static PyObject *batch_set(PyObject *self, PyObject *const *given, Py_ssize_t count, PyObject *names)
{
    PyObject *read[4], *result = NULL;
    bes_operation operation = { .kind = BES_SET };
    Encoded encoded;
    if (!read_arguments(&of_set, given, count, names, read) || !encode(read[2], read[3], &encoded))
        return NULL;
    operation.code = encoded.code;
    operation.number = encoded.number;
    if (read_node(read[0], &operation.node))
        result = added(self, operation, read[1], encoded.bytes, encoded.length);
    Py_XDECREF(encoded.keeper);
    return result;
}

static PyObject *batch_unset(PyObject *self, PyObject *const *given, Py_ssize_t count, PyObject *names)
{
    PyObject *read[2];
    bes_operation operation = { .kind = BES_UNSET };
    if (!read_arguments(&of_unset, given, count, names, read) || !read_node(read[0], &operation.node))
        return NULL;
    return added(self, operation, read[1], NULL, 0);
}

static PyObject *batch_make_index(PyObject *self, PyObject *const *given, Py_ssize_t count, PyObject *names)
{
    PyObject *read[2];
    bes_operation operation = { .kind = BES_MAKE_INDEX };
    if (!read_arguments(&of_index, given, count, names, read) || !read_code(read[1], &operation.code))
        return NULL;
    return added(self, operation, read[0], NULL, 0);
}

static PyObject *batch_remove_index(PyObject *self, PyObject *const *given, Py_ssize_t count, PyObject *names)
{
    PyObject *read[1];
    if (!read_arguments(&of_name, given, count, names, read))
        return NULL;
    return added(self, (bes_operation){ .kind = BES_REMOVE_INDEX }, read[0], NULL, 0);
}

/* Adds an operation from its parts: kind, node, name, code, number and value. The name and the value are bytes. */
static PyObject *batch_add_encoded(PyObject *self, PyObject *arguments)
{
    unsigned int kind, code;
    unsigned long long number;
    PyObject *node;
    const char *name, *value;
    Py_ssize_t name_length, value_length;
    bes_operation operation;
    if (!PyArg_ParseTuple(arguments, "IOy#IKy#", &kind, &node, &name, &name_length, &code, &number, &value, &value_length))
        return NULL;
    operation = (bes_operation){ .kind = kind, .code = code, .number = number };
    if (!read_node(node, &operation.node) ||
        !add_operation((Batch *)self, operation, (const uint8_t *)name, (size_t)name_length, (const uint8_t *)value,
                       (size_t)value_length))
        return NULL;
    return Py_NewRef(self);
}

static PyObject *part_of(const Batch *batch, uint32_t at, uint32_t length)
{
    if (at > batch->length || length > batch->length - at)
        at = length = 0;
    return PyBytes_FromStringAndSize(length == 0 ? "" : (const char *)batch->bytes + at, length);
}

/* Returns the operations, each with its kind, code, node, number, name and value. */
static PyObject *batch_parts(PyObject *self, PyObject *nothing)
{
    Batch *batch = (Batch *)self;
    PyObject *list = PyList_New((Py_ssize_t)batch->count);
    (void)nothing;
    for (size_t at = 0; list != NULL && at < batch->count; at++) {
        const bes_operation *it = &batch->operations[at];
        PyObject *parts = Py_BuildValue("(IIKKNN)", it->kind, it->code, (unsigned long long)it->node, (unsigned long long)it->number,
                                        part_of(batch, it->name_at, it->name_length), part_of(batch, it->value_at, it->value_length));
        if (parts == NULL)
            Py_CLEAR(list);
        else
            PyList_SetItem(list, (Py_ssize_t)at, parts);
    }
    return list;
}

/* Replaces the batch's contents with operations in the library's form, and the bytes that belong to them. */
static PyObject *batch_put(PyObject *self, PyObject *arguments)
{
    Batch *batch = (Batch *)self;
    const char *operations, *bytes;
    Py_ssize_t size, length;
    if (!PyArg_ParseTuple(arguments, "y#y#", &operations, &size, &bytes, &length))
        return NULL;
    batch->count = batch->length = 0;
    for (size_t at = 0; at < (size_t)size / sizeof(bes_operation); at++) {
        bes_operation it;
        memcpy(&it, operations + at * sizeof it, sizeof it);
        if ((size_t)it.name_at + it.name_length > (size_t)length || (size_t)it.value_at + it.value_length > (size_t)length)
            return refused(BES_BAD_PART);
        if (!add_operation(batch, it, (const uint8_t *)bytes + it.name_at, it.name_length, (const uint8_t *)bytes + it.value_at,
                           it.value_length))
            return NULL;
    }
    Py_RETURN_NONE;
}

/* Reads an operation, and adds it to a batch. */
static bool take_operation(Bytes *it, Batch *batch)
{
    Field field = { .value = NULL };
    uint64_t kind, node = 0;
    bool has_value, is_taken = take_kind(it, BES_NEW_NODE, BES_REMOVE_INDEX, &kind);
    is_taken = is_taken && (kind > BES_UNSET || take_number(it, 8, &node)) && (kind < BES_SET || take_name(it, &field));
    has_value = is_taken && kind == BES_SET;
    is_taken = is_taken && ((!has_value && kind != BES_MAKE_INDEX) || take_code(it, &field)) && (!has_value || take_value(it, &field));
    return is_taken && add_operation(batch, (bes_operation){ .kind = (uint32_t)kind, .code = field.code, .node = node, .number = field.number },
                                     field.name, field.name_length, field.value, field.value_length);
}

/* Adds the operations in a batch's bytes. Returns False if these aren't valid. */
static PyObject *batch_take_bytes(PyObject *self, PyObject *data)
{
    Bytes it = { .at = 0 };
    char *all;
    Py_ssize_t length;
    uint64_t count = 0;
    bool is_taken;
    if (PyBytes_AsStringAndSize(data, &all, &length) < 0)
        return NULL;
    it.all = (const uint8_t *)all;
    it.length = (size_t)length;
    take_beginning(&it, OPERATIONS_BEGINNING);
    is_taken = it.fault == NULL && take_number(&it, 1, &count) && count >= 1 && count <= MOST_OPERATIONS;
    for (; is_taken && count > 0; count--)
        is_taken = take_operation(&it, (Batch *)self);
    return PyErr_Occurred() ? NULL : PyBool_FromLong(is_taken && it.at == it.length);
}

PyObject *batch_of(const Listed *listed)
{
    PyObject *made = PyObject_CallObject(known.batch, NULL);
    for (size_t at = 0; made != NULL && at < listed->counts.operations; at++) {
        const bes_operation *it = &listed->operations[at];
        if (!add_operation((Batch *)made, *it, listed->bytes + it->name_at, it->name_length, listed->bytes + it->value_at,
                           it->value_length))
            Py_CLEAR(made);
    }
    return made;
}

/* Adds the operations that a batch is created from, using the batch's method `add`. */
static int add_all(PyObject *self, PyObject *operations)
{
    PyObject *all = PyObject_GetIter(operations), *operation;
    if (all == NULL)
        return -1;
    while ((operation = PyIter_Next(all)) != NULL) {
        PyObject *result = PyObject_CallMethod(self, "add", "(O)", operation);
        Py_DECREF(operation);
        if (result == NULL)
            break;
        Py_DECREF(result);
    }
    Py_DECREF(all);
    return PyErr_Occurred() ? -1 : 0;
}

static int batch_init(PyObject *self, PyObject *arguments, PyObject *names)
{
    static char *parameters[] = { "operations", NULL };
    PyObject *operations = NULL;
    if (PyTuple_Size(arguments) == 0 && names == NULL)
        return 0;
    if (!PyArg_ParseTupleAndKeywords(arguments, names, "|O:Batch", parameters, &operations))
        return -1;
    return operations == NULL ? 0 : add_all(self, operations);
}

static void batch_dealloc(PyObject *self)
{
    PyTypeObject *type = Py_TYPE(self);
    PyMem_Free(((Batch *)self)->operations);
    PyMem_Free(((Batch *)self)->bytes);
    ((freefunc)PyType_GetSlot(type, Py_tp_free))(self);
    Py_DECREF(type);
}

static Py_ssize_t batch_length(PyObject *self) { return (Py_ssize_t)((Batch *)self)->count; }

static PyObject *get_bytes(PyObject *self, void *nothing)
{
    Batch *batch = (Batch *)self;
    (void)nothing;
    return PyBytes_FromStringAndSize(batch->length == 0 ? "" : (const char *)batch->bytes, (Py_ssize_t)batch->length);
}

static PyObject *get_raw(PyObject *self, void *nothing)
{
    Batch *batch = (Batch *)self;
    (void)nothing;
    return PyBytes_FromStringAndSize(batch->count == 0 ? "" : (const char *)batch->operations,
                                     (Py_ssize_t)(batch->count * sizeof(bes_operation)));
}

#define METHOD(function) (PyCFunction)(void (*)(void))function, METH_FASTCALL | METH_KEYWORDS

static PyMethodDef methods[] = {
    { "new_node", batch_new_node, METH_NOARGS, "new_node($self, /)\n--\n\nMakes a node." },
    { "remove_node", METHOD(batch_remove_node), "remove_node($self, /, node)\n--\n\nRemoves a node and all its attributes." },
    { "set", METHOD(batch_set),
      "set($self, /, node, name, value, kind=None)\n--\n\n"
      "Sets an attribute. Without a kind a str is STRING, bytes are RAW, an `Int32` and its like are what they\n"
      "say, and another int is INT64." },
    { "unset", METHOD(batch_unset), "unset($self, /, node, name)\n--\n\nRemoves an attribute." },
    { "make_index", METHOD(batch_make_index),
      "make_index($self, /, name, kind)\n--\n\n"
      "Makes an index of this name, for values of this kind. It takes the attributes that are set from then on." },
    { "remove_index", METHOD(batch_remove_index), "remove_index($self, /, name)\n--\n\nRemoves the index of this name." },
    { "_add_encoded", batch_add_encoded, METH_VARARGS,
      "Adds an operation from its parts: kind, node, name, code, number and value, the name and the value as bytes." },
    { "_take_bytes", batch_take_bytes, METH_O, "Adds the operations in a batch's bytes. Returns False if these aren't valid." },
    { "_parts", batch_parts, METH_NOARGS, "The operations: kind, code, node, number, name and value of each." },
    { "_put", batch_put, METH_VARARGS,
      "Replaces what the batch had with operations in the library's form, and their bytes." },
    { NULL, NULL, 0, NULL },
};

static PyGetSetDef fields[] = {
    { "_bytes", get_bytes, NULL, "The bytes that contain names and values.", NULL },
    { "_raw", get_raw, NULL, "The operations, in the form that the library takes.", NULL },
    { NULL, NULL, NULL, NULL, NULL },
};

static PyType_Slot slots[] = {
    { Py_tp_doc, "Operations, and the bytes that contain their names and values." },
    { Py_tp_init, (void *)batch_init },
    { Py_tp_dealloc, (void *)batch_dealloc },
    { Py_sq_length, (void *)batch_length },
    { Py_tp_methods, methods },
    { Py_tp_getset, fields },
    { 0, NULL },
};

PyType_Spec batch_spec = {
    .name = "bestore._native.Batch",
    .basicsize = sizeof(Batch),
    .flags = Py_TPFLAGS_DEFAULT | Py_TPFLAGS_BASETYPE,
    .slots = slots,
};
