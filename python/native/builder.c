/* Builders: stores that are made from indices and nodes in order, given one by one or in batches of a listing. docs/KEPT.md describes
 * these batches. */
#include "native.h"

static uint32_t build_index(bes_builder *builder, Bytes *it)
{
    Field field;
    return take_name(it, &field) && take_code(it, &field) ? library.build_index(builder, field.name, field.name_length, field.code) : BES_OK;
}

static uint32_t build_node(bes_builder *builder, Bytes *it)
{
    uint64_t node;
    return take_number(it, 8, &node) ? library.build_node(builder, node) : BES_OK;
}

static uint32_t build_attribute(bes_builder *builder, Bytes *it, bool is_held)
{
    Field field = { .value = (const uint8_t *)"" };
    if (!take_name(it, &field) || !take_code(it, &field) || !take_value(it, &field))
        return BES_OK;
    return library.build_attribute(
        builder, field.name, field.name_length, field.code, field.number, field.value, field.value_length, is_held);
}

/* Gives the builder the next record. */
static uint32_t build_record(bes_builder *builder, Bytes *it)
{
    uint64_t record;
    if (!take_kind(it, LISTED_INDEX, LISTED_HELD, &record))
        return BES_OK;
    if (record == LISTED_INDEX)
        return build_index(builder, it);
    return record == LISTED_NODE ? build_node(builder, it) : build_attribute(builder, it, record == LISTED_HELD);
}

static uint32_t build_batch(bes_builder *builder, Bytes *it)
{
    uint32_t answer = BES_OK;
    take_beginning(it, LISTED_BEGINNING);
    while (answer == BES_OK && it->fault == NULL && it->at < it->length)
        answer = build_record(builder, it);
    return answer;
}

static PyObject *raise_fault(const Bytes *it)
{
    PyObject *error = PyObject_CallFunction(known.bad_bytes, "Ks", (unsigned long long)it->fault_at, it->fault);
    if (error != NULL) {
        PyErr_SetObject((PyObject *)Py_TYPE(error), error);
        Py_DECREF(error);
    }
    return NULL;
}

static PyObject *answered(uint32_t answer) { return answer == BES_OK ? Py_NewRef(Py_None) : refused(answer); }

PyObject *handle_build_batch(PyObject *self, PyObject *batch)
{
    Handle *handle = handle_of(self, OF_BUILDER);
    Bytes it = { .at = 0 };
    char *all;
    Py_ssize_t length;
    uint32_t answer;
    if (handle == NULL || PyBytes_AsStringAndSize(batch, &all, &length) < 0 || !enter(handle))
        return NULL;
    it.all = (const uint8_t *)all;
    it.length = (size_t)length;
    Py_BEGIN_ALLOW_THREADS
    answer = build_batch(&handle->held.builder, &it);
    Py_END_ALLOW_THREADS
    leave(handle);
    return it.fault != NULL ? raise_fault(&it) : answered(answer);
}

PyObject *handle_build_index(PyObject *self, PyObject *const *given, Py_ssize_t count)
{
    Handle *handle = handle_of(self, OF_BUILDER);
    const uint8_t *name;
    size_t length;
    uint32_t code, answer;
    if (handle == NULL || !has_arguments(count, 2) || !read_text(given[0], &name, &length) || !read_code(given[1], &code) ||
        !enter(handle))
        return NULL;
    answer = library.build_index(&handle->held.builder, name, length, code);
    leave(handle);
    return answered(answer);
}

PyObject *handle_build_node(PyObject *self, PyObject *number)
{
    Handle *handle = handle_of(self, OF_BUILDER);
    uint64_t node;
    uint32_t answer;
    if (handle == NULL || !read_node(number, &node) || !enter(handle))
        return NULL;
    answer = library.build_node(&handle->held.builder, node);
    leave(handle);
    return answered(answer);
}

/* Gives the builder an attribute. Unless the caller says whether its index has it, it has it if it is of the index's kind. */
static uint32_t build_encoded(bes_builder *builder, const uint8_t *name, size_t length, const Encoded *value, int held)
{
    uint32_t answer =
        library.build_attribute(builder, name, length, value->code, value->number, value->bytes, value->length, held != 0);
    if (held < 0 && (answer == BES_NO_INDEX || answer == BES_NOT_INDEXABLE))
        return library.build_attribute(builder, name, length, value->code, value->number, value->bytes, value->length, 0);
    return answer;
}

PyObject *handle_build_attribute(PyObject *self, PyObject *const *given, Py_ssize_t count)
{
    Handle *handle = handle_of(self, OF_BUILDER);
    const uint8_t *name;
    size_t length;
    Encoded value;
    int held;
    uint32_t answer = BES_OK;
    bool is_done;
    if (handle == NULL || !has_arguments(count, 4) || !encode(given[1], given[2], &value))
        return NULL;
    held = given[3] == Py_None ? -1 : PyObject_IsTrue(given[3]);
    is_done = !PyErr_Occurred() && read_text(given[0], &name, &length) && enter(handle);
    if (is_done) {
        answer = build_encoded(&handle->held.builder, name, length, &value, held);
        leave(handle);
    }
    Py_XDECREF(value.keeper);
    return is_done ? answered(answer) : NULL;
}
