/* Changes: operations that are collected on a reader's snapshot, in one of the library's drafts, and then written on that
 * snapshot. */
#include "reader.h"

#include <string.h>

/* Abandons the draft, if there is one. The batch still says what would have been written. This needs no call on the pass, so
 * another thread may be using the pass. */
void abandon_draft(Reader *reader)
{
    bes_pass none = BES_PASS_INIT;
    if (reader->draft.live)
        library.abandon_change(&none, &reader->draft);
}

/* Begins a draft on the reader's snapshot, unless there already is one. The caller must have the pass. */
static uint32_t begin_draft(Reader *reader, Handle *user)
{
    uint64_t number, next;
    uint32_t answer;
    if (reader->draft.live)
        return BES_OK;
    answer = library.begin_change(&user->held.pass, &reader->draft, &number, &next);
    if (answer == BES_OK && reader->takes_any_kind)
        library.change_any_kind(&reader->draft);
    return answer;
}

/* Makes the batch, unless there already is one. A finalizer may run then, so call this before entering the pass too. */
static bool make_batch(Reader *reader)
{
    PyObject *batch;
    if (reader->batch != NULL)
        return true;
    batch = PyType_GenericNew((PyTypeObject *)known.batch, NULL, NULL);
    if (batch == NULL)
        return false;
    if (reader->batch == NULL)
        reader->batch = (Batch *)batch;
    else
        Py_DECREF(batch); /* another thread has made one meanwhile */
    return true;
}

/* An operation to collect, the bytes of its name and value, and the library's result. */
typedef struct Collected {
    bes_operation operation;
    const uint8_t *name, *value;
    size_t name_length, value_length;
    uint64_t made; /* the node that it creates, or the type code of the index that refuses its value */
} Collected;

/* Adds an operation to the batch and to the draft, unless the draft refuses it. The caller must have the pass. */
static bool add_to_draft(Reader *reader, Handle *user, Collected *it, uint32_t *answer)
{
    Batch *batch = reader->batch;
    size_t length = batch->length;
    bes_operation *added;
    if (!add_operation(batch, it->operation, it->name, it->name_length, it->value, it->value_length))
        return false;
    added = &batch->operations[batch->count - 1];
    *answer = begin_draft(reader, user);
    if (*answer == BES_OK)
        *answer = library.change_add(&reader->draft, added, batch->bytes == NULL ? (const uint8_t *)"" : batch->bytes,
                                     batch->length, &it->made);
    if (*answer != BES_OK) {
        batch->count--;
        batch->length = length;
    } else if (added->kind == BES_NEW_NODE) {
        added->node = it->made;
    }
    return true;
}

/* Collects an operation. If it is refused, raises the error and returns false. */
static bool collect(PyObject *self, Collected *it, PyObject *name)
{
    Reader *reader = (Reader *)self;
    Handle *user = make_batch(reader) ? enter_pinned(reader) : NULL;
    uint32_t answer = BES_OK;
    bool is_done;
    size_t place;
    if (user == NULL)
        return false;
    is_done = make_batch(reader) && add_to_draft(reader, user, it, &answer);
    place = reader->batch == NULL ? 0 : reader->batch->count;
    leave(user);
    if (answer == BES_WRONG_KIND)
        refused_kind(name, it->operation.code, (uint32_t)it->made);
    else if (answer != BES_OK)
        refused_at(answer, place, "operation");
    return is_done && answer == BES_OK;
}

static PyObject *none_if(bool is_done) { return is_done ? Py_NewRef(Py_None) : NULL; }

PyObject *reader_take_any_kind(PyObject *self, PyObject *nothing)
{
    Reader *reader = (Reader *)self;
    (void)nothing;
    reader->takes_any_kind = true;
    if (reader->draft.live)
        library.change_any_kind(&reader->draft);
    Py_RETURN_NONE;
}

PyObject *reader_new_node(PyObject *self, PyObject *nothing)
{
    Collected it = { .operation = { .kind = BES_NEW_NODE } };
    (void)nothing;
    return collect(self, &it, NULL) ? PyLong_FromUnsignedLongLong(it.made) : NULL;
}

PyObject *reader_remove_node(PyObject *self, PyObject *node)
{
    Collected it = { .operation = { .kind = BES_REMOVE_NODE } };
    return none_if(read_node(node, &it.operation.node) && collect(self, &it, NULL));
}

PyObject *reader_set_attribute(PyObject *self, PyObject *const *given, Py_ssize_t count)
{
    Collected it = { .operation = { .kind = BES_SET } };
    Encoded value;
    bool is_done;
    if (!has_arguments(count, 4) || !encode(given[2], given[3], &value))
        return NULL;
    it.operation.code = value.code;
    it.operation.number = value.number;
    it.value = value.bytes;
    it.value_length = value.length;
    is_done = read_node(given[0], &it.operation.node) && read_text(given[1], &it.name, &it.name_length) &&
              collect(self, &it, given[1]);
    Py_XDECREF(value.keeper);
    return none_if(is_done);
}

PyObject *reader_unset(PyObject *self, PyObject *const *given, Py_ssize_t count)
{
    Collected it = { .operation = { .kind = BES_UNSET } };
    return none_if(has_arguments(count, 2) && read_node(given[0], &it.operation.node) &&
                   read_text(given[1], &it.name, &it.name_length) && collect(self, &it, NULL));
}

PyObject *reader_make_index(PyObject *self, PyObject *const *given, Py_ssize_t count)
{
    Collected it = { .operation = { .kind = BES_MAKE_INDEX } };
    uint64_t code;
    if (!has_arguments(count, 2) || !read_text(given[0], &it.name, &it.name_length))
        return NULL;
    if (!read_in_range(given[1], &code) || code > UINT32_MAX)
        return PyErr_Occurred() ? NULL : refused(BES_NO_KIND);
    it.operation.code = (uint32_t)code;
    return none_if(collect(self, &it, NULL));
}

PyObject *reader_remove_index(PyObject *self, PyObject *name)
{
    Collected it = { .operation = { .kind = BES_REMOVE_INDEX } };
    return none_if(read_text(name, &it.name, &it.name_length) && collect(self, &it, NULL));
}

PyObject *reader_collected(PyObject *self, PyObject *nothing)
{
    Reader *reader = (Reader *)self;
    Handle *user = make_batch(reader) ? enter_pinned(reader) : NULL;
    PyObject *batch;
    (void)nothing;
    if (user == NULL)
        return NULL;
    batch = make_batch(reader) ? Py_NewRef((PyObject *)reader->batch) : NULL;
    leave(user);
    return batch;
}

/* Writes the draft, and releases the GIL if that may take long. The caller must have the pass. */
static uint32_t end_draft(Reader *reader, Handle *user, uint64_t *number)
{
    const Batch *batch = reader->batch;
    uint32_t answer = begin_draft(reader, user);
    if (answer != BES_OK)
        return answer;
    if (batch == NULL || (batch->count <= SHORT_OPERATIONS && batch->length <= SHORT_BYTES))
        return library.end_change(&user->held.pass, &reader->draft, number);
    Py_BEGIN_ALLOW_THREADS
    answer = library.end_change(&user->held.pass, &reader->draft, number);
    Py_END_ALLOW_THREADS
    return answer;
}

PyObject *reader_end_change(PyObject *self, PyObject *nothing)
{
    Reader *reader = (Reader *)self;
    Handle *user = enter_pinned(reader);
    PyObject *batch;
    uint64_t number = 0;
    uint32_t answer;
    (void)nothing;
    if (user == NULL)
        return NULL;
    answer = end_draft(reader, user, &number);
    batch = reader->batch == NULL ? Py_NewRef(Py_None) : (PyObject *)reader->batch;
    reader->batch = NULL;
    unpin_reader(reader);
    leave(user);
    return Py_BuildValue("(IKN)", answer, (unsigned long long)number, batch);
}
