/* Writes and the journal, for both pinned and unpinned passes. */
#include "native.h"

#include <string.h>

/* A write's arguments and results. */
typedef struct Write {
    Handle *handle;
    const bes_operation *operations;
    const uint8_t *bytes;
    size_t count, length;
    bool has_expected;
    uint64_t expected, number;
    uint64_t made[MOST_OPERATIONS];
} Write;

static uint32_t write_now(Write *it)
{
    bes_pass *pass = &it->handle->held.pass;
    size_t room = it->count < MOST_OPERATIONS ? it->count : MOST_OPERATIONS;
    if (it->has_expected)
        return library.apply_if(
            pass, it->expected, it->operations, it->count, it->bytes, it->length, it->made, room, &it->number);
    return library.apply(pass, it->operations, it->count, it->bytes, it->length, it->made, room, &it->number);
}

/* Writes without the GIL. Since another thread may add to the batch meanwhile, this writes a copy of it. */
static bool write_copied(Write *it, uint32_t *answer)
{
    size_t size = it->count * sizeof(bes_operation);
    uint8_t *copy = malloc(size + it->length + 1);
    if (copy == NULL) {
        PyErr_NoMemory();
        return false;
    }
    if (it->count != 0)
        memcpy(copy, it->operations, size);
    memcpy(copy + size, it->bytes, it->length);
    it->operations = (const bes_operation *)(void *)copy;
    it->bytes = copy + size;
    Py_BEGIN_ALLOW_THREADS
    *answer = write_now(it);
    Py_END_ALLOW_THREADS
    free(copy);
    return true;
}

static bool write_batch(Write *it, const Batch *batch, uint32_t *answer)
{
    bool is_written = true;
    if (!enter(it->handle))
        return false;
    it->operations = batch->operations; /* read only now, because another thread may have added to the batch while this one waited */
    it->count = batch->count;
    it->bytes = batch->length == 0 ? (const uint8_t *)"" : batch->bytes;
    it->length = batch->length;
    if (it->count != 0 && it->count <= SHORT_OPERATIONS && it->length <= SHORT_BYTES)
        *answer = write_now(it);
    else
        is_written = write_copied(it, answer);
    leave(it->handle);
    return is_written;
}

PyObject *handle_apply(PyObject *self, PyObject *const *given, Py_ssize_t count)
{
    Write it;
    uint32_t answer = 0;
    PyObject *made;
    it.handle = handle_of(self, OF_PASS);
    it.number = 0;
    it.has_expected = count == 2;
    if (it.handle == NULL)
        return NULL;
    if (count < 1 || count > 2 || !PyObject_TypeCheck(given[0], batch_type)) {
        PyErr_SetString(PyExc_TypeError, "a write takes a batch");
        return NULL;
    }
    if (it.has_expected && !read_number(given[1], &it.expected))
        return NULL;
    if (!write_batch(&it, (Batch *)given[0], &answer))
        return NULL;
    made = list_of(it.made, answer == BES_OK ? it.count : 0);
    return made == NULL ? NULL : Py_BuildValue("(IKN)", answer, (unsigned long long)it.number, made);
}

/* Sets an attribute in one write, without releasing the GIL. */
static bool set_now(Handle *handle, bes_operation *operation, const uint8_t *name, const Encoded *value, uint32_t *answer)
{
    uint8_t bytes[SHORT_BYTES];
    uint64_t made, number;
    memcpy(bytes, name, operation->name_length);
    memcpy(bytes + operation->name_length, value->bytes, value->length);
    if (!enter(handle))
        return false;
    *answer = library.apply(&handle->held.pass, operation, 1, bytes, operation->name_length + value->length, &made, 1, &number);
    leave(handle);
    if (*answer == BES_OK)
        handle->committed = number;
    return true;
}

PyObject *handle_set(PyObject *self, PyObject *const *given, Py_ssize_t count)
{
    Handle *handle = handle_of(self, OF_PASS);
    bes_operation operation = { .kind = BES_SET };
    Encoded value;
    const uint8_t *name;
    size_t length;
    uint32_t answer = BES_DATA_LENGTH;
    bool is_done;
    if (handle == NULL || count != 4 || (PyObject *)Py_TYPE(self) != known.user || is_changing(handle))
        return handle == NULL ? NULL : Py_NewRef(Py_False);
    if (!encode(given[2], given[3], &value))
        return NULL;
    is_done = read_node(given[0], &operation.node) && read_text(given[1], &name, &length);
    if (is_done && length + value.length <= SHORT_BYTES) {
        operation.code = value.code;
        operation.number = value.number;
        operation.name_length = operation.value_at = (uint32_t)length;
        operation.value_length = (uint32_t)value.length;
        is_done = set_now(handle, &operation, name, &value, &answer);
    }
    Py_XDECREF(value.keeper);
    return is_done ? PyBool_FromLong(answer == BES_OK) : NULL;
}

PyObject *handle_journal_entry(PyObject *self, PyObject *from)
{
    Handle *handle = handle_of(self, OF_PASS);
    uint64_t number, by = 0, length = 0;
    Listed listed;
    uint32_t answer;
    PyObject *batch;
    if (handle == NULL || !read_number(from, &number) || !enter(handle))
        return NULL;
    listed.counts.operations = 0;
    answer = library.journal_from(&handle->held.pass, number, &by, &listed.counts, listed.operations, MOST_OPERATIONS, listed.bytes,
                                  BYTES_OF_A_BATCH, &length);
    leave(handle);
    batch = answer == BES_OK && listed.counts.operations != 0 ? batch_of(&listed) : Py_NewRef(Py_None);
    return batch == NULL ? NULL : Py_BuildValue("(IKKN)", answer, (unsigned long long)length, (unsigned long long)by, batch);
}
