/* Readers, which pin a pass and read nodes. */
#include "reader.h"

#include <pythread.h>

/* Returns whether the reader still has its pin. The pass may have a later one since. */
static bool has_pin(const Reader *reader) { return reader->user != NULL && reader->user->reader == reader; }

Handle *enter_pinned(Reader *reader)
{
    Handle *user = reader->user;
    if (user == NULL) {
        refused(BES_NOT_PINNED);
        return NULL;
    }
    if (!enter(user))
        return NULL;
    if (has_pin(reader))
        return user;
    leave(user);
    refused(BES_NOT_PINNED);
    return NULL;
}

static const Signature of_get = { "get", { "node", "name" }, 2, 2 };
static const Signature of_attributes = { "attributes", { "node", "kinds" }, 2, 1 };

/* Reads an attribute as the operations in the reader's draft leave it, or from the snapshot if they don't touch it. */
static uint32_t read_attribute(Reader *reader, Handle *user, uint64_t node, const uint8_t *name, size_t length, Found *found)
{
    bes_pass *pass = &user->held.pass;
    if (reader->draft.live)
        return library.change_get(
            pass, &reader->draft, node, name, length, &found->attribute, found->bytes, BYTES_OF_A_VALUE);
    return library.get(pass, node, name, length, &found->attribute, found->bytes, BYTES_OF_A_VALUE);
}

/* Reads a node's attribute. If the arguments are invalid, raises an exception and returns false. */
static bool find(PyObject *self, PyObject *const *given, Py_ssize_t count, PyObject *names, Found *found)
{
    PyObject *read[2];
    const uint8_t *name;
    size_t length;
    uint64_t node;
    Handle *user;
    if (!read_arguments(&of_get, given, count, names, read))
        return false;
    if (!read_node_in_range(read[0], &node)) {
        found->answer = BES_NO_NODE;
        return !PyErr_Occurred();
    }
    if (!read_text(read[1], &name, &length))
        return false;
    user = enter_pinned((Reader *)self);
    if (user == NULL)
        return false;
    found->answer = read_attribute((Reader *)self, user, node, name, length, found);
    leave(user);
    if (found->answer == BES_OK || found->answer == BES_NO_ATTRIBUTE)
        return true;
    refused(found->answer);
    return false;
}

static PyObject *found_value(const Found *found)
{
    return value_object(found->attribute.code, found->attribute.number, found->bytes, found->attribute.length);
}

static PyObject *found_typed(const Found *found)
{
    return typed_object(found->attribute.code, found->attribute.number, found->bytes, found->attribute.length);
}

static PyObject *found_kind(const Found *found) { return kind_object(found->attribute.code); }

/* Defines a method that returns the attribute, or None if the node has no such attribute. */
#define OR_NONE(function, made)                                                                                       \
    static PyObject *function(PyObject *self, PyObject *const *given, Py_ssize_t count, PyObject *names)              \
    {                                                                                                                 \
        Found found;                                                                                                  \
        if (!find(self, given, count, names, &found))                                                                 \
            return NULL;                                                                                              \
        return found.answer == BES_OK ? made(&found) : Py_NewRef(Py_None);                                            \
    }

/* Defines a method that returns the attribute, or raises the error. */
#define OR_ERROR(function, made)                                                                                      \
    static PyObject *function(PyObject *self, PyObject *const *given, Py_ssize_t count, PyObject *names)              \
    {                                                                                                                 \
        Found found;                                                                                                  \
        if (!find(self, given, count, names, &found))                                                                 \
            return NULL;                                                                                              \
        return found.answer == BES_OK ? made(&found) : refused(found.answer);                                         \
    }

OR_NONE(reader_get, found_value)
OR_NONE(reader_typed, found_typed)
OR_NONE(reader_kind, found_kind)
OR_ERROR(reader_read, found_typed)
OR_ERROR(reader_value, found_value)

/* Makes the dict's value for an operation that sets an attribute or creates an index. */
typedef PyObject *Made(const bes_operation *operation, const uint8_t *bytes);

static PyObject *made_value(const bes_operation *it, const uint8_t *bytes)
{
    return value_object(it->code, it->number, bytes + it->value_at, it->value_length);
}

static PyObject *made_typed(const bes_operation *it, const uint8_t *bytes)
{
    return typed_object(it->code, it->number, bytes + it->value_at, it->value_length);
}

static PyObject *made_kind(const bes_operation *it, const uint8_t *bytes)
{
    (void)bytes;
    return kind_object(it->code);
}

/* Puts an operation's name, and the value made from the operation, into a dict. */
static bool put(PyObject *dict, const bes_operation *it, const uint8_t *bytes, Made *made)
{
    PyObject *name = PyUnicode_DecodeUTF8((const char *)bytes + it->name_at, it->name_length, NULL), *value = NULL;
    bool is_put = name != NULL && (value = made(it, bytes)) != NULL && PyDict_SetItem(dict, name, value) == 0;
    Py_XDECREF(name);
    Py_XDECREF(value);
    return is_put;
}

static PyObject *dict_of(const Listed *listed, Made *made)
{
    PyObject *dict = PyDict_New();
    for (size_t at = 0; dict != NULL && at < listed->counts.operations; at++)
        if (!put(dict, &listed->operations[at], listed->bytes, made))
            Py_CLEAR(dict);
    return dict;
}

static PyObject *reader_attributes(PyObject *self, PyObject *const *given, Py_ssize_t count, PyObject *names)
{
    PyObject *read[2];
    uint64_t node;
    Listed listed;
    uint32_t answer;
    int has_kinds;
    Handle *user;
    if (!read_arguments(&of_attributes, given, count, names, read) || !read_node(read[0], &node))
        return NULL;
    has_kinds = read[1] == NULL ? 0 : PyObject_IsTrue(read[1]);
    if (has_kinds < 0 || (user = enter_pinned((Reader *)self)) == NULL)
        return NULL;
    answer = library.attributes(
        &user->held.pass, node, &listed.counts, listed.operations, MOST_OPERATIONS, listed.bytes, BYTES_OF_A_BATCH);
    leave(user);
    if (answer == BES_NO_NODE)
        return refused_at(answer, node, NULL);
    return answer != BES_OK ? refused(answer) : dict_of(&listed, has_kinds ? made_typed : made_value);
}

static PyObject *reader_indices(PyObject *self, PyObject *nothing)
{
    Listed listed;
    uint32_t answer;
    Handle *user = enter_pinned((Reader *)self);
    (void)nothing;
    if (user == NULL)
        return NULL;
    answer = library.indices(&user->held.pass, &listed.counts, listed.operations, MOST_OPERATIONS, listed.bytes, BYTES_OF_A_BATCH);
    leave(user);
    return answer != BES_OK ? refused(answer) : dict_of(&listed, made_kind);
}

static PyObject *reader_call(PyObject *self, PyObject *const *arguments, Py_ssize_t count)
{
    Handle *user = enter_pinned((Reader *)self);
    PyObject *result;
    if (user == NULL)
        return NULL;
    result = call_guarded(user, arguments, count);
    leave(user);
    return result;
}

void unpin_reader(Reader *reader)
{
    abandon_draft(reader);
    reader->user->reader = NULL;
    unpin(reader->user);
}

/* Unpins for a reader that can't wait until no other thread is using the pass; instead, that thread unpins after its call. */
static void give_pin_up(Reader *reader)
{
    Handle *user = reader->user;
    if (!has_pin(reader))
        return;
    user->reader = NULL;
    if (is_dead(user))
        return;
    abandon_draft(reader);
    if (user->depth == 0 || user->owner == PyThread_get_thread_ident())
        unpin(user);
}

/* Unpins the reader. If a signal ends the wait for another thread, the pin doesn't stay all the same. */
static PyObject *reader_unpin(PyObject *self, PyObject *nothing)
{
    Reader *reader = (Reader *)self;
    (void)nothing;
    if (reader->user == NULL || is_dead(reader->user))
        Py_RETURN_NONE;
    if (!enter(reader->user)) {
        give_pin_up(reader);
        return NULL;
    }
    if (has_pin(reader))
        unpin_reader(reader);
    leave(reader->user);
    Py_RETURN_NONE;
}

/* The beginning and the end of a `with` block. No signal handler written in Python runs before or within them, so none can keep
 * the reader from being unpinned. */
static PyObject *reader_enter(PyObject *self, PyObject *nothing)
{
    (void)nothing;
    return Py_NewRef(self);
}

static PyObject *reader_exit(PyObject *self, PyObject *const *given, Py_ssize_t count)
{
    (void)given, (void)count;
    return reader_unpin(self, NULL);
}

PyObject *handle_unpin(PyObject *self, PyObject *nothing)
{
    Handle *handle = handle_of(self, OF_PASS);
    (void)nothing;
    if (handle == NULL)
        return NULL;
    if (is_dead(handle))
        Py_RETURN_NONE;
    if (!enter(handle))
        return NULL;
    if (handle->reader != NULL)
        unpin_reader(handle->reader);
    leave(handle);
    Py_RETURN_NONE;
}

static int reader_init(PyObject *self, PyObject *arguments, PyObject *names)
{
    static char *parameters[] = { "user", NULL };
    Reader *reader = (Reader *)self;
    PyObject *given;
    Handle *user;
    uint64_t next = 0;
    uint32_t answer;
    if (!PyArg_ParseTupleAndKeywords(arguments, names, "O:Version", parameters, &given) || (user = handle_of(given, OF_PASS)) == NULL)
        return -1;
    if (reader->user != NULL) {
        PyErr_SetString(PyExc_TypeError, "a version pins its pass once");
        return -1;
    }
    if (!enter(user))
        return -1;
    answer = library.pin(&user->held.pass, &reader->number);
    if (answer == BES_OK) {
        reader->user = (Handle *)Py_NewRef(given);
        user->is_pinned = true;
        user->reader = reader;
        user->snapshot = reader->number;
        library.next(&user->held.pass, &next);
        reader->most = next == 0 ? 0 : next - 1;
    }
    leave(user);
    if (answer == BES_OK)
        return 0;
    refused(answer);
    return -1;
}

static int reader_clear(PyObject *self)
{
    give_pin_up((Reader *)self);
    Py_CLEAR(((Reader *)self)->batch);
    Py_CLEAR(((Reader *)self)->user);
    return 0;
}

static int reader_traverse(PyObject *self, visitproc visit, void *arg)
{
    Py_VISIT(Py_TYPE(self));
    Py_VISIT(((Reader *)self)->user);
    Py_VISIT(((Reader *)self)->batch);
    return 0;
}

static void reader_dealloc(PyObject *self)
{
    PyTypeObject *type = Py_TYPE(self);
    PyObject_GC_UnTrack(self);
    reader_clear(self);
    ((freefunc)PyType_GetSlot(type, Py_tp_free))(self);
    Py_DECREF(type);
}

static PyObject *get_number(PyObject *self, void *nothing)
{
    (void)nothing;
    return PyLong_FromUnsignedLongLong(((Reader *)self)->number);
}

static PyObject *get_user(PyObject *self, void *nothing)
{
    Reader *reader = (Reader *)self;
    (void)nothing;
    return reader->user == NULL ? refused(BES_NOT_PINNED) : Py_NewRef((PyObject *)reader->user);
}

static PyObject *get_is_pinned(PyObject *self, void *nothing)
{
    (void)nothing;
    return PyBool_FromLong(has_pin((Reader *)self));
}

static PyObject *get_count(PyObject *self, void *nothing)
{
    const Batch *batch = ((Reader *)self)->batch;
    (void)nothing;
    return PyLong_FromSize_t(batch == NULL ? 0 : batch->count);
}

#define FAST(function) (PyCFunction)(void (*)(void))function, METH_FASTCALL
#define METHOD(function) (PyCFunction)(void (*)(void))function, METH_FASTCALL | METH_KEYWORDS

static PyMethodDef methods[] = {
    { "get", METHOD(reader_get),
      "get($self, /, node, name)\n--\n\n"
      "A node's attribute, or None if there is none: a str, bytes or an int. Takes one search in a tree." },
    { "kind", METHOD(reader_kind),
      "kind($self, /, node, name)\n--\n\n"
      "The kind of a node's attribute, or None if there is none. Takes one search in a tree." },
    { "typed", METHOD(reader_typed),
      "typed($self, /, node, name)\n--\n\n"
      "A node's attribute with its kind, or None if there is none. Takes one search in a tree." },
    { "column", METHOD(reader_column),
      "column($self, /, nodes, name)\n--\n\n"
      "One attribute of many nodes: a list with each node's value, or None if it has none. Takes one\n"
      "search in a tree per node, and memory for the list." },
    { "columns", METHOD(reader_columns),
      "columns($self, /, nodes, names)\n--\n\n"
      "Several attributes of many nodes: for each name a list, as `column` returns it. Takes less time than a\n"
      "`column` for each name, since it reads node by node." },
    { "attributes", METHOD(reader_attributes),
      "attributes($self, /, node, kinds=False)\n--\n\n"
      "A node's attributes: a dict of names and values, or with `kinds` of names and `Typed` values with their\n"
      "kinds, by ascending names. Raises `NoNode` if there is no such node." },
    { "indices", reader_indices, METH_NOARGS,
      "indices($self, /)\n--\n\nThe indices: a dict of names and kinds, by ascending names." },
    { "query", METHOD(reader_query),
      "query($self, /, text, *, by=None, descending=False, limit=None, after=None, start=0)\n--\n\n"
      "The nodes that meet the query, ascending. Raises a `QueryError` if the text isn't a query, or `NotCovered` if it\n"
      "needs another index. Takes the time to parse the text, and to read the part of the indices that it needs.\n\n"
      "`help(bestore.Version.query)` describes the parts of an answer: with `limit`, and in the order `by` an index." },
    { "query_prepared", METHOD(reader_query_prepared),
      "query_prepared($self, /, prepared, *, by=None, descending=False, limit=None, after=None, start=0)\n--\n\n"
      "The nodes that meet a prepared query, as `query` returns them. The result of its last refresh stays." },
    { "count", METHOD(reader_count),
      "count($self, /, query)\n--\n\n"
      "How many nodes meet the query, given as text or prepared. Costs what the query costs, except for the list." },
    { "refresh", METHOD(reader_refresh),
      "refresh($self, /, prepared)\n--\n\n"
      "Which nodes came and which went since the prepared query was last refreshed: two lists, ascending. The\n"
      "first time, all of its nodes come. Refresh a query in versions of one store, or of another that its state was\n"
      "carried on to: nodes are compared by their numbers. After an error the query is as it was." },
    { "_refresh_changed", reader_refresh_changed, METH_O,
      "The same, from what was written since the last refresh, which must have been in this store." },
    { "__enter__", reader_enter, METH_NOARGS, "Returns the version." },
    { "__exit__", FAST(reader_exit), "Unpins the version, if it is still pinned." },
    { "unpin", reader_unpin, METH_NOARGS, "unpin($self, /)\n--\n\nUnpins the version, if it is still pinned." },
    { "_read", METHOD(reader_read), "A node's attribute with its kind. Raises `NoAttribute` if there is none." },
    { "_value", METHOD(reader_value), "A node's attribute. Raises `NoAttribute` if there is none." },
    { "_query_items", reader_query_items, METH_VARARGS, "The nodes that meet a query of encoded items." },
    { "_page", FAST(reader_page),
      "A page of a prepared query, given the query, its order, what its cursors remember of it, the kind and the key of the\n"
      "position, a limit or None, and for a page of rows a list of names, otherwise None." },
    { "_first", FAST(reader_first),
      "The first nodes that meet a prepared query, from a number on, up to a limit; with a list of names instead of None, their\n"
      "rows." },
    { "_any", FAST(reader_any), "Any nodes that meet a prepared query, up to a limit." },
    { "_count_items", reader_count_items, METH_VARARGS, "How many nodes there are." },
    { "_nodes_from", reader_nodes_from, METH_VARARGS, "Up to this many nodes from a number on, in one call." },
    { "_listing_from", FAST(reader_listed),
      "A batch of the snapshot's listing, from this node on, of which so many records are listed already; 0 and 0 for the first\n"
      "batch. Returns it with the same two numbers for the next batch, the node 0 after the last one." },
    { "_take_any_kind", reader_take_any_kind, METH_NOARGS, "From now on its change sets values of any kind." },
    { "_new_node", reader_new_node, METH_NOARGS, "Collects: makes a node. Returns its number." },
    { "_remove_node", reader_remove_node, METH_O, "Collects: removes a node and all its attributes." },
    { "_set_attribute", FAST(reader_set_attribute), "Collects: sets an attribute, with a node, a name, a value, and a kind or None." },
    { "_unset", FAST(reader_unset), "Collects: removes an attribute, given a node and a name." },
    { "_make_index", FAST(reader_make_index), "Collects: makes an index, given a name and a kind." },
    { "_remove_index", reader_remove_index, METH_O, "Collects: removes an index." },
    { "_collected", reader_collected, METH_NOARGS, "The batch of what has been collected, in which new nodes have their numbers." },
    { "_end_change", reader_end_change, METH_NOARGS,
      "Writes what was collected, if nothing was written since this snapshot, and unpins it: the library's result, the commit\n"
      "number or what goes with the error, and the batch that was collected, or None." },
    { "_call", FAST(reader_call), "Makes a call on the pass while it has this pin, and not a later one." },
    { NULL, NULL, 0, NULL },
};

static PyGetSetDef fields[] = {
    { "number", get_number, NULL,
      "The commit number of the last write that it includes, which is also how many writes it includes.", NULL },
    { "_user", get_user, NULL, "The pass.", NULL },
    { "_is_pinned", get_is_pinned, NULL, "Whether it is still pinned.", NULL },
    { "_collected_count", get_count, NULL, "How many operations have been collected.", NULL },
    { NULL, NULL, NULL, NULL, NULL },
};

static PyType_Slot slots[] = {
    { Py_tp_doc, "A snapshot of a pass, which is pinned." },
    { Py_tp_init, (void *)reader_init },
    { Py_tp_dealloc, (void *)reader_dealloc },
    { Py_tp_traverse, (void *)reader_traverse },
    { Py_tp_clear, (void *)reader_clear },
    { Py_tp_methods, methods },
    { Py_tp_getset, fields },
    { 0, NULL },
};

PyType_Spec reader_spec = {
    .name = "bestore._native.Reader",
    .basicsize = sizeof(Reader),
    .flags = Py_TPFLAGS_DEFAULT | Py_TPFLAGS_BASETYPE | Py_TPFLAGS_HAVE_GC,
    .slots = slots,
};
