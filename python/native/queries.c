/* Queries on readers, and lists of nodes. */
#include "reader.h"

#include <string.h>
#include <time.h>

enum {
    LEAST_ROOM = 1024,
    FIRST_ROOM = 1 << 17,   /* a query's first buffer has room for at most so many nodes; it grows if there are more */
    MANY_NODES = 256,       /* a longer list of nodes is read without the GIL */
    LONG_TIME = 50000,      /* if a prepared query took more nanoseconds, it next runs without the GIL */
    SHORT_TIME = 20000,     /* if it took fewer, it next runs with the GIL */
    TIMED = 8,              /* of the runs with the GIL, one in this many is timed, but not the first */
};

/* Part of an answer: a page in an order, the first nodes from a given number on, or any nodes. */
typedef struct Part {
    enum { IN_ORDER, FROM_NUMBER, ANY } how;
    size_t limit;
    uint64_t from;
    bes_name by;
    bes_cursor cursor;
    uint32_t descending, more;
} Part;

/* A query in the form in which it is run: as text, as items, or prepared. A prepared query may be run for part of its answer. */
typedef struct Asked {
    Handle *prepared;
    const bes_item *items;
    const uint8_t *bytes;
    size_t count, length;
    Part *part;
    PyObject *names;  /* for rows: the list of their columns' names; NULL for nodes */
    PyObject *source; /* the query that an error refers to */
} Asked;

/* What was found. */
typedef struct Result {
    uint64_t *nodes;
    size_t room;
    uint64_t count;
} Result;

static uint32_t ask_part(bes_pass *pass, bes_prepared *prepared, Part *part, Result *it)
{
    size_t room = it->room < part->limit ? it->room : part->limit;
    if (part->how == FROM_NUMBER)
        return library.first(pass, prepared, part->from, it->nodes, room, &it->count);
    if (part->how == ANY)
        return library.any(pass, prepared, it->nodes, room, &it->count);
    return library.ordered(
        pass, prepared, &part->by, part->descending, &part->cursor, it->nodes, room, &it->count, &part->more);
}

static uint32_t ask_now(bes_pass *pass, const Asked *asked, Result *it)
{
    uint64_t none, *nodes = it->nodes == NULL ? &none : it->nodes;
    if (asked->part != NULL)
        return ask_part(pass, &asked->prepared->held.prepared, asked->part, it);
    if (asked->prepared != NULL)
        return library.query_prepared(pass, &asked->prepared->held.prepared, nodes, it->room, &it->count);
    if (asked->items != NULL)
        return library.query_items(pass, asked->items, asked->count, asked->bytes, asked->length, nodes, it->room, &it->count);
    return library.query(pass, asked->bytes, asked->length, nodes, it->room, &it->count);
}

static int64_t nanoseconds(void)
{
    struct timespec now;
    clock_gettime(CLOCK_MONOTONIC, &now);
    return (int64_t)now.tv_sec * 1000000000 + now.tv_nsec;
}

/* Returns whether a query may take long: one with a wildcard, an inequality or a negation may read a whole index. */
static bool may_take_long(const uint8_t *text, size_t length)
{
    for (size_t at = 0; at < length; at++)
        if (text[at] < 128 && strchr("*?[<>!", text[at]) != NULL)
            return true;
    return false;
}

/* Records whether a prepared query may take long, judging by its text. This applies until the query has run. */
PyObject *handle_expect(PyObject *self, PyObject *text)
{
    const uint8_t *bytes;
    size_t length;
    if (!read_text(text, &bytes, &length))
        return NULL;
    ((Handle *)self)->is_long = may_take_long(bytes, length);
    Py_RETURN_NONE;
}

/* Runs the query with the GIL held, and occasionally measures how long it takes. */
static uint32_t ask_short(bes_pass *pass, const Asked *asked, Result *it)
{
    Handle *prepared = asked->prepared;
    int64_t begun;
    uint32_t answer;
    if (prepared == NULL || prepared->asked++ % TIMED != 1)
        return ask_now(pass, asked, it);
    begun = nanoseconds();
    answer = ask_now(pass, asked, it);
    prepared->is_long = nanoseconds() - begun > LONG_TIME;
    return answer;
}

static uint32_t ask_long(bes_pass *pass, const Asked *asked, Result *it)
{
    int64_t begun, taken;
    uint32_t answer;
    Py_BEGIN_ALLOW_THREADS
    begun = nanoseconds();
    answer = ask_now(pass, asked, it);
    taken = nanoseconds() - begun;
    Py_END_ALLOW_THREADS
    if (asked->prepared != NULL)
        asked->prepared->is_long = taken > SHORT_TIME;
    return answer;
}

/* Runs the query, and releases the GIL if the query may take long or took long last time. */
static uint32_t ask_once(bes_pass *pass, const Asked *asked, Result *it)
{
    bool is_long = asked->prepared != NULL ? asked->prepared->is_long
                                           : asked->items != NULL || may_take_long(asked->bytes, asked->length);
    return is_long ? ask_long(pass, asked, it) : ask_short(pass, asked, it);
}

/* Takes the pass's buffer for found nodes, or allocates one. It has room for all nodes of most stores, or of a part, so that few
 * queries run twice; memory that is never written costs nothing. A query that finds more nodes than fit runs again, but a prepared
 * query keeps its result. */
static bool take_room(Handle *user, uint64_t most, const Part *part, Result *it)
{
    size_t wanted = (size_t)(most < FIRST_ROOM ? most : FIRST_ROOM);
    if (part != NULL && part->limit < wanted)
        wanted = part->limit;
    it->nodes = user->nodes;
    it->room = user->room;
    user->nodes = NULL;
    user->room = 0;
    if (it->room < wanted || it->room == 0) {
        size_t room = wanted < 2 * it->room ? 2 * it->room : wanted < LEAST_ROOM ? LEAST_ROOM : wanted;
        uint64_t *nodes = malloc(room * sizeof *nodes);
        if (nodes == NULL && it->nodes == NULL) {
            PyErr_NoMemory();
            return false;
        }
        if (nodes != NULL) {
            free(it->nodes);
            *it = (Result){ .nodes = nodes, .room = room };
        }
    }
    return true;
}

/* Returns whether nodes didn't fit, or may not have fit: a part doesn't say how many nodes it leaves out. */
static bool is_cut(const Result *it, uint64_t most, const Part *part)
{
    if (part == NULL)
        return it->count > it->room;
    return it->count == it->room && it->room < most && it->room < part->limit;
}

/* Makes room for this many nodes. */
static bool grow_room(Result *it, uint64_t room)
{
    uint64_t *nodes = room > PY_SSIZE_T_MAX / sizeof *nodes ? NULL : realloc(it->nodes, (size_t)room * sizeof *nodes);
    if (nodes == NULL) {
        PyErr_NoMemory();
        return false;
    }
    it->nodes = nodes;
    it->room = (size_t)room;
    return true;
}

static void give_back(Handle *user, Result *it)
{
    if (user->nodes == NULL) {
        user->nodes = it->nodes;
        user->room = it->room;
    } else {
        free(it->nodes); /* a query that ran meanwhile has allocated its own buffer */
    }
    it->nodes = NULL;
}

/* Runs the query, and writes the nodes if the caller wants them. */
static bool ask(Handle *user, uint64_t most, const Asked *asked, bool wants_nodes, Result *it, uint32_t *answer)
{
    const Part begin = asked->part != NULL ? *asked->part : (Part){ .limit = 0 };
    *it = (Result){ .nodes = NULL };
    if (wants_nodes && !take_room(user, most, asked->part, it))
        return false;
    *answer = ask_once(&user->held.pass, asked, it);
    while (wants_nodes && *answer == BES_OK && is_cut(it, most, asked->part)) {
        if (!grow_room(it, asked->part != NULL ? 4 * (uint64_t)it->room : it->count))
            return false;
        if (asked->part != NULL)
            *asked->part = begin;
        *answer = asked->prepared == NULL || asked->part != NULL
                      ? ask_once(&user->held.pass, asked, it)
                      : library.found(&asked->prepared->held.prepared, 0, it->nodes, it->room, &it->count);
    }
    return true;
}

/* Raises the error for a query, which the reader creates. */
static PyObject *query_refused(Reader *reader, uint32_t answer, uint64_t carried, const Asked *asked)
{
    PyObject *error = PyObject_CallMethod(
        (PyObject *)reader, "_query_error", "IKO", answer, (unsigned long long)carried, asked->source);
    if (error != NULL) {
        PyErr_SetObject((PyObject *)Py_TYPE(error), error);
        Py_DECREF(error);
    }
    return NULL;
}

/* Returns the nodes that a query found, their rows, or their number, or raises its error. */
static PyObject *found_by(Reader *reader, const Asked *asked, bool wants_nodes, uint32_t answer, const Result *it)
{
    if (answer != BES_OK)
        return query_refused(reader, answer, it->count, asked);
    if (asked->names != NULL)
        return rows_of(reader, it->nodes, (size_t)it->count, asked->names);
    return wants_nodes ? list_of(it->nodes, (size_t)it->count) : PyLong_FromUnsignedLongLong(it->count);
}

/* Returns the nodes that a query finds, their rows, or their number. Objects are made only after other threads can use the pass
 * again, because a finalizer might run then and wait for one of these threads. */
static PyObject *answered(Reader *reader, const Asked *asked, bool wants_nodes)
{
    Handle *user;
    Result it;
    uint32_t answer = 0;
    bool is_done;
    PyObject *found = NULL;
    if (asked->prepared != NULL && !enter(asked->prepared))
        return NULL;
    user = enter_pinned(reader);
    is_done = user != NULL && ask(user, reader->most, asked, wants_nodes, &it, &answer);
    if (user != NULL)
        leave(user);
    if (asked->prepared != NULL)
        leave(asked->prepared);
    if (user == NULL)
        return NULL;
    if (is_done)
        found = found_by(reader, asked, wants_nodes, answer, &it);
    if (it.nodes != NULL)
        give_back(user, &it);
    return found;
}

static bool read_query(PyObject *text, Asked *asked)
{
    Py_ssize_t length;
    const char *bytes = PyUnicode_AsUTF8AndSize(text, &length);
    if (bytes == NULL) {
        if (!PyUnicode_Check(text) || PyErr_ExceptionMatches(PyExc_UnicodeEncodeError)) {
            PyErr_Clear();
            Py_XDECREF(PyObject_CallFunctionObjArgs(known.encoded_query, text, NULL));
        }
        return false;
    }
    *asked = (Asked){ .bytes = (const uint8_t *)bytes, .length = (size_t)length, .source = text };
    return true;
}

static bool read_prepared(PyObject *prepared, Asked *asked)
{
    *asked = (Asked){ .prepared = handle_of(prepared, OF_PREPARED), .source = prepared };
    return asked->prepared != NULL;
}

/* Reads encoded items, given as their source, the items, and their bytes. */
static bool read_items(PyObject *arguments, Asked *asked)
{
    PyObject *source;
    const char *items, *bytes;
    Py_ssize_t size, length;
    if (!PyArg_ParseTuple(arguments, "Oy#y#", &source, &items, &size, &bytes, &length))
        return false;
    *asked = (Asked){ .items = (const bes_item *)(const void *)items, .count = (size_t)size / sizeof(bes_item),
                      .bytes = (const uint8_t *)bytes, .length = (size_t)length, .source = source };
    return true;
}

static const Signature of_text = { "query", { "text", "by", "descending", "limit", "after", "start" }, 6, 1 };
static const Signature of_prepared = { "query_prepared", { "prepared", "by", "descending", "limit", "after", "start" }, 6, 1 };
static const Signature of_count = { "count", { "query" }, 1, 1 };
static const Signature of_refresh = { "refresh", { "prepared" }, 1, 1 };

/* Returns a name as an object, which is made only once. */
static PyObject *kept_name(PyObject **name, const char *text)
{
    if (*name == NULL)
        *name = PyUnicode_InternFromString(text);
    return *name;
}

/* Calls the package's method that returns part of an answer. */
static PyObject *part_by(PyObject *self, PyObject *const *read)
{
    static PyObject *name;
    PyObject *zero = PyLong_FromLong(0), *part = NULL;
    PyObject *all[] = { NULL, Py_None, Py_False, Py_None, Py_None, zero };
    for (int at = 0; at < 6; at++)
        if (read[at] != NULL)
            all[at] = read[at];
    if (zero != NULL && kept_name(&name, "_part_of") != NULL)
        part = PyObject_CallMethodObjArgs(self, name, all[0], all[1], all[2], all[3], all[4], all[5], NULL);
    Py_XDECREF(zero);
    return part;
}

/* Returns the nodes that a query finds. If there are other arguments, which have names, the package handles the call. */
static PyObject *query_by(
    PyObject *self, PyObject *const *given, Py_ssize_t count, PyObject *names, const Signature *signature,
    bool (*read_asked)(PyObject *, Asked *))
{
    PyObject *read[6];
    Asked asked;
    if (!read_arguments(signature, given, count, names, read))
        return NULL;
    if (count > 1)
        return PyErr_Format(PyExc_TypeError, "%s() takes 1 argument without a name, and %zd were given", signature->function, count);
    if (names != NULL && (count == 1 || PyTuple_Size(names) > 1))
        return part_by(self, read);
    return read_asked(read[0], &asked) ? answered((Reader *)self, &asked, true) : NULL;
}

PyObject *reader_query(PyObject *self, PyObject *const *given, Py_ssize_t count, PyObject *names)
{
    return query_by(self, given, count, names, &of_text, read_query);
}

PyObject *reader_query_items(PyObject *self, PyObject *arguments)
{
    Asked asked;
    return read_items(arguments, &asked) ? answered((Reader *)self, &asked, true) : NULL;
}

PyObject *reader_query_prepared(PyObject *self, PyObject *const *given, Py_ssize_t count, PyObject *names)
{
    return query_by(self, given, count, names, &of_prepared, read_prepared);
}

PyObject *reader_count(PyObject *self, PyObject *const *given, Py_ssize_t count, PyObject *names)
{
    PyObject *query;
    Asked asked;
    bool is_read = read_arguments(&of_count, given, count, names, &query) &&
                   (PyObject_TypeCheck(query, handle_type) ? read_prepared(query, &asked) : read_query(query, &asked));
    return is_read ? answered((Reader *)self, &asked, false) : NULL;
}

PyObject *reader_count_items(PyObject *self, PyObject *arguments)
{
    Asked asked;
    return read_items(arguments, &asked) ? answered((Reader *)self, &asked, false) : NULL;
}

/* Returns part of a prepared query's answer: nodes, or rows if `names` isn't None. */
static PyObject *answered_part(PyObject *self, PyObject *prepared, PyObject *names, Part *part)
{
    Asked asked;
    if (!read_prepared(prepared, &asked))
        return NULL;
    if (names != Py_None && !PyList_Check(names))
        return PyErr_Format(PyExc_TypeError, "%R isn't a list of names", names);
    asked.part = part;
    asked.names = names == Py_None ? NULL : names;
    return answered((Reader *)self, &asked, true);
}

/* Reads a limit. None, and a limit that is too large for a list, mean the longest list. */
static bool read_limit(PyObject *limit, size_t *most)
{
    Py_ssize_t number = limit == Py_None ? PY_SSIZE_T_MAX : PyNumber_AsSsize_t(limit, NULL);
    *most = (size_t)number;
    if (number < 0 && !PyErr_Occurred())
        PyErr_Format(PyExc_ValueError, "a limit is 0 or more, and %zd was given", number);
    return number >= 0;
}

PyObject *reader_first(PyObject *self, PyObject *const *given, Py_ssize_t count)
{
    Part part = { .how = FROM_NUMBER };
    if (!has_arguments(count, 4) || !read_number(given[1], &part.from) || !read_limit(given[2], &part.limit))
        return NULL;
    return answered_part(self, given[0], given[3], &part);
}

PyObject *reader_any(PyObject *self, PyObject *const *given, Py_ssize_t count)
{
    Part part = { .how = ANY };
    if (!has_arguments(count, 2) || !read_limit(given[1], &part.limit))
        return NULL;
    return answered_part(self, given[0], Py_None, &part);
}

/* Reads an order, which is a pair of an index's name and whether it is descending. */
static bool read_order(PyObject *order, Part *part)
{
    const uint8_t *name;
    size_t length;
    uint32_t answer;
    int descending;
    if (!PyTuple_Check(order) || PyTuple_Size(order) != 2) {
        PyErr_Format(PyExc_TypeError, "%R isn't an order", order);
        return false;
    }
    descending = PyObject_IsTrue(PyTuple_GetItem(order, 1));
    if (descending < 0 || !read_text(PyTuple_GetItem(order, 0), &name, &length))
        return false;
    part->descending = (uint32_t)descending;
    answer = library.check_name(name, length, &part->by);
    return answer == BES_OK || refused(answer) != NULL;
}

/* Reads where a page begins: the kind and the key of its cursor. */
static bool read_position(PyObject *kind, PyObject *bytes, bes_cursor *cursor)
{
    uint64_t number;
    char *key;
    Py_ssize_t length;
    if (!read_number(kind, &number) || PyBytes_AsStringAndSize(bytes, &key, &length) < 0)
        return false;
    if ((size_t)length > sizeof cursor->key)
        return refused(BES_BAD_CURSOR) != NULL;
    *cursor = (bes_cursor){ .kind = (uint32_t)number, .length = (uint32_t)length };
    memcpy(cursor->key, key, (size_t)length);
    return true;
}

/* Makes a page of these items, as the package's class does. Its cursor is made from the position when it is asked for. */
static PyObject *page_of(PyObject *items, const Part *part, PyObject *order, PyObject *check)
{
    static PyObject *more_name, *position_name;
    PyObject *page = PyType_GenericNew((PyTypeObject *)known.page, NULL, NULL);
    PyObject *position = Py_BuildValue("(OOIy#)", order, check, part->cursor.kind, (const char *)part->cursor.key,
                                       (Py_ssize_t)part->cursor.length);
    if (page == NULL || position == NULL || PyList_SetSlice(page, 0, 0, items) < 0 ||
        kept_name(&more_name, "more") == NULL || kept_name(&position_name, "_position") == NULL ||
        PyObject_SetAttr(page, more_name, part->more ? Py_True : Py_False) < 0 ||
        PyObject_SetAttr(page, position_name, position) < 0)
        Py_CLEAR(page);
    Py_XDECREF(position);
    return page;
}

PyObject *reader_page(PyObject *self, PyObject *const *given, Py_ssize_t count)
{
    PyObject *items, *page;
    Part part = { .how = IN_ORDER };
    if (!has_arguments(count, 7) || !read_order(given[1], &part) || !read_position(given[3], given[4], &part.cursor) ||
        !read_limit(given[5], &part.limit) || (items = answered_part(self, given[0], given[6], &part)) == NULL)
        return NULL;
    page = page_of(items, &part, given[1], given[2]);
    Py_DECREF(items);
    return page;
}

/* What a refresh found: how many nodes joined and left, and the nodes themselves. */
typedef struct Changes {
    bes_updates updates;
    uint64_t *nodes; /* the nodes that joined, followed by those that left */
} Changes;

/* A library call that refreshes a query. */
typedef uint32_t (*Refresh)(bes_pass *, bes_prepared *, bes_updates *);

static uint32_t refresh_now(Refresh refresh, bes_pass *pass, bes_prepared *prepared, Changes *it)
{
    uint32_t answer = refresh(pass, prepared, &it->updates);
    if (answer != BES_OK)
        return answer;
    it->nodes = malloc((it->updates.created + it->updates.removed + 1) * sizeof *it->nodes);
    if (it->nodes == NULL)
        return BES_OK;
    return library.changes(prepared, it->nodes, it->updates.created, it->nodes + it->updates.created, it->updates.removed);
}

/* Returns what a refresh found, as two lists. */
static PyObject *changes_of(const Changes *it)
{
    PyObject *came = list_of(it->nodes, it->updates.created), *result = NULL;
    PyObject *went = list_of(it->nodes + it->updates.created, it->updates.removed);
    if (came != NULL && went != NULL)
        result = PyTuple_Pack(2, came, went);
    Py_XDECREF(came);
    Py_XDECREF(went);
    return result;
}

static PyObject *refreshed(PyObject *self, PyObject *prepared, Refresh refresh)
{
    PyObject *result;
    Asked asked;
    Changes it = { { 0, 0 }, NULL };
    uint32_t answer = 0;
    Handle *user;
    if (!read_prepared(prepared, &asked) || !enter(asked.prepared))
        return NULL;
    user = enter_pinned((Reader *)self);
    if (user != NULL) {
        Py_BEGIN_ALLOW_THREADS
        answer = refresh_now(refresh, &user->held.pass, &asked.prepared->held.prepared, &it);
        Py_END_ALLOW_THREADS
        leave(user);
    }
    leave(asked.prepared);
    if (user == NULL)
        return NULL;
    if (answer != BES_OK)
        return query_refused((Reader *)self, answer, 0, &asked);
    result = it.nodes == NULL ? PyErr_NoMemory() : changes_of(&it);
    free(it.nodes);
    return result;
}

PyObject *reader_refresh(PyObject *self, PyObject *const *given, Py_ssize_t count, PyObject *names)
{
    PyObject *prepared;
    return read_arguments(&of_refresh, given, count, names, &prepared) ? refreshed(self, prepared, library.refresh) : NULL;
}

PyObject *reader_refresh_changed(PyObject *self, PyObject *prepared)
{
    return refreshed(self, prepared, library.refresh_changed);
}

PyObject *reader_nodes_from(PyObject *self, PyObject *arguments)
{
    unsigned long long first;
    Py_ssize_t room;
    uint64_t *nodes, count = 0;
    uint32_t answer;
    PyObject *list;
    Handle *user;
    if (!PyArg_ParseTuple(arguments, "Kn", &first, &room))
        return NULL;
    nodes = room < 0 || (size_t)room > PY_SSIZE_T_MAX / sizeof *nodes - 1 ? NULL : malloc(((size_t)room + 1) * sizeof *nodes);
    if (nodes == NULL)
        return PyErr_NoMemory();
    user = enter_pinned((Reader *)self);
    if (user == NULL) {
        free(nodes);
        return NULL;
    }
    if (room > MANY_NODES) {
        Py_BEGIN_ALLOW_THREADS
        answer = library.nodes(&user->held.pass, first, nodes, (size_t)room, &count);
        Py_END_ALLOW_THREADS
    } else {
        answer = library.nodes(&user->held.pass, first, nodes, (size_t)room, &count);
    }
    leave(user);
    list = answer == BES_OK ? list_of(nodes, (size_t)count) : refused(answer);
    free(nodes);
    return list;
}
